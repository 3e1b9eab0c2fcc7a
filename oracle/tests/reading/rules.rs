//! Passes 1 and 3 to 9, by modules 2 and 4 to 10 of document 01.

use crate::table::{fault, Declaration, Part};
use oracle::fault::Fault;
use oracle::record::{kind, Record};

/// A pass over the listed declarations.
type Pass = fn(&[Declaration]) -> Vec<Fault>;

pub const PASSES_3_TO_9: [Pass; 7] = [
    |listed| listed.iter().flat_map(repeated_fields).collect(),
    |listed| {
        listed.iter().filter(|found| found.head.kind == kind::ENUM).flat_map(enum_faults).collect()
    },
    |listed| listed.iter().flat_map(size_faults).collect(),
    fixed_faults,
    payload_faults,
    |listed| listed.iter().flat_map(array_faults).collect(),
    |listed| listed.iter().flat_map(padding_faults).collect(),
];

pub fn pass1(declared: &[Declaration]) -> Vec<Fault> {
    let named: Vec<&Record> =
        declared.iter().map(|found| found.head).filter(|head| head.kind != kind::TEST).collect();
    repeats(&named, 1, |one, other| one.name == other.name)
}

/// A fault at each record that is the same as an earlier one; the secondary is the nearest.
fn repeats(records: &[&Record], code: u16, same: fn(&Record, &Record) -> bool) -> Vec<Fault> {
    let nearest = |at: usize| records[..at].iter().rev().find(|earlier| same(earlier, records[at]));
    let found = |at: usize| nearest(at).map(|earlier| fault(code, records[at], Some(earlier)));
    (0..records.len()).filter_map(found).collect()
}

fn has_name(record: &Record) -> bool {
    matches!(record.kind, 30..=33)
}

fn repeated_fields(declaration: &Declaration) -> Vec<Fault> {
    let named: Vec<&Record> =
        declaration.fields().map(|field| field.record).filter(|field| has_name(field)).collect();
    repeats(&named, 11, |one, other| one.name == other.name)
}

fn greatest(width: u64) -> u64 {
    if width >= 64 {
        u64::MAX
    } else {
        (1 << width) - 1
    }
}

/// The bounds of a range put in order.
fn bounds(range: &Record) -> (u64, u64) {
    (range.one.min(range.two), range.one.max(range.two))
}

fn enum_faults(declaration: &Declaration) -> Vec<Fault> {
    let tags: Vec<&Record> = declaration.parts.iter().map(|part| part.record).collect();
    let most = greatest(declaration.head.one);
    let mut faults: Vec<Fault> =
        (0..tags.len()).flat_map(|at| tag_faults(&tags, at, most)).collect();
    let mut ranges: Vec<&Record> =
        tags.into_iter().filter(|tag| tag.kind == kind::TAG_RANGE).collect();
    ranges.sort_by_key(|range| bounds(range));
    for pair in ranges.windows(2) {
        if bounds(pair[0]).1 >= bounds(pair[1]).0 {
            faults.push(fault(41, pair[1], Some(pair[0])));
        }
    }
    faults
}

/// The faults at one tag of an enum.
fn tag_faults(tags: &[&Record], at: usize, most: u64) -> Vec<Fault> {
    let (tag, earlier) = (tags[at], &tags[..at]);
    let nearest =
        |wanted: &dyn Fn(&Record) -> bool| earlier.iter().rev().copied().find(|t| wanted(t));
    let mut faults = Vec::new();
    let twin = nearest(&|other| other.name == tag.name);
    faults.extend(twin.map(|twin| fault(12, tag, Some(twin))));
    match tag.kind {
        kind::TAG_RANGE => {
            faults.extend((tag.one > most || tag.two > most).then(|| fault(40, tag, None)));
            faults.extend((tag.one >= tag.two).then(|| fault(40, tag, None)));
        }
        kind::DEFAULT_TAG => {
            let latest = nearest(&|other| other.kind == kind::DEFAULT_TAG);
            faults.extend(latest.map(|latest| fault(44, tag, Some(latest))));
        }
        _ => {
            let twin = nearest(&|other| matches!(other.kind, 40 | 42) && other.one == tag.one);
            faults.extend(twin.map(|twin| fault(13, tag, Some(twin))));
            faults.extend(outside(tags, at, most).then(|| fault(14, tag, None)));
            faults.extend(holding_ranges(tags, tag).map(|_| fault(43, tag, None)));
        }
    }
    faults
}

/// Whether a value lies outside its width, or an inner value outside its range.
fn outside(tags: &[&Record], at: usize, most: u64) -> bool {
    if tags[at].kind == kind::TAG_VALUE {
        return tags[at].one > most;
    }
    let range = tags[..at].iter().rev().find(|tag| tag.kind == kind::TAG_RANGE);
    let (least, most) = bounds(range.expect("an inner value stands in a range"));
    tags[at].one < least || tags[at].one > most
}

fn holding_ranges<'t>(tags: &'t [&Record], value: &'t Record) -> impl Iterator<Item = ()> + 't {
    let holds = |range: &Record| bounds(range).0 <= value.one && value.one <= bounds(range).1;
    let ranges = tags.iter().filter(move |tag| tag.kind == kind::TAG_RANGE && holds(tag));
    ranges.filter(|_| value.kind == kind::TAG_VALUE).map(|_| ())
}

fn size_faults(declaration: &Declaration) -> Vec<Fault> {
    let fields: Vec<&Record> = declaration.fields().map(|field| field.record).collect();
    let mut faults = Vec::new();
    for (at, field) in fields.iter().enumerate() {
        let (first_code, sharing): (u16, &[u8]) = match field.kind {
            kind::SIZE => (23, &[22, 23]),
            kind::COUNT => (26, &[22, 23]),
            kind::ELEMENT_SIZE => (29, &[24]),
            _ => continue,
        };
        let same = |other: &&&Record| sharing.contains(&other.kind) && other.second == field.second;
        let twin = fields[..at].iter().rev().find(same);
        faults.extend(twin.map(|twin| fault(first_code, field, Some(twin))));
        match fields.iter().find(|found| size_matches(field, found)) {
            None => faults.push(fault(first_code + 1, field, None)),
            Some(found) if matches!(found.kind, kind::ARRAY | kind::PAYLOAD | kind::BODY) => (),
            Some(found) => faults.push(fault(first_code + 2, field, Some(found))),
        }
    }
    faults
}

fn size_matches(size: &Record, found: &Record) -> bool {
    match found.kind {
        kind::PAYLOAD => size.kind == kind::SIZE && size.second == 1,
        kind::BODY => size.kind == kind::SIZE && size.second == 2,
        _ => has_name(found) && found.name == size.second,
    }
}

fn fixed_faults(listed: &[Declaration]) -> Vec<Fault> {
    let fields = listed.iter().flat_map(|found| found.fields().map(|field| field.record));
    fields.filter_map(|field| fixed_fault(listed, field)).collect()
}

fn fixed_fault(listed: &[Declaration], field: &Record) -> Option<Fault> {
    if field.kind == kind::FIXED_SCALAR {
        let width = u64::from(64 - field.two.leading_zeros());
        return (width > field.one).then(|| fault(32, field, None));
    }
    if field.kind != kind::FIXED_ENUM {
        return None;
    }
    let Some(found) = listed.iter().find(|found| found.head.name == field.second) else {
        return Some(fault(33, field, None));
    };
    let is_tag =
        |part: &Part| part.record.kind != kind::INNER_VALUE && part.record.name == field.third;
    match found.head.kind {
        kind::ENUM if found.parts.iter().any(is_tag) => None,
        kind::ENUM => Some(fault(34, field, Some(found.head))),
        _ => Some(fault(35, field, Some(found.head))),
    }
}

fn payload_faults(listed: &[Declaration]) -> Vec<Fault> {
    let mut faults = Vec::new();
    for declaration in listed {
        let fields = declaration.fields().map(|field| field.record);
        let payloads: Vec<&Record> =
            fields.filter(|field| matches!(field.kind, kind::PAYLOAD | kind::BODY)).collect();
        faults.extend(payloads.iter().skip(1).map(|later| fault(36, later, Some(payloads[0]))));
        let is_child = |other: &Declaration| {
            matches!(other.head.kind, 4 | 5) && other.head.second == declaration.head.name
        };
        let is_needed =
            listed.iter().any(|other| is_child(other) && other.fields().next().is_some());
        faults
            .extend((payloads.is_empty() && is_needed).then(|| fault(37, declaration.head, None)));
    }
    faults
}

fn array_faults(declaration: &Declaration) -> Vec<Fault> {
    let fields: Vec<&Record> = declaration.fields().map(|field| field.record).collect();
    let counted = fields.iter().filter(|field| field.kind == kind::ARRAY && field.has_mark(1));
    let redundant = |array: &Record| {
        let sizes = |field: &&&Record| matches!(field.kind, 22 | 23) && field.second == array.name;
        fields.iter().find(sizes).map(|size| fault(38, size, Some(array)))
    };
    counted.filter_map(|array| redundant(array)).collect()
}

fn padding_faults(declaration: &Declaration) -> Vec<Fault> {
    let fields: Vec<&Record> = declaration.fields().map(|field| field.record).collect();
    let is_stray = |&at: &usize| {
        fields[at].kind == kind::PADDING && (at == 0 || fields[at - 1].kind != kind::ARRAY)
    };
    (0..fields.len()).filter(is_stray).map(|at| fault(39, fields[at], None)).collect()
}
