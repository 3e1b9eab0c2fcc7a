//! Inlining and flags, by modules 11 and 12 of document 01, and the rows of the room limits.

use crate::table::{Declaration, Part};
use oracle::record::{kind, Record};
use oracle::reply::Reply;
use std::collections::HashMap;

/// A field of the inlined table.
struct Inlined<'a> {
    record: Record,
    condition: Option<&'a Record>,
    is_unfit: bool,
}

/// The accepted table, or the reply of the first row that applies.
pub fn accepted(listed: &[Declaration], table_len: usize) -> Result<Vec<Record>, Reply> {
    let sizes = sizes(listed);
    let kept: Vec<&Declaration> = listed.iter().filter(|d| d.head.kind != kind::GROUP).collect();
    let total: u128 = kept.iter().map(|declaration| size(declaration, &sizes)).sum();
    if total > 1_600 {
        return Err(Reply::Swollen);
    }
    let groups: HashMap<u16, &Declaration> =
        listed.iter().filter(|d| d.head.kind == kind::GROUP).map(|d| (d.head.name, d)).collect();
    let bodies: Vec<Vec<Inlined>> = kept.iter().map(|d| body(d, &groups, &sizes)).collect();
    if let Some(field) = bodies.iter().flatten().find(|field| field.is_unfit) {
        return Err(Reply::Unfit(field.record.key));
    }
    if let Some(field) = bodies.iter().flatten().find(|field| is_loose(field)) {
        return Err(Reply::Loose(field.record.key));
    }
    let records: Vec<Record> =
        kept.iter().zip(&bodies).flat_map(|(d, body)| written(d, body)).collect();
    match records.len() {
        count if count > 1_600 => Err(Reply::Overlisted),
        count if 40 * count > table_len => Err(Reply::NoRoom(40 * count)),
        _ => Ok(records),
    }
}

/// The records of each group, exact as far as they stay small.
fn sizes(listed: &[Declaration]) -> HashMap<u16, u128> {
    let mut sizes = HashMap::new();
    for group in listed.iter().filter(|declaration| declaration.head.kind == kind::GROUP) {
        let own: u128 = size(group, &sizes) - 1;
        sizes.insert(group.head.name, own.min(1 << 64));
    }
    sizes
}

/// The records of a declaration with its groups inlined.
fn size(declaration: &Declaration, sizes: &HashMap<u16, u128>) -> u128 {
    let part_size = |part: &Part| match part.record.kind {
        kind::GROUP_FIELD => sizes[&part.record.second],
        _ => 1 + u128::from(part.condition.is_some()),
    };
    let parts: u128 = declaration.parts.iter().map(part_size).sum();
    1 + declaration.constraints.len() as u128 + parts
}

fn body<'a>(
    declaration: &Declaration<'a>,
    groups: &HashMap<u16, &Declaration<'a>>,
    sizes: &HashMap<u16, u128>,
) -> Vec<Inlined<'a>> {
    let mut fields = Vec::new();
    expand(&declaration.parts, &[], groups, sizes, &mut fields);
    fields
}

/// Expands fields under constraints; of one name the later in the list holds.
fn expand<'a>(
    parts: &[Part<'a>],
    holding: &[Record],
    groups: &HashMap<u16, &Declaration<'a>>,
    sizes: &HashMap<u16, u128>,
    fields: &mut Vec<Inlined<'a>>,
) {
    for part in parts {
        if part.record.kind != kind::GROUP_FIELD {
            fields.push(inlined(part, holding));
        } else if sizes[&part.record.second] > 0 {
            let merged = [holding, part.constraints].concat();
            expand(&groups[&part.record.second].parts, &merged, groups, sizes, fields);
        }
    }
}

fn inlined<'a>(part: &Part<'a>, holding: &[Record]) -> Inlined<'a> {
    let (field, condition) = (*part.record, part.condition);
    let held = holding.iter().rev().find(|held| held.name == field.name);
    let bare = Record { name: 0, second: 0, ..field };
    let (record, is_unfit) = match (field.kind, held) {
        (kind::SCALAR, Some(held)) => {
            (Record { kind: kind::FIXED_SCALAR, two: held.one, ..bare }, !held.has_mark(0))
        }
        (kind::TYPEDEF, Some(held)) => {
            let fixed = Record { kind: kind::FIXED_ENUM, second: field.second, ..bare };
            (Record { third: held.second, ..fixed }, held.second == 0)
        }
        _ => (field, false),
    };
    Inlined { record, condition, is_unfit }
}

fn is_loose(field: &Inlined) -> bool {
    let is_named = matches!(field.record.kind, 30..=33);
    field.condition.is_some_and(|condition| !is_named || !condition.has_mark(0))
}

/// The records of a declaration with its flags.
fn written(declaration: &Declaration, body: &[Inlined]) -> Vec<Record> {
    let mut records = vec![*declaration.head];
    records.extend(declaration.constraints);
    for field in body {
        let entries = entries(field, body);
        let Record { name, key, start, end, .. } = field.record;
        let flag = Record { name, key, start, end, ..Record::of(kind::FLAG) };
        records.push(if entries.is_empty() { field.record } else { flag });
        records.extend(field.condition);
        records.extend(entries);
    }
    records
}

/// The entries of a field that some condition of its declaration names.
fn entries(flag: &Inlined, body: &[Inlined]) -> Vec<Record> {
    let is_named = matches!(flag.record.kind, 30..=33);
    let names_flag = |field: &&Inlined| {
        is_named && field.condition.is_some_and(|condition| condition.name == flag.record.name)
    };
    let entry = |field: &Inlined| Record {
        name: field.record.name,
        one: field.condition.map_or(0, |condition| condition.one),
        ..Record::of(kind::FLAG_ENTRY)
    };
    body.iter().filter(names_flag).map(entry).collect()
}
