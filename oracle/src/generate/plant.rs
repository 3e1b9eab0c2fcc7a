//! Faults planted in a sound table, by code.

use super::draft::{Draft, Drafting, EDGES};
use super::sound::greatest;
use super::Bounds;
use crate::record::{kind, Record};

/// The codes of each pass that document 01 names.
pub const CODES: [&[u16]; 9] = [
    &[1],
    &[2, 3, 4, 5, 6, 7, 8, 9, 10],
    &[11],
    &[12, 13, 14, 40, 41, 43, 44],
    &[23, 24, 25, 26, 27, 28, 29, 30, 31],
    &[32, 33, 34, 35],
    &[36, 37],
    &[38],
    &[39],
];

/// Plants a few faults: mostly of one code, else of one pass or of any.
pub fn some(drafting: &mut Drafting, bounds: Bounds) {
    let all: Vec<u16> = CODES.concat();
    let code = drafting.random.pick(&all);
    let pass = CODES.iter().find(|codes| codes.contains(&code)).expect("every code has a pass");
    let most = if bounds.is_small { 1 } else { 4 };
    plant(drafting, code);
    for _ in 1..drafting.random.between(1, most) {
        let next = match drafting.random.weighted(&[60, 30, 10]) {
            0 => code,
            1 => drafting.random.pick(pass),
            _ => drafting.random.pick(&all),
        };
        plant(drafting, next);
    }
}

/// Plants one fault of a code; the passes may find others beside it.
fn plant(drafting: &mut Drafting, code: u16) {
    match code {
        1 => repeated_declaration(drafting),
        2 => cycle(drafting),
        3 | 4 => wrong_group(drafting, code == 3),
        5 | 6 => wrong_type(drafting, code == 5),
        7 | 8 => wrong_parent(drafting, code == 7),
        9 | 10 => wrong_test(drafting, code == 9),
        11 => repeated_field(drafting),
        12..=14 | 40..=44 => wrong_tag(drafting, code),
        23 | 26 | 29 => repeated_size(drafting, code),
        24 | 27 | 30 => missing_size(drafting, code),
        25 | 28 | 31 => size_of_no_array(drafting, code),
        32 => too_wide_value(drafting),
        33..=35 => wrong_enum(drafting, code),
        36 => repeated_payload(drafting),
        37 => missing_payload(drafting),
        38 => redundant_size(drafting),
        _ => stray_padding(drafting),
    }
}

fn repeated_declaration(drafting: &mut Drafting) {
    let kinds = [kind::CHECKSUM, kind::ENUM, kind::PACKET, kind::STRUCT, kind::GROUP];
    let first = drafting.host(&kinds);
    let name = drafting.drafts[first].head.name;
    for _ in 0..drafting.random.between(1, 3) {
        let kind = drafting.random.pick(&kinds);
        drafting.drafts.push(Draft::new(Record { name, ..Record::of(kind) }));
    }
}

/// Declarations in a ring, by typedefs, counted arrays, group fields or parents.
fn cycle(drafting: &mut Drafting) {
    let sort = drafting.random.below(5);
    let kind = [kind::STRUCT, kind::STRUCT, kind::GROUP, kind::PACKET, kind::STRUCT][sort];
    let length = drafting.random.weighted(&[0, 50, 30, 15, 5]);
    let ring: Vec<usize> = (0..length).map(|_| drafting.add(kind)).collect();
    for (step, &at) in ring.iter().enumerate() {
        let second = drafting.drafts[ring[(step + 1) % length]].head.name;
        let name = drafting.fresh_field();
        match sort {
            0 => drafting.insert(at, vec![Record { name, second, ..Record::of(kind::TYPEDEF) }]),
            1 => {
                let two = drafting.random.pick(&EDGES);
                let field = Record { name, second, two, marks: 2, ..Record::of(kind::ARRAY) };
                drafting.insert(at, vec![field]);
            }
            2 => drafting.insert(at, vec![Record { second, ..Record::of(kind::GROUP_FIELD) }]),
            _ => drafting.drafts[at].head.second = second,
        }
    }
}

fn wrong_group(drafting: &mut Drafting, is_missing: bool) {
    let host = drafting.field_host();
    let kinds = [kind::CHECKSUM, kind::CUSTOM, kind::ENUM, kind::PACKET, kind::STRUCT];
    let second = named_or_missing(drafting, &kinds, is_missing);
    drafting.insert(host, vec![Record { second, ..Record::of(kind::GROUP_FIELD) }]);
}

/// The name of a declaration of some kinds, or a name that none has.
fn named_or_missing(drafting: &mut Drafting, kinds: &[u8], is_missing: bool) -> u16 {
    if is_missing {
        return drafting.missing_name();
    }
    let found = drafting.host(kinds);
    drafting.drafts[found].head.name
}

fn wrong_type(drafting: &mut Drafting, is_missing: bool) {
    let host = drafting.field_host();
    let second = named_or_missing(drafting, &[kind::PACKET], is_missing);
    let name = drafting.fresh_field();
    let field = match drafting.random.below(3) {
        0 => Record { name, second, ..Record::of(kind::TYPEDEF) },
        1 => Record { name, second, ..Record::of(kind::ARRAY) },
        _ => Record { name, second, marks: 2, two: 3, ..Record::of(kind::ARRAY) },
    };
    drafting.insert(host, vec![field]);
}

fn wrong_parent(drafting: &mut Drafting, is_missing: bool) {
    let host = drafting.host(&[kind::PACKET, kind::STRUCT]);
    let all = [kind::CHECKSUM, kind::ENUM, kind::PACKET, kind::STRUCT, kind::GROUP];
    let own = drafting.drafts[host].head.kind;
    let others: Vec<u8> = all.into_iter().filter(|&kind| kind != own).collect();
    drafting.drafts[host].head.second = named_or_missing(drafting, &others, is_missing);
}

fn wrong_test(drafting: &mut Drafting, is_missing: bool) {
    let others = [kind::CHECKSUM, kind::CUSTOM, kind::ENUM, kind::STRUCT, kind::GROUP];
    let second = named_or_missing(drafting, &others, is_missing);
    drafting.drafts.push(Draft::new(Record { second, ..Record::of(kind::TEST) }));
}

fn repeated_field(drafting: &mut Drafting) {
    let host = drafting.field_host();
    let names = drafting.drafts[host].field_names();
    let name = if names.is_empty() {
        let name = drafting.fresh_field();
        drafting.insert(host, vec![Record { name, one: 8, ..Record::of(kind::SCALAR) }]);
        name
    } else {
        drafting.random.pick(&names)
    };
    for _ in 0..drafting.random.between(1, 3) {
        let mut field = Record { name, one: 8, ..Record::of(kind::SCALAR) };
        if drafting.random.chance(40) {
            (field.kind, field.marks) = (kind::ARRAY, 1);
        }
        drafting.insert(host, vec![field]);
    }
}

/// An enum of a small width with tags that break a rule.
fn wrong_tag(drafting: &mut Drafting, code: u16) {
    let host = drafting.add(kind::ENUM);
    let width = drafting.random.between(3, 5) as u64;
    drafting.drafts[host].head.one = width;
    for _ in 0..drafting.random.below(3) {
        random_tag(drafting, host);
    }
    let most = greatest(width);
    match code {
        12 => twice(drafting, host, true),
        13 => twice(drafting, host, false),
        14 => value(drafting, host, most + 1),
        40 => wrong_range(drafting, host, most),
        41 => {
            let (one, two) = drafting.random.pick(&[(5, 7), (1, 5), (5, 1), (2, 3), (0, 1)]);
            range(drafting, host, 1, 5);
            range(drafting, host, one, two);
        }
        44 => (0..2).for_each(|_| default_tag(drafting, host)),
        _ => {
            range(drafting, host, 2, 6);
            value(drafting, host, 4);
        }
    }
}

fn default_tag(drafting: &mut Drafting, host: usize) {
    let name = drafting.fresh_tag();
    drafting.insert(host, vec![Record { name, ..Record::of(kind::DEFAULT_TAG) }]);
}

fn value(drafting: &mut Drafting, host: usize, one: u64) {
    let name = drafting.fresh_tag();
    drafting.insert(host, vec![Record { name, one, ..Record::of(kind::TAG_VALUE) }]);
}

fn range(drafting: &mut Drafting, host: usize, one: u64, two: u64) {
    let name = drafting.fresh_tag();
    drafting.insert(host, vec![Record { name, one, two, ..Record::of(kind::TAG_RANGE) }]);
}

fn wrong_range(drafting: &mut Drafting, host: usize, most: u64) {
    match drafting.random.below(4) {
        0 => range(drafting, host, 1, most + 1),
        1 => range(drafting, host, most + 2, most + 2),
        2 => range(drafting, host, 3, 3),
        _ => range(drafting, host, u64::MAX, 0),
    }
}

/// Two tags with one name or with one value.
fn twice(drafting: &mut Drafting, host: usize, same_name: bool) {
    let names = [drafting.fresh_tag(), drafting.fresh_tag()];
    for step in 0..drafting.random.between(2, 3) {
        let name = if same_name { names[0] } else { names[1].wrapping_add(step as u16) };
        let one = if same_name { step as u64 } else { 3 };
        drafting.insert(host, vec![Record { name, one, ..Record::of(kind::TAG_VALUE) }]);
    }
}

/// A tag with small random numbers, which meets the others in every way.
pub fn random_tag(drafting: &mut Drafting, host: usize) {
    let number = drafting.random.below(12);
    let name = drafting.tag_name(number);
    let limit = drafting.random.pick(&[4, 12, 12]);
    let one = drafting.random.below(limit) as u64;
    let two = drafting.random.below(limit) as u64;
    let part = match drafting.random.weighted(&[50, 40, 10]) {
        0 => vec![Record { name, one, ..Record::of(kind::TAG_VALUE) }],
        1 => {
            let mut part = vec![Record { name, one, two, ..Record::of(kind::TAG_RANGE) }];
            for _ in 0..drafting.random.below(3) {
                let number = drafting.random.below(14);
                let name = drafting.tag_name(number);
                let one = drafting.random.below(12) as u64;
                part.push(Record { name, one, ..Record::of(kind::INNER_VALUE) });
            }
            part
        }
        _ => vec![Record { name, ..Record::of(kind::DEFAULT_TAG) }],
    };
    drafting.insert(host, part);
}

/// The kind of size field that a code of pass 5 belongs to.
fn size_kind(code: u16) -> u8 {
    match code {
        23..=25 => kind::SIZE,
        26..=28 => kind::COUNT,
        _ => kind::ELEMENT_SIZE,
    }
}

fn repeated_size(drafting: &mut Drafting, code: u16) {
    let host = drafting.field_host();
    let name = drafting.fresh_field();
    let array = Record { name, marks: 1, one: 8, ..Record::of(kind::ARRAY) };
    drafting.insert(host, vec![array]);
    for step in 0..drafting.random.between(2, 3) {
        let mut wanted = size_kind(code);
        if step == 0 && code != 29 && drafting.random.chance(40) {
            wanted = drafting.random.pick(&[kind::SIZE, kind::COUNT]);
        }
        drafting.insert(host, vec![Record { second: name, one: 8, ..Record::of(wanted) }]);
    }
}

fn missing_size(drafting: &mut Drafting, code: u16) {
    let host = drafting.field_host();
    let fresh = drafting.fresh_field();
    let second = if drafting.random.chance(50) { fresh } else { drafting.random.pick(&[1, 2]) };
    if second < 3 && drafting.random.chance(60) {
        // A payload or body that this size field does not find.
        let matches_body = code == 24 && second == 1 || drafting.random.chance(30);
        let kind = if matches_body { kind::BODY } else { kind::PAYLOAD };
        drafting.insert(host, vec![Record::of(kind)]);
    }
    drafting.insert(host, vec![Record { second, one: 8, ..Record::of(size_kind(code)) }]);
}

fn size_of_no_array(drafting: &mut Drafting, code: u16) {
    let host = drafting.field_host();
    let fresh = drafting.fresh_field();
    let taken = drafting.drafts[host].field_names();
    let reserved: Vec<u16> = [1, 2].into_iter().filter(|name| !taken.contains(name)).collect();
    let is_reserved = !reserved.is_empty() && drafting.random.chance(30);
    let name = if is_reserved { drafting.random.pick(&reserved) } else { fresh };
    drafting.insert(host, vec![Record { name, one: 8, ..Record::of(kind::SCALAR) }]);
    drafting.insert(host, vec![Record { second: name, one: 8, ..Record::of(size_kind(code)) }]);
}

fn too_wide_value(drafting: &mut Drafting) {
    let host = drafting.field_host();
    let one = drafting.random.pick(&[0, 1, 7, 8, 31, 32, 63]);
    let two = drafting.random.pick(&[greatest(one) + 1, u64::MAX]);
    drafting.insert(host, vec![Record { one, two, ..Record::of(kind::FIXED_SCALAR) }]);
}

fn wrong_enum(drafting: &mut Drafting, code: u16) {
    let host = drafting.field_host();
    let others = [kind::CHECKSUM, kind::PACKET, kind::STRUCT, kind::GROUP];
    let kinds: &[u8] = if code == 34 { &[kind::ENUM] } else { &others };
    let second = named_or_missing(drafting, kinds, code == 33);
    let inner: Vec<u16> = drafting
        .drafts
        .iter()
        .flat_map(Draft::records)
        .copied()
        .filter(|record| record.kind == kind::INNER_VALUE)
        .map(|record| record.name)
        .collect();
    let fresh = drafting.fresh_tag();
    // The name of an inner value is no tag of the enum.
    let is_inner = !inner.is_empty() && drafting.random.chance(40);
    let third = if is_inner { drafting.random.pick(&inner) } else { fresh };
    drafting.insert(host, vec![Record { second, third, ..Record::of(kind::FIXED_ENUM) }]);
}

fn repeated_payload(drafting: &mut Drafting) {
    let host = drafting.field_host();
    for _ in 0..drafting.random.between(2, 3) {
        let kind = drafting.random.pick(&[kind::PAYLOAD, kind::BODY]);
        drafting.insert(host, vec![Record::of(kind)]);
    }
}

/// A child with a field, and a parent without payload.
fn missing_payload(drafting: &mut Drafting) {
    drafting.keeps_missing_payload = true;
    let kind = drafting.random.pick(&[kind::PACKET, kind::STRUCT]);
    let parent = drafting.host(&[kind]);
    drafting.drafts[parent].parts.retain(|part| part[0].kind != kind::PAYLOAD);
    for _ in 0..drafting.random.between(1, 2) {
        let child = drafting.add(kind);
        drafting.drafts[child].head.second = drafting.drafts[parent].head.name;
        let one = drafting.width();
        drafting.insert(child, vec![Record { one, ..Record::of(kind::RESERVED) }]);
    }
}

fn redundant_size(drafting: &mut Drafting) {
    let host = drafting.field_host();
    for _ in 0..drafting.random.between(1, 2) {
        let name = drafting.fresh_field();
        let two = drafting.random.pick(&EDGES);
        let array = Record { name, marks: 3, one: 8, two, ..Record::of(kind::ARRAY) };
        drafting.insert(host, vec![array]);
        let kind = drafting.random.pick(&[kind::SIZE, kind::COUNT]);
        drafting.insert(host, vec![Record { second: name, one: 8, ..Record::of(kind) }]);
    }
}

fn stray_padding(drafting: &mut Drafting) {
    let host = drafting.field_host();
    for _ in 0..drafting.random.between(1, 3) {
        let one = drafting.random.pick(&EDGES);
        let padding = Record { one, ..Record::of(kind::PADDING) };
        let at = drafting.random.below(drafting.drafts[host].parts.len() + 1);
        // Behind a whole array a padding is sound, and only the one after it is not.
        let count = drafting.random.between(1, 2);
        drafting.drafts[host].parts.insert(at, vec![padding; count]);
    }
}
