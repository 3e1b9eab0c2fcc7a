//! Damage: bytes, records in the wrong place, lengths.

use super::draft::{Drafting, EDGES};
use super::{finish, plant, Bounds};
use crate::random::Random;
use crate::record::{encode_table, kind, Record, RECORD_BYTES};

/// Every kind, and numbers that are no kind.
const KINDS: [u8; 38] = [
    0, 1, 2, 3, 4, 5, 6, 7, 8, 9, 10, 11, 12, 13, 19, 20, 21, 22, 23, 24, 25, 26, 27, 28, 29, 30,
    31, 32, 33, 34, 35, 39, 40, 41, 42, 43, 44, 255,
];

/// Damages a table of records in one to three ways.
pub fn records(random: &mut Random, table: &mut Vec<Record>) {
    for _ in 0..random.between(1, 3) {
        let at = random.below(table.len());
        match random.weighted(&[12, 25, 8, 12, 8, 15, 20]) {
            0 => table.insert(at.min(table.len()), any_record(random)),
            1 => wrong_place(random, table),
            6 => break_row(random, table),
            2 if !table.is_empty() => {
                table.remove(at);
            }
            3 if !table.is_empty() => {
                let other = random.below(table.len());
                table.swap(at, other);
            }
            4 if !table.is_empty() => table.insert(at, table[at]),
            _ if !table.is_empty() => change(random, &mut table[at]),
            _ => (),
        }
    }
}

/// Changes one part of a record.
fn change(random: &mut Random, record: &mut Record) {
    let name = random.pick(&[0, 1, 2, 3, 10, 65_535]);
    let number = random.pick(&EDGES);
    match random.below(9) {
        0 => record.kind = random.pick(&KINDS),
        1 => record.marks = random.pick(&[0, 1, 2, 3, 4, 128, 255]),
        2 => record.name = name,
        3 => record.second = name,
        4 => record.third = name,
        5 => record.one = number,
        6 => record.two = number,
        7 => record.key = random.pick(&[0, 1, 256, 65_535]),
        _ => (record.start, record.end) = (name, 65_535),
    }
}

/// Breaks one rule of a row in a record of a kind that the rule speaks of.
fn break_row(random: &mut Random, table: &mut [Record]) {
    let rule = random.below(6);
    let kinds: &[u8] = match rule {
        0 => &[10, 11, 40, 41, 42, 43],
        1 => &[2, 10, 11, 30],
        2 => &[30],
        3 => &[31],
        4 => &[10, 11, 40, 42],
        _ => &[1, 2, 3, 4, 5, 6, 7, 10, 11, 20, 22, 23, 24, 28, 30, 31, 33, 34, 40, 41, 42, 43],
    };
    let fitting = |at: &usize| kinds.contains(&table[*at].kind);
    let found: Vec<usize> = (0..table.len()).filter(fitting).collect();
    if found.is_empty() {
        return;
    }
    let record = &mut table[random.pick(&found)];
    match rule {
        0 => record.key = random.pick(&[1, 256, 65_535]),
        1 => (record.marks, record.one) = (record.marks & 2, random.pick(&[0, 1, u64::MAX])),
        2 => (record.marks, record.second) = (random.below(4) as u8, random.pick(&[0, 5])),
        3 => (record.kind, record.one) = (kind::FLAG, 0),
        4 => *record = Record { name: record.name, ..Record::of(kind::FLAG_ENTRY) },
        _ if random.chance(50) => record.name = 0,
        _ => record.second = 0,
    }
}

/// A record of a random kind.
fn any_record(random: &mut Random) -> Record {
    let kind = random.pick(&KINDS);
    record_of(random, kind)
}

/// A record of a kind with what its row lists.
fn record_of(random: &mut Random, kind: u8) -> Record {
    let (name, second, third) = (random.between(1, 12) as u16, random.between(1, 12) as u16, 3);
    let one = random.pick(&EDGES);
    let record = Record::of(kind);
    match kind {
        kind::CHECKSUM
        | kind::ENUM
        | kind::SCALAR
        | kind::TAG_VALUE
        | kind::INNER_VALUE
        | kind::FLAG_ENTRY => Record { name, one, ..record },
        kind::CUSTOM => Record { name, one, marks: 1, ..record },
        kind::PACKET | kind::STRUCT | kind::TYPEDEF => Record { name, second, ..record },
        kind::GROUP | kind::DEFAULT_TAG | kind::FLAG => Record { name, ..record },
        kind::CONSTRAINT | kind::CONDITION => Record { name, one, marks: 1, ..record },
        kind::TEST | kind::CHECKSUM_FIELD | kind::GROUP_FIELD => Record { second, ..record },
        kind::PADDING | kind::RESERVED => Record { one, ..record },
        kind::SIZE | kind::COUNT | kind::ELEMENT_SIZE => Record { second, one, ..record },
        kind::FIXED_SCALAR => Record { one, two: 0, ..record },
        kind::FIXED_ENUM => Record { second, third, ..record },
        kind::ARRAY => Record { name, one, marks: 1, ..record },
        kind::TAG_RANGE => Record { name, one, two: random.pick(&EDGES), ..record },
        _ => record,
    }
}

/// Puts a record behind one that it must not follow.
fn wrong_place(random: &mut Random, table: &mut Vec<Record>) {
    let pairs = [
        (kind::CONDITION, kind::CONDITION),
        (kind::SCALAR, kind::CONSTRAINT),
        (kind::CONDITION, kind::CONSTRAINT),
        (kind::TAG_VALUE, kind::INNER_VALUE),
        (kind::DEFAULT_TAG, kind::INNER_VALUE),
        (kind::ENUM, kind::SCALAR),
        (kind::PACKET, kind::TAG_VALUE),
        (kind::STRUCT, kind::TAG_RANGE),
        (kind::GROUP, kind::CONSTRAINT),
        (kind::GROUP, kind::DEFAULT_TAG),
        (kind::TEST, kind::RESERVED),
        (kind::CUSTOM, kind::SCALAR),
        (kind::CHECKSUM, kind::BODY),
        (kind::CUSTOM, kind::TAG_VALUE),
        (kind::ENUM, kind::CONSTRAINT),
        (kind::ENUM, kind::INNER_VALUE),
        (kind::TAG_VALUE, kind::CONDITION),
        (kind::CONSTRAINT, kind::CONDITION),
        (kind::PACKET, kind::CONDITION),
        (kind::SCALAR, kind::FLAG_ENTRY),
        (kind::PACKET, kind::FLAG),
    ];
    let (before, behind) = random.pick(&pairs);
    let behind = record_of(random, behind);
    let holders: Vec<usize> = (0..table.len()).filter(|&at| table[at].kind == before).collect();
    if random.chance(10) {
        table.insert(0, behind);
    } else if !holders.is_empty() && random.chance(80) {
        table.insert(random.pick(&holders) + 1, behind);
    } else {
        table.extend(leading_to(before).iter().map(|&kind| record_of(random, kind)));
        table.push(behind);
    }
}

/// Kinds that stand in this order and end with the wanted one.
fn leading_to(wanted: u8) -> Vec<u8> {
    match wanted {
        kind::CONSTRAINT | kind::SCALAR => vec![kind::PACKET, wanted],
        kind::CONDITION => vec![kind::STRUCT, kind::SCALAR, wanted],
        kind::TAG_VALUE | kind::DEFAULT_TAG => vec![kind::ENUM, wanted],
        _ => vec![wanted],
    }
}

/// Changes one to three bytes, of any part or of the spare ones.
pub fn bytes(random: &mut Random, bytes: &mut [u8]) {
    for _ in 0..random.between(1, 3) {
        if bytes.is_empty() {
            return;
        }
        let mut at = random.below(bytes.len());
        if random.chance(40) {
            let spare = random.pick(&[26, 27, 30, 31, 34, 35, 36, 37, 38, 39]);
            at = at / RECORD_BYTES * RECORD_BYTES + spare;
        }
        if let Some(byte) = bytes.get_mut(at) {
            *byte = random.pick(&[0, 1, 2, 128, 255]);
        }
    }
}

/// Declarations with small random references, names and numbers: any pass may find anything.
pub fn wild(random: &mut Random, bounds: Bounds) -> Vec<Record> {
    let mut drafting = Drafting::new(random);
    for _ in 0..bounds.declarations {
        let kinds = [kind::ENUM, kind::PACKET, kind::STRUCT, kind::GROUP, kind::GROUP];
        let kind = drafting.random.pick(&kinds);
        let at = drafting.add(kind);
        for _ in 0..drafting.random.between(0, bounds.parts) {
            if kind == kind::ENUM {
                plant::random_tag(&mut drafting, at);
            } else {
                wild_field(&mut drafting, at, bounds.declarations);
            }
        }
    }
    drafting.keeps_missing_payload = drafting.random.chance(50);
    finish::table(drafting)
}

/// A field with random references and sometimes a random condition.
fn wild_field(drafting: &mut Drafting, at: usize, declarations: usize) {
    let random = &mut *drafting.random;
    let kinds = [20, 21, 22, 23, 24, 25, 26, 27, 28, 29, 30, 31, 31, 31, 33, 34, 34];
    let kind = random.pick(&kinds);
    let mut field = record_of(random, kind);
    let target = random.below(declarations.max(1));
    let number = random.below(6);
    let name = drafting.field_name(number);
    if matches!(field.kind, kind::ARRAY | kind::SCALAR | kind::TYPEDEF) {
        field.name = name;
    }
    if matches!(field.kind, kind::SIZE | kind::COUNT | kind::ELEMENT_SIZE) {
        field.second = name;
    }
    if matches!(field.kind, kind::TYPEDEF | kind::GROUP_FIELD | kind::FIXED_ENUM) {
        field.second = drafting.drafts[target.min(drafting.drafts.len() - 1)].head.name;
    }
    let mut part = vec![field];
    if drafting.random.chance(10) {
        part.push(super::sound::loose_constraint(drafting, kind::CONDITION));
    }
    if field.kind == kind::GROUP_FIELD && drafting.random.chance(40) {
        part.push(super::sound::loose_constraint(drafting, kind::CONSTRAINT));
    }
    drafting.insert(at, part);
}

/// A table cut or extended to a length that is no multiple of 40.
pub fn uneven(random: &mut Random, bounds: Bounds) -> Vec<u8> {
    let mut bytes = encode_table(&super::sound_table(random, bounds));
    let mut length = if bounds.is_small || random.chance(60) {
        random.below(bytes.len() + 60)
    } else {
        random.pick(&[63_999, 64_001, 64_039, 64_041, 65_535, 65_537, 131_071, 199_999])
    };
    if length % RECORD_BYTES == 0 {
        length += random.between(1, 39);
    }
    let byte = random.pick(&[0, 4, 255]);
    bytes.resize(length, byte);
    bytes
}

/// A table of more records than fit, up to 200,000 bytes.
pub fn too_long(random: &mut Random) -> Vec<u8> {
    let records = if random.chance(50) { 1_601 } else { random.between(1_601, 5_000) };
    let name = random.bits() as u16 | 1;
    let record = Record { name, ..Record::of(random.pick(&[kind::PACKET, kind::GROUP, 0, 255])) };
    encode_table(&vec![record; records])
}
