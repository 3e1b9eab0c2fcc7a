//! Declarations that every pass accepts.

use super::draft::{Draft, Drafting, EDGES};
use super::Bounds;
use crate::record::{kind, Record};

/// Adds declarations whose followed references lead to earlier ones only.
pub fn fill(drafting: &mut Drafting, bounds: Bounds) {
    for _ in 0..bounds.declarations {
        let kinds = [
            kind::CHECKSUM,
            kind::CUSTOM,
            kind::ENUM,
            kind::PACKET,
            kind::STRUCT,
            kind::GROUP,
            kind::TEST,
        ];
        let kind = kinds[drafting.random.weighted(&[4, 5, 18, 26, 20, 22, 5])];
        declaration(drafting, kind, bounds.parts);
    }
}

/// Adds one declaration of a kind.
pub fn declaration(drafting: &mut Drafting, wanted: u8, most_parts: usize) {
    match wanted {
        kind::TEST => test(drafting),
        kind::CUSTOM => custom(drafting),
        kind::ENUM => tagged_enum(drafting, most_parts),
        kind::CHECKSUM => {
            drafting.add(wanted);
        }
        _ => composite(drafting, wanted, most_parts),
    }
}

fn test(drafting: &mut Drafting) {
    let packets = drafting.of_kinds(&[kind::PACKET]);
    if !packets.is_empty() {
        let packet = drafting.random.pick(&packets);
        let second = drafting.drafts[packet].head.name;
        drafting.drafts.push(Draft::new(Record { second, ..Record::of(kind::TEST) }));
    }
}

fn custom(drafting: &mut Drafting) {
    let at = drafting.add(kind::CUSTOM);
    if drafting.random.chance(60) {
        let one = drafting.width();
        let head = &mut drafting.drafts[at].head;
        (head.marks, head.one) = (1, one);
    }
}

/// The greatest value of a width.
pub fn greatest(width: u64) -> u64 {
    if width >= 64 {
        u64::MAX
    } else {
        (1 << width) - 1
    }
}

/// An enum whose values and ranges lie apart, in random order.
fn tagged_enum(drafting: &mut Drafting, most_parts: usize) {
    let at = drafting.add(kind::ENUM);
    let most = greatest(drafting.drafts[at].head.one);
    let mut next = if drafting.random.chance(20) { most.saturating_sub(20) } else { 0 };
    let mut has_default = false;
    for number in 0..drafting.random.between(0, most_parts) {
        let name = drafting.tag_name(number * 40);
        if !has_default && drafting.random.chance(12) {
            has_default = true;
            let part = vec![Record { name, ..Record::of(kind::DEFAULT_TAG) }];
            drafting.drafts[at].parts.push(part);
            continue;
        }
        let Some(part) = tag(drafting, number * 40, next, most) else { break };
        let last = if part[0].kind == kind::TAG_RANGE { part[0].two } else { part[0].one };
        drafting.drafts[at].parts.push(part);
        let Some(after) = last.checked_add(1) else { break };
        next = after;
    }
    if drafting.random.chance(50) {
        drafting.random.shuffle(&mut drafting.drafts[at].parts);
    }
}

/// A value or a range with inner values, from `next` on, if there is room up to `most`.
fn tag(drafting: &mut Drafting, number: usize, next: u64, most: u64) -> Option<Vec<Record>> {
    let name = drafting.tag_name(number);
    let one = next.checked_add(drafting.random.below(3) as u64).filter(|&one| one <= most)?;
    if drafting.random.chance(65) {
        return Some(vec![Record { name, one, ..Record::of(kind::TAG_VALUE) }]);
    }
    let two = one.checked_add(drafting.random.between(1, 9) as u64).filter(|&two| two <= most)?;
    let mut part = vec![Record { name, one, two, ..Record::of(kind::TAG_RANGE) }];
    let inner = (one..=two).enumerate().filter(|_| drafting.random.chance(25));
    let inner: Vec<(usize, u64)> = inner.collect();
    for (step, one) in inner {
        let name = drafting.tag_name(number + 1 + step);
        part.push(Record { name, one, ..Record::of(kind::INNER_VALUE) });
    }
    Some(part)
}

/// A packet, struct or group with fields.
fn composite(drafting: &mut Drafting, wanted: u8, most_parts: usize) {
    let at = drafting.add(wanted);
    let peers: Vec<usize> = drafting.of_kinds(&[wanted]);
    if wanted != kind::GROUP && peers.len() > 1 && drafting.random.chance(35) {
        let parent = drafting.random.pick(&peers[..peers.len() - 1]);
        drafting.drafts[at].head.second = drafting.drafts[parent].head.name;
    }
    if wanted != kind::GROUP && drafting.random.chance(15) {
        for _ in 0..drafting.random.between(1, 3) {
            let held = loose_constraint(drafting, kind::CONSTRAINT);
            drafting.drafts[at].constraints.push(held);
        }
    }
    for number in 0..drafting.random.between(0, most_parts) {
        field(drafting, at, number);
    }
}

/// A constraint on any name, with a value, a tag, both or neither.
pub fn loose_constraint(drafting: &mut Drafting, wanted: u8) -> Record {
    let number = drafting.random.below(6);
    let name = drafting.field_name(number);
    let marks = u8::from(drafting.random.chance(70));
    let one = if marks == 1 { drafting.random.pick(&EDGES) } else { 0 };
    let tag = drafting.random.below(90);
    let second = if drafting.random.chance(40) { drafting.tag_name(tag) } else { 0 };
    Record { name, marks, one, second, ..Record::of(wanted) }
}

/// Adds a field of a random kind to the declaration at `at`.
fn field(drafting: &mut Drafting, at: usize, number: usize) {
    let width = drafting.width();
    match drafting.random.weighted(&[30, 8, 8, 6, 12, 18, 12, 6, 3]) {
        0 => scalar(drafting, at, number),
        1 => drafting.insert(at, vec![Record { one: width, ..Record::of(kind::RESERVED) }]),
        2 => fixed_scalar(drafting, at, width),
        3 => fixed_enum(drafting, at),
        4 => typedef(drafting, at, number),
        5 => array(drafting, at, number),
        6 => group_field(drafting, at),
        7 => payload(drafting, at),
        _ => {
            let second = drafting.field_name(number / 2);
            drafting.insert(at, vec![Record { second, ..Record::of(kind::CHECKSUM_FIELD) }]);
        }
    }
}

/// A named field and, in a share of the draws, its condition.
fn conditional(drafting: &mut Drafting, field: Record) -> Vec<Record> {
    let mut part = vec![field];
    if drafting.random.chance(22) {
        let number = drafting.random.below(4);
        let name = drafting.field_name(number);
        let one = if drafting.random.chance(85) {
            drafting.random.below(2) as u64
        } else {
            drafting.random.pick(&EDGES)
        };
        let second = if drafting.random.chance(10) { drafting.tag_name(0) } else { 0 };
        part.push(Record { marks: 1, name, one, second, ..Record::of(kind::CONDITION) });
    }
    part
}

fn scalar(drafting: &mut Drafting, at: usize, number: usize) {
    let (name, one) = (drafting.field_name(number), drafting.width());
    let part = conditional(drafting, Record { name, one, ..Record::of(kind::SCALAR) });
    drafting.insert(at, part);
}

fn fixed_scalar(drafting: &mut Drafting, at: usize, width: u64) {
    let most = greatest(width);
    let two = match drafting.random.below(3) {
        0 => most,
        1 => drafting.random.bits() & most,
        _ => 0,
    };
    drafting.insert(at, vec![Record { one: width, two, ..Record::of(kind::FIXED_SCALAR) }]);
}

fn fixed_enum(drafting: &mut Drafting, at: usize) {
    let mut enums = drafting.of_kinds(&[kind::ENUM]);
    enums.retain(|&at| !drafting.drafts[at].parts.is_empty());
    if enums.is_empty() {
        return;
    }
    let held = &drafting.drafts[drafting.random.pick(&enums)];
    let third = held.parts[drafting.random.below(held.parts.len())][0].name;
    let part = vec![Record { second: held.head.name, third, ..Record::of(kind::FIXED_ENUM) }];
    drafting.insert(at, part);
}

/// The name of an earlier declaration that may be a type.
fn earlier_type(drafting: &mut Drafting, at: usize) -> Option<u16> {
    let kinds = [kind::CHECKSUM, kind::CUSTOM, kind::ENUM, kind::STRUCT, kind::GROUP];
    let mut types = drafting.of_kinds(&kinds);
    types.retain(|&found| found < at);
    if types.is_empty() {
        return None;
    }
    let found = drafting.random.pick(&types);
    Some(drafting.drafts[found].head.name)
}

fn typedef(drafting: &mut Drafting, at: usize, number: usize) {
    if let Some(second) = earlier_type(drafting, at) {
        let name = drafting.field_name(number);
        let part = conditional(drafting, Record { name, second, ..Record::of(kind::TYPEDEF) });
        drafting.insert(at, part);
    }
}

/// An array with its size fields and padding.
fn array(drafting: &mut Drafting, at: usize, number: usize) {
    let name = drafting.field_name(number);
    let mut field = Record { name, ..Record::of(kind::ARRAY) };
    if drafting.random.chance(40) {
        (field.marks, field.two) = (2, drafting.random.pick(&EDGES));
    }
    match array_type(drafting, at, field.marks == 2) {
        Some(second) => field.second = second,
        None => (field.marks, field.one) = (field.marks | 1, drafting.width()),
    }
    if drafting.random.chance(20) {
        field.third = drafting.tag_name(number);
    }
    let mut part = conditional(drafting, field);
    if drafting.random.chance(15) {
        part.push(Record { one: drafting.random.pick(&EDGES), ..Record::of(kind::PADDING) });
    }
    drafting.insert(at, part);
    if field.marks & 2 == 0 && drafting.random.chance(50) {
        let kind = drafting.random.pick(&[kind::SIZE, kind::COUNT]);
        size_field(drafting, at, kind, name);
    }
    if drafting.random.chance(12) {
        size_field(drafting, at, kind::ELEMENT_SIZE, name);
    }
}

/// The type of an array, if it is to have one: a countless array may hold its own declaration.
fn array_type(drafting: &mut Drafting, at: usize, has_count: bool) -> Option<u16> {
    if drafting.random.chance(50) {
        return None;
    }
    let own = &drafting.drafts[at].head;
    if !has_count && own.kind != kind::PACKET && drafting.random.chance(30) {
        return Some(own.name);
    }
    earlier_type(drafting, at)
}

fn size_field(drafting: &mut Drafting, at: usize, wanted: u8, second: u16) {
    let one = drafting.width();
    drafting.insert(at, vec![Record { second, one, ..Record::of(wanted) }]);
}

/// A payload or body, if there is none yet, with its size field in a share of the draws.
pub fn payload(drafting: &mut Drafting, at: usize) {
    if drafting.drafts[at].has_payload() {
        return;
    }
    let is_body = drafting.random.chance(40);
    let third = if !is_body && drafting.random.chance(30) { drafting.tag_name(5) } else { 0 };
    let kind = if is_body { kind::BODY } else { kind::PAYLOAD };
    drafting.insert(at, vec![Record { third, ..Record::of(kind) }]);
    let name = 1 + u16::from(is_body);
    let is_named = drafting.drafts[at].field_names().contains(&name);
    let is_sized = drafting.drafts[at].records().any(|record| record.second == name);
    if !is_named && !is_sized && drafting.random.chance(40) {
        size_field(drafting, at, kind::SIZE, name);
    }
}

/// A field that inlines an earlier group, with constraints on what the group holds.
fn group_field(drafting: &mut Drafting, at: usize) {
    let mut groups = drafting.of_kinds(&[kind::GROUP]);
    groups.retain(|&found| found < at);
    if groups.is_empty() {
        return;
    }
    let group = drafting.random.pick(&groups);
    let second = drafting.drafts[group].head.name;
    let part = conditional(drafting, Record { second, ..Record::of(kind::GROUP_FIELD) });
    let part = constrained(drafting, part, group, 97);
    drafting.insert(at, part);
}

/// A group field's part with constraints on fields of the group, `percent` of them fitting.
pub fn constrained(
    drafting: &mut Drafting,
    mut part: Vec<Record>,
    group: usize,
    percent: usize,
) -> Vec<Record> {
    let count = drafting.random.weighted(&[40, 30, 20, 10]);
    for _ in 0..count {
        let Some(field) = inner_field(drafting, group) else { break };
        let mut held = loose_constraint(drafting, kind::CONSTRAINT);
        held.name = field.name;
        if drafting.random.chance(percent) {
            fit(drafting, &mut held, field.kind);
        }
        part.push(held);
        if drafting.random.chance(15) {
            held.one = if held.marks == 1 { 1 } else { 0 };
            part.push(held);
        }
    }
    part
}

/// Gives a constraint what a field of this kind needs.
fn fit(drafting: &mut Drafting, held: &mut Record, wanted: u8) {
    if wanted == kind::SCALAR && held.marks == 0 {
        (held.marks, held.one) = (1, drafting.random.pick(&EDGES));
    }
    if wanted == kind::TYPEDEF && held.second == 0 {
        held.second = drafting.tag_name(0);
    }
}

/// A named field of a group or of a group inside it; an unconditional one nine times of ten.
fn inner_field(drafting: &mut Drafting, group: usize) -> Option<Record> {
    let mut at = group;
    for _ in 0..8 {
        let parts = &drafting.drafts[at].parts;
        if parts.is_empty() {
            return None;
        }
        let part = &parts[drafting.random.below(parts.len())];
        let is_conditional = part.get(1).is_some_and(|next| next.kind == kind::CONDITION);
        match part[0].kind {
            kind::GROUP_FIELD => {
                let named = |draft: &Draft| draft.head.name == part[0].second;
                at = drafting.drafts.iter().position(named)?;
            }
            kind::ARRAY | kind::SCALAR | kind::TYPEDEF => {
                let field = part[0];
                if !is_conditional || drafting.random.chance(10) {
                    return Some(field);
                }
            }
            _ => (),
        }
    }
    None
}
