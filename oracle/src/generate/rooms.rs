//! Tables about the room limits, and about the fields that inlining and flags cannot take.

use super::draft::{Draft, Drafting, EDGES};
use super::nested::flags_to;
use super::{finish, sound, Bounds};
use crate::random::Random;
use crate::record::{kind, Record, MOST_RECORDS};

fn named(kind: u8, name: u16) -> Record {
    Record { name, ..Record::of(kind) }
}

fn scalar(name: usize) -> Record {
    Record { one: 8, ..named(kind::SCALAR, name as u16) }
}

fn group_field(second: u16) -> Record {
    Record { second, ..Record::of(kind::GROUP_FIELD) }
}

fn reserved() -> Record {
    Record { one: 8, ..Record::of(kind::RESERVED) }
}

/// Bounds for what stands beside the part that matters.
fn beside(bounds: Bounds) -> Bounds {
    let most = if bounds.is_small { 0 } else { 2 };
    Bounds { declarations: bounds.declarations.min(most), ..bounds }
}

/// A group field whose constraint fits no Scalar or no Typedef.
pub fn unfit(random: &mut Random, bounds: Bounds) -> Vec<Record> {
    let mut drafting = Drafting::new(random);
    sound::fill(&mut drafting, beside(bounds));
    let mut inner = drafting.add(kind::GROUP);
    for number in 0..most_fields(&mut drafting, bounds) {
        let name = drafting.field_name(number);
        let field = if number == 1 { typed(&mut drafting, name) } else { scalar(name as usize) };
        drafting.insert(inner, vec![field]);
    }
    let depth = if bounds.is_small { [90, 10, 0] } else { [55, 30, 15] };
    for _ in 0..drafting.random.weighted(&depth) {
        let outer = drafting.add(kind::GROUP);
        push_constrained(&mut drafting, outer, inner);
        inner = outer;
    }
    let kind = drafting.random.pick(&[kind::PACKET, kind::STRUCT]);
    let packet = drafting.add(kind);
    push_constrained(&mut drafting, packet, inner);
    finish::table(drafting)
}

fn most_fields(drafting: &mut Drafting, bounds: Bounds) -> usize {
    drafting.random.between(1, if bounds.is_small { 2 } else { 3 })
}

/// A typedef of an enum made for it.
fn typed(drafting: &mut Drafting, name: u16) -> Record {
    let at = drafting.add(kind::ENUM);
    Record { second: drafting.drafts[at].head.name, ..named(kind::TYPEDEF, name) }
}

/// A group field with constraints that fit or don't, on names that the inner groups have.
fn push_constrained(drafting: &mut Drafting, host: usize, inner: usize) {
    let mut part = vec![group_field(drafting.drafts[inner].head.name)];
    for _ in 0..drafting.random.between(1, 2) {
        let name = drafting.field_name(0);
        let mut held = sound::loose_constraint(drafting, kind::CONSTRAINT);
        if drafting.random.chance(50) {
            (held.marks, held.one, held.name) = (0, 0, name);
        }
        part.push(held);
    }
    drafting.insert(host, part);
}

/// Conditions without value, or on fields that have no name or lose it.
pub fn loose(random: &mut Random, bounds: Bounds) -> Vec<Record> {
    let mut drafting = Drafting::new(random);
    sound::fill(&mut drafting, beside(bounds));
    let host = drafting.field_host();
    for _ in 0..drafting.random.weighted(&[0, 60, 40]) {
        loose_field(&mut drafting, host);
    }
    if drafting.drafts[host].head.kind == kind::GROUP {
        let packet = drafting.add(kind::PACKET);
        let field = group_field(drafting.drafts[host].head.name);
        drafting.insert(packet, vec![field]);
    }
    finish::table(drafting)
}

/// Adds one field with a condition that no flag can list.
fn loose_field(drafting: &mut Drafting, host: usize) {
    let name = drafting.fresh_field();
    let one = drafting.random.pick(&EDGES);
    let with_value = Record { marks: 1, one, ..named(kind::CONDITION, name) };
    match drafting.random.below(4) {
        0 => {
            let second = drafting.random.pick(&[0, 1, 9]);
            let bare = Record { second, ..named(kind::CONDITION, name) };
            drafting.insert(host, vec![scalar(name as usize), bare]);
        }
        1 => drafting.insert(host, vec![reserved(), with_value]),
        2 => {
            let parts = &mut drafting.drafts[host].parts;
            parts.retain(|part| !matches!(part[0].kind, kind::BODY | kind::PAYLOAD));
            drafting.insert(host, vec![Record::of(kind::PAYLOAD), with_value]);
        }
        _ => constrained_condition(drafting, name, with_value),
    }
}

/// A conditional Scalar of a group that a constraint makes a FixedScalar, which has no name.
fn constrained_condition(drafting: &mut Drafting, name: u16, condition: Record) {
    let group = drafting.add(kind::GROUP);
    drafting.insert(group, vec![scalar(name as usize), condition]);
    let host = drafting.add(kind::PACKET);
    // Without a value the same field is Unfit, which comes first.
    let marks = u8::from(drafting.random.chance(80));
    let held = Record { marks, one: 3 * u64::from(marks), ..named(kind::CONSTRAINT, name) };
    let second = drafting.drafts[group].head.name;
    drafting.insert(host, vec![group_field(second), held]);
}

/// Several conditions a flag, in a packet or struct or in a group inlined once or twice.
pub fn flags(random: &mut Random, bounds: Bounds) -> Vec<Record> {
    let mut drafting = Drafting::new(random);
    sound::fill(&mut drafting, beside(bounds));
    let kind = drafting.random.pick(&[kind::PACKET, kind::STRUCT, kind::GROUP]);
    let host = drafting.add(kind);
    for number in 0..drafting.random.between(2, if bounds.is_small { 4 } else { 9 }) {
        let part = flag_or_optional(&mut drafting, number);
        drafting.insert(host, part);
    }
    if kind == kind::GROUP {
        let packet = drafting.add(kind::PACKET);
        for _ in 0..drafting.random.between(1, 2) {
            let field = group_field(drafting.drafts[host].head.name);
            drafting.insert(packet, vec![field]);
        }
    }
    finish::table(drafting)
}

/// A named field, mostly with a condition on one of the first three fields.
fn flag_or_optional(drafting: &mut Drafting, number: usize) -> Vec<Record> {
    let name = drafting.field_name(number);
    let mut field = scalar(name as usize);
    if drafting.random.chance(25) {
        (field.kind, field.marks) = (kind::ARRAY, 1);
    } else if drafting.random.chance(15) {
        field = typed(drafting, name);
    }
    let mut part = vec![field];
    if drafting.random.chance(75) {
        let flag = drafting.random.weighted(&[60, 30, 10]);
        let one = drafting.random.pick(&[0, 1, 1, u64::MAX]);
        let second = drafting.random.pick(&[0, 0, 0, 7]);
        let flag = drafting.field_name(flag);
        part.push(Record { marks: 1, one, second, ..named(kind::CONDITION, flag) });
    }
    part
}

/// Tables whose inlined form has about as many records as a table holds, or far more.
pub fn swollen(random: &mut Random) -> Vec<Record> {
    match random.below(4) {
        0 => doubled(random, 1),
        1 => doubled(random, 0),
        _ => {
            let total = random.between(MOST_RECORDS - 1, MOST_RECORDS + 2);
            inlined_total(random, total)
        }
    }
}

/// Groups that hold the group before them twice or more, from one with `records` records.
fn doubled(random: &mut Random, records: usize) -> Vec<Record> {
    let levels = random.between(2, 40);
    let copies = random.between(2, 4);
    let mut table = vec![named(kind::GROUP, 100)];
    table.extend((0..records).map(|number| scalar(3 + number)));
    for level in 1..levels {
        table.push(named(kind::GROUP, 100 + level as u16));
        table.extend(vec![group_field(99 + level as u16); copies]);
    }
    if random.chance(50) {
        // One record at the top of groups that are empty below.
        table.push(scalar(3));
    }
    table.push(named(kind::PACKET, 90));
    table.push(group_field(99 + levels as u16));
    if random.chance(30) {
        table.push(Record { name: 3, ..Record::of(kind::CONSTRAINT) });
    }
    finish::direct(random, table)
}

/// A packet that has exactly `total` records once its groups are inlined.
fn inlined_total(random: &mut Random, total: usize) -> Vec<Record> {
    let each = random.between(20, 200);
    let copies = (total - 1) / each;
    let rest = total - 1 - copies * each;
    let mut group = vec![named(kind::GROUP, 100)];
    while group.len() < each + 1 {
        group.push(scalar(10 + group.len()));
        if group.len() < each + 1 && random.chance(20) {
            group.push(Record { marks: 1, ..named(kind::CONDITION, 9) });
        }
    }
    let mut packet = vec![named(kind::PACKET, 90)];
    packet.extend(vec![group_field(100); copies]);
    packet.extend(vec![reserved(); rest]);
    let table = if random.chance(50) { [group, packet] } else { [packet, group] }.concat();
    finish::direct(random, table)
}

/// A packet whose flag entries bring it to about as many records as a table holds.
pub fn overlisted(random: &mut Random) -> Vec<Record> {
    let total = random.between(MOST_RECORDS - 1, MOST_RECORDS + 2);
    if random.chance(50) {
        let conditions = random.between(1, 12);
        return finish::direct(random, flags_to(total, conditions));
    }
    let conditions = random.between(100, 533);
    let flags = if random.chance(70) { 1 } else { 2 };
    let mut table = vec![named(kind::PACKET, 90)];
    table.extend((0..flags).map(|number| scalar(10 + number)));
    for number in 0..conditions {
        table.push(scalar(100 + number));
        let name = 10 + random.below(flags) as u16;
        let one = random.below(2) as u64;
        table.push(Record { marks: 1, one, ..named(kind::CONDITION, name) });
    }
    let rest = total.saturating_sub(table.len() + conditions);
    table.extend(vec![reserved(); rest]);
    if random.chance(20) {
        // The flag twice after inlining, each with all entries.
        return finish::direct(random, repeated_flag(table));
    }
    finish::direct(random, table)
}

/// The same table with its flag in a group that is inlined twice.
fn repeated_flag(mut table: Vec<Record>) -> Vec<Record> {
    let flag = table[1];
    table.splice(1..2, [group_field(80), group_field(80)]);
    table.extend([named(kind::GROUP, 80), flag]);
    table.truncate(MOST_RECORDS);
    table
}

/// Long chains of parents, types or groups, sound or closed to a ring.
pub fn deep(random: &mut Random) -> Vec<Record> {
    let sort = random.below(5);
    let each = [1, 2, 2, 2, 3][sort];
    let length = random.pick(&[300, 700, MOST_RECORDS]) / each;
    let is_ring = random.chance(25);
    let mut chain: Vec<Vec<Record>> = Vec::new();
    for step in 0..length {
        let next = if step + 1 < length { step + 2 } else { usize::from(is_ring) };
        chain.push(link(sort, step as u16 + 1, next as u16));
    }
    if random.chance(30) {
        random.shuffle(&mut chain);
    }
    if sort >= 3 {
        chain[0][0].kind = kind::PACKET;
    }
    finish::direct(random, chain.concat())
}

/// One declaration of a chain, naming the next unless that is 0.
fn link(sort: usize, name: u16, next: u16) -> Vec<Record> {
    let (head, field) = match sort {
        0 => return vec![Record { second: next, ..named(kind::PACKET, name) }],
        1 => (kind::STRUCT, Record { second: next, ..named(kind::TYPEDEF, 7) }),
        2 => (kind::STRUCT, Record { second: next, marks: 2, two: 4, ..named(kind::ARRAY, 7) }),
        _ => (kind::GROUP, group_field(next)),
    };
    let field = if next == 0 { scalar(7) } else { field };
    let mut link = vec![named(head, name), field];
    if sort == 4 && next != 0 {
        // The innermost constraint holds, at the end of the whole chain.
        link.push(Record { marks: 1, one: name.into(), ..named(kind::CONSTRAINT, 7 + name % 2) });
    }
    link
}

/// Tables with more faults than a buffer of 64,000 bytes holds.
pub fn many_faults(random: &mut Random) -> Vec<Record> {
    let mut drafting = Drafting::new(random);
    let at = drafting.add(kind::ENUM);
    drafting.drafts[at].head.one = 8;
    let ranges = drafting.random.between(40, 90);
    let values = drafting.random.between(40, 90);
    for number in 0..ranges + values {
        let name = drafting.tag_name(number);
        let value = Record { one: number as u64, ..named(kind::TAG_VALUE, name) };
        let range = Record { two: 200, ..named(kind::TAG_RANGE, name) };
        let tag = if number < values { value } else { range };
        drafting.drafts[at].parts.push(vec![tag]);
    }
    if drafting.random.chance(50) {
        let Drafting { random, drafts, .. } = &mut drafting;
        random.shuffle(&mut drafts[at].parts);
    }
    let extra = drafting.random.below(3);
    drafting.drafts.extend(vec![Draft::new(named(kind::PACKET, 64_000)); extra.min(1)]);
    finish::table(drafting)
}
