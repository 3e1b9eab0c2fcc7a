//! Groups within groups whose constraints meet, and tables at the edges of the room limits.

use super::draft::{Drafting, EDGES};
use super::{finish, Bounds};
use crate::random::Random;
use crate::record::{encode_table, kind, Record, MOST_RECORDS};

/// So many names are shared by the fields and constraints of all levels.
const NAMES: usize = 4;

fn named(kind: u8, name: u16) -> Record {
    Record { name, ..Record::of(kind) }
}

/// Groups one in another, with constraints that override each other, inlined once or twice into one or two declarations.
pub fn nested(random: &mut Random, bounds: Bounds) -> Vec<Record> {
    let mut drafting = Drafting::new(random);
    let typed = drafting.add(kind::ENUM);
    let mut inner = drafting.add(kind::GROUP);
    push_fields(&mut drafting, inner, typed);
    for _ in 0..drafting.random.between(1, if bounds.is_small { 1 } else { 5 }) {
        let outer = drafting.add(kind::GROUP);
        push_level(&mut drafting, outer, inner, typed);
        inner = outer;
    }
    for _ in 0..drafting.random.between(1, if bounds.is_small { 1 } else { 2 }) {
        let kind = drafting.random.pick(&[kind::PACKET, kind::STRUCT]);
        let outermost = drafting.add(kind);
        push_level(&mut drafting, outermost, inner, typed);
    }
    finish::table(drafting)
}

/// Fields of a declaration and a group field, mostly one, on either side of them.
fn push_level(drafting: &mut Drafting, outer: usize, inner: usize, typed: usize) {
    if drafting.random.chance(40) {
        push_fields(drafting, outer, typed);
    }
    for _ in 0..drafting.random.weighted(&[0, 80, 20]) {
        let part = constrained(drafting, inner);
        drafting.insert(outer, part);
    }
}

/// One to three fields of different names, some with a condition.
fn push_fields(drafting: &mut Drafting, at: usize, typed: usize) {
    let first = drafting.random.below(NAMES);
    for step in 0..drafting.random.between(1, 3) {
        let name = drafting.field_name((first + step) % NAMES);
        let field = match drafting.random.below(5) {
            0 => Record { second: drafting.drafts[typed].head.name, ..named(kind::TYPEDEF, name) },
            1 => Record { marks: 1, one: 8, ..named(kind::ARRAY, name) },
            _ => Record { one: 8, ..named(kind::SCALAR, name) },
        };
        let mut part = vec![field];
        if drafting.random.chance(15) {
            part.push(held(drafting, kind::CONDITION));
        }
        drafting.insert(at, part);
    }
}

/// A group field, sometimes with a condition of its own, and up to three constraints.
fn constrained(drafting: &mut Drafting, inner: usize) -> Vec<Record> {
    let second = drafting.drafts[inner].head.name;
    let mut part = vec![Record { second, ..Record::of(kind::GROUP_FIELD) }];
    if drafting.random.chance(15) {
        part.push(held(drafting, kind::CONDITION));
    }
    for _ in 0..drafting.random.weighted(&[15, 40, 30, 15]) {
        part.push(held(drafting, kind::CONSTRAINT));
    }
    part
}

/// A constraint or condition on a shared name, mostly with value and tag, so that it fits.
fn held(drafting: &mut Drafting, kind: u8) -> Record {
    let number = drafting.random.below(NAMES);
    let name = drafting.field_name(number);
    let marks = u8::from(drafting.random.chance(96));
    let one = if marks == 1 { drafting.random.pick(&EDGES) } else { 0 };
    let tag = drafting.random.between(1, 9);
    let second = if drafting.random.chance(96) { drafting.tag_name(tag) } else { 0 };
    Record { marks, one, second, ..named(kind, name) }
}

/// Tables at the edges of Swollen and Overlisted, on either side, from few records.
pub fn edges() -> Vec<Vec<u8>> {
    let totals = [MOST_RECORDS - 1, MOST_RECORDS, MOST_RECORDS + 1, MOST_RECORDS + 40];
    let inlined = totals.map(|total| filled(total, vec![named(kind::PACKET, 90)], 1));
    let listed = totals.map(|total| flags_to(total, 3));
    inlined.iter().chain(&listed).map(|table| encode_table(table)).collect()
}

/// A packet of `total` records in the end, most of them entries: a flag and `conditions` conditions on it, in a group that is
/// inlined as often as there is room for.
pub fn flags_to(total: usize, conditions: usize) -> Vec<Record> {
    let scalar = |name| Record { one: 8, ..named(kind::SCALAR, name) };
    let condition = |one| Record { marks: 1, one, ..named(kind::CONDITION, 11) };
    let mut table = vec![named(kind::GROUP, 80), scalar(11)];
    for at in 0..conditions {
        table.extend([scalar(12 + at as u16), condition(at as u64 % 3)]);
    }
    let records = |copies: usize| 1 + copies * (1 + 2 * conditions + copies * conditions);
    let copies = (1..).take_while(|&copies| records(copies) <= total).last().unwrap_or(0);
    table.push(named(kind::PACKET, 90));
    table.extend(vec![Record { second: 80, ..Record::of(kind::GROUP_FIELD) }; copies]);
    filled(total, table, records(copies))
}

/// A table whose last packet, of `records` records in the end, is brought to `total` by a group of twenty.
fn filled(total: usize, mut table: Vec<Record>, records: usize) -> Vec<Record> {
    let reserved = Record { one: 8, ..Record::of(kind::RESERVED) };
    let (copies, rest) = ((total - records) / 20, (total - records) % 20);
    table.extend(vec![Record { second: 81, ..Record::of(kind::GROUP_FIELD) }; copies]);
    table.extend(vec![reserved; rest]);
    table.push(named(kind::GROUP, 81));
    table.extend([reserved; 20]);
    table
}
