//! From drafts to records: payloads for parents, an order, keys and locations.

use super::draft::{Draft, Drafting};
use crate::random::Random;
use crate::record::{kind, Record};
use std::collections::HashMap;

/// The records of a table in the making.
pub fn table(mut drafting: Drafting) -> Vec<Record> {
    if !drafting.keeps_missing_payload {
        give_payloads(&mut drafting);
    }
    order(drafting.random, &mut drafting.drafts);
    let mut table: Vec<Record> = drafting.drafts.iter().flat_map(flat).collect();
    number_keys(drafting.random, &mut table);
    locate(drafting.random, &mut table);
    table
}

fn flat(draft: &Draft) -> Vec<Record> {
    let head = std::iter::once(&draft.head);
    head.chain(&draft.constraints).chain(draft.parts.iter().flatten()).copied().collect()
}

/// Gives every parent of a child with fields a payload; parents stand before their children here.
fn give_payloads(drafting: &mut Drafting) {
    let names = drafting.drafts.iter().enumerate().map(|(at, draft)| (draft.head.name, at));
    let places: HashMap<u16, usize> = names.filter(|&(name, _)| name != 0).collect();
    for at in (0..drafting.drafts.len()).rev() {
        let draft = &drafting.drafts[at];
        if !draft.is_child() || draft.parts.is_empty() {
            continue;
        }
        if let Some(&parent) = places.get(&draft.head.second) {
            if drafting.drafts[parent].has_fields() && parent != at {
                super::sound::payload(drafting, parent);
            }
        }
    }
}

/// Puts the declarations as made, reversed or at random, so that references lead both ways.
fn order(random: &mut Random, drafts: &mut [Draft]) {
    match random.weighted(&[45, 15, 40]) {
        0 => (),
        1 => drafts.reverse(),
        _ => random.shuffle(drafts),
    }
}

/// Gives keys to the kinds that have them.
pub fn number_keys(random: &mut Random, table: &mut [Record]) {
    let sort = random.weighted(&[60, 10, 15, 15]);
    for (place, record) in table.iter_mut().enumerate() {
        if record.is_declaration() || record.is_field() {
            record.key = match sort {
                0 => place as u16 + 1,
                1 => 0,
                2 => random.bits() as u16,
                _ => random.pick(&[0, 1, 255, 256, 65_535]),
            };
        }
    }
}

/// Gives locations to all records.
pub fn locate(random: &mut Random, table: &mut [Record]) {
    let sort = random.weighted(&[60, 10, 15, 15]);
    for (place, record) in table.iter_mut().enumerate() {
        (record.start, record.end) = match sort {
            0 => (place as u16 * 10, place as u16 * 10 + 7),
            1 => (0, 0),
            2 => (random.bits() as u16, random.bits() as u16),
            _ => (random.pick(&[0, 255, 256, 65_535]), random.pick(&[0, 1, 65_534, 65_535])),
        };
    }
}

/// A table of records made directly, with keys and locations.
pub fn direct(random: &mut Random, mut table: Vec<Record>) -> Vec<Record> {
    number_keys(random, &mut table);
    locate(random, &mut table);
    debug_assert!(table.iter().all(|record| record.kind != kind::FLAG));
    table
}
