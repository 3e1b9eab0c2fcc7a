//! Random tables by seed: well-formed structures, faults of every code planted in them, damage.

mod damage;
mod draft;
mod finish;
mod nested;
mod plant;
mod rooms;
mod sound;

use crate::answer::{answer, PROGRAM_BUFFER};
use crate::random::Random;
use crate::record::{encode_table, Record, RECORD_BYTES};
use crate::reply::Reply;
use draft::Drafting;
pub use nested::edges;

/// One generated case: a table and the lengths of the two buffers.
#[derive(Clone, Debug, PartialEq, Eq)]
pub struct Case {
    pub input: Vec<u8>,
    pub table_len: usize,
    pub fault_len: usize,
}

/// How large a table may get, and whether long inputs and deep chains are wanted.
#[derive(Clone, Copy)]
pub(crate) struct Bounds {
    pub declarations: usize,
    pub parts: usize,
    pub is_small: bool,
}

/// The case of a seed. Call it on a deep stack: some buffer lengths depend on the answer.
pub fn generate(seed: u64) -> Case {
    let mut random = Random::new(seed);
    let input = case_bytes(&mut random);
    let table_len = table_length(&mut random, &input, 80, PROGRAM_BUFFER);
    let fault_len = fault_length(&mut random, 80, PROGRAM_BUFFER);
    Case { input, table_len, fault_len }
}

/// The table of a seed's case alone, without an answer to it.
pub fn generate_input(seed: u64) -> Vec<u8> {
    case_bytes(&mut Random::new(seed))
}

/// The bytes of a table that is mostly small.
fn case_bytes(random: &mut Random) -> Vec<u8> {
    let bounds = match random.weighted(&[60, 35, 5]) {
        0 => Bounds { declarations: random.between(0, 5), parts: 5, is_small: false },
        1 => Bounds { declarations: random.between(2, 14), parts: 9, is_small: false },
        _ => Bounds { declarations: random.between(20, 90), parts: 22, is_small: false },
    };
    table_bytes(random, bounds)
}

/// The case of a seed with at most `most` records and small buffers, for a slow checker.
pub fn generate_small(seed: u64, most: usize) -> Case {
    let mut random = Random::new(seed);
    let mut input = Vec::new();
    let takes_empty = random.chance(3);
    for _ in 0..60 {
        let declarations = random.between(0, (most / 3).clamp(1, 5));
        let bounds = Bounds { declarations, parts: (most / 3).clamp(1, 4), is_small: true };
        input = table_bytes(&mut random, bounds);
        if input.len() <= most * RECORD_BYTES && (takes_empty || !input.is_empty()) {
            break;
        }
    }
    input.truncate(most * RECORD_BYTES);
    let table_len = table_length(&mut random, &input, 40, (most + 6) * RECORD_BYTES);
    let fault_len = fault_length(&mut random, 40, 120);
    Case { input, table_len, fault_len }
}

/// The bytes of a table of some random sort.
fn table_bytes(random: &mut Random, bounds: Bounds) -> Vec<u8> {
    let weights: [usize; 15] = if bounds.is_small {
        [200, 480, 120, 110, 60, 40, 15, 80, 0, 0, 0, 0, 0, 0, 60]
    } else {
        [280, 380, 130, 35, 35, 40, 12, 30, 16, 16, 10, 8, 10, 12, 60]
    };
    match random.weighted(&weights) {
        0 => encode_table(&sound_table(random, bounds)),
        1 => encode_table(&planted_table(random, bounds)),
        2 => damaged_bytes(random, bounds),
        3 => encode_table(&rooms::unfit(random, bounds)),
        4 => encode_table(&rooms::loose(random, bounds)),
        5 => encode_table(&damage::wild(random, bounds)),
        6 => damage::uneven(random, bounds),
        7 => encode_table(&rooms::flags(random, bounds)),
        8 => encode_table(&rooms::swollen(random)),
        9 => encode_table(&rooms::overlisted(random)),
        10 => encode_table(&rooms::deep(random)),
        11 => encode_table(&rooms::many_faults(random)),
        12 => encode_table(&large_table(random)),
        13 => damage::too_long(random),
        _ => encode_table(&nested::nested(random, bounds)),
    }
}

/// A table that every pass accepts; a constraint or a condition may still be Unfit or Loose.
fn sound_table(random: &mut Random, bounds: Bounds) -> Vec<Record> {
    let mut drafting = Drafting::new(random);
    sound::fill(&mut drafting, bounds);
    finish::table(drafting)
}

/// A sound table with faults planted in it, mostly of one code.
fn planted_table(random: &mut Random, bounds: Bounds) -> Vec<Record> {
    let mut drafting = Drafting::new(random);
    sound::fill(&mut drafting, bounds);
    plant::some(&mut drafting, bounds);
    finish::table(drafting)
}

/// A sound table of about as many records as a table holds.
fn large_table(random: &mut Random) -> Vec<Record> {
    let bounds = Bounds { declarations: random.between(100, 260), parts: 14, is_small: false };
    let mut table = sound_table(random, bounds);
    table.truncate(random.between(1_000, 1_600));
    table
}

/// A table that every pass accepts, with about `records` records.
pub fn sound_table_near(seed: u64, records: usize) -> Vec<Record> {
    let bounds = Bounds { declarations: records / 7, parts: 12, is_small: false };
    sound_table(&mut Random::new(seed), bounds)
}

/// A table with damaged bytes or records in the wrong place.
fn damaged_bytes(random: &mut Random, bounds: Bounds) -> Vec<u8> {
    let mut table =
        if random.chance(70) { sound_table(random, bounds) } else { planted_table(random, bounds) };
    damage::records(random, &mut table);
    let mut bytes = encode_table(&table);
    if random.chance(40) {
        damage::bytes(random, &mut bytes);
    }
    bytes
}

/// A length of the table buffer: mostly `usual`, else an edge or about what the answer needs.
fn table_length(random: &mut Random, input: &[u8], percent: usize, usual: usize) -> usize {
    if random.chance(percent) {
        return usual;
    }
    if random.chance(40) {
        return random.pick(&[0, 1, 19, 20, 21, 39, 40, 41, 79, 80, 81]).min(usual);
    }
    let needed = match answer(input, usize::MAX).reply {
        Reply::Accepted(records) => records * RECORD_BYTES,
        _ => input.len().min(usual),
    };
    let nearby =
        [needed, needed.saturating_sub(1), needed.saturating_sub(40), needed + 1, needed / 2];
    random.pick(&nearby)
}

/// A length of the fault buffer: mostly `usual`, else an edge.
fn fault_length(random: &mut Random, percent: usize, usual: usize) -> usize {
    if random.chance(percent) {
        return usual;
    }
    let edges = [0, 1, 4, 19, 20, 21, 39, 40, 41, 59, 60, 61, 100, 101, 399, 400];
    random.pick(&edges).min(usual)
}
