//! Document 01's modules 2 to 12 written a second time, from its text and on records alone, and
//! compared with the Rust on generated tables. A difference is one between the document and the
//! Rust, or a fault of the oracle.

mod inline;
mod order;
mod rules;
mod table;

use oracle::answer::{answer, on_deep_stack, Answer};
use oracle::generate::{generate, generate_small, Case};
use oracle::layout;
use oracle::record::Record;
use oracle::reply::Reply;

/// The answer as document 01 reads.
fn reading(case: &Case) -> Answer {
    let bare = |reply| Answer { reply, faults: Vec::new(), records: Vec::new() };
    let records = match layout::check(&case.input) {
        Ok(records) => records,
        Err(reply) => return bare(reply),
    };
    let declared = table::declarations(&records);
    let (found, listed) = match rules::pass1(&declared) {
        faults if faults.is_empty() => order::pass2(&declared),
        faults => return faulty(1, faults),
    };
    if !found.is_empty() {
        return faulty(2, found);
    }
    for (step, pass) in rules::PASSES_3_TO_9.iter().enumerate() {
        let found = pass(&listed);
        if !found.is_empty() {
            return faulty(step as u16 + 3, found);
        }
    }
    match inline::accepted(&listed, case.table_len) {
        Ok(records) => accepted(records),
        Err(reply) => bare(reply),
    }
}

fn faulty(pass: u16, faults: Vec<oracle::fault::Fault>) -> Answer {
    Answer { reply: Reply::Faulty(pass, faults.len()), faults, records: Vec::new() }
}

fn accepted(records: Vec<Record>) -> Answer {
    Answer { reply: Reply::Accepted(records.len()), faults: Vec::new(), records }
}

fn compare(cases: impl Iterator<Item = (u64, Case)> + Send) {
    on_deep_stack(move || {
        for (seed, case) in cases {
            let rust = answer(&case.input, case.table_len);
            assert_eq!(reading(&case), rust, "seed {seed}");
        }
    })
}

#[test]
fn generated_tables() {
    compare((0..6_000).map(|seed| (seed, generate(seed))));
}

#[test]
fn small_tables() {
    let small = |seed| (seed, generate_small(seed, 1 + seed as usize % 14));
    compare((0..12_000).map(small));
}
