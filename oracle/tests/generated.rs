//! What generated tables reach, and what the oracle promises of them.

use oracle::answer::{answer, on_deep_stack};
use oracle::coverage::Coverage;
use oracle::generate::{generate, generate_small};
use oracle::record::{MOST_RECORDS, RECORD_BYTES};
use oracle::verify::{silence_panics, verify, Verified};

#[test]
fn a_seed_names_one_case() {
    on_deep_stack(|| {
        for seed in 0..200 {
            assert_eq!(generate(seed), generate(seed), "seed {seed}");
            assert_eq!(generate_small(seed, 8), generate_small(seed, 8), "seed {seed}");
        }
    })
}

#[test]
fn every_reply_and_code_is_reached() {
    let mut coverage = Coverage::default();
    on_deep_stack(|| {
        for seed in 0..4_000 {
            let case = generate(seed);
            coverage.count(&answer(&case.input, case.table_len));
        }
    });
    assert_eq!(coverage.under(10), Vec::<String>::new());
}

#[test]
fn small_cases_stay_small() {
    on_deep_stack(|| {
        for seed in 0..2_000 {
            let most = seed as usize % 13;
            assert!(generate_small(seed, most).input.len() <= most * RECORD_BYTES, "seed {seed}");
        }
    })
}

#[test]
fn inputs_end_at_200_000_bytes() {
    on_deep_stack(|| {
        let lengths = (0..2_000).map(|seed| generate(seed).input.len());
        let most = lengths.max().unwrap_or(0);
        assert!(most > MOST_RECORDS * RECORD_BYTES && most <= 200_000, "{most} bytes");
    })
}

#[test]
fn the_rust_panics_exactly_on_unfit_and_loose() {
    silence_panics();
    let mut sum = Verified::default();
    on_deep_stack(|| {
        for seed in 0..2_000 {
            let found = verify(&generate(seed).input);
            let found = found.unwrap_or_else(|wrong| panic!("seed {seed}: {wrong}"));
            sum.unfit += found.unfit;
            sum.loose += found.loose;
        }
    });
    assert!(sum.unfit > 20 && sum.loose > 20, "{sum:?}");
}
