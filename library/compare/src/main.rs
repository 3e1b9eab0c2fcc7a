//! The static library of the crate `pdl`, compared with the oracle in one process.

mod bench;
mod compare;
#[path = "../../pdl.rs"]
mod pdl;
mod slowest;

use compare::Comparison;
use oracle::answer::on_deep_stack;
use std::process::ExitCode;

const USAGE: &str = "usage:
  compare compare COUNT [--seed S]    replies and buffers on COUNT generated cases
  compare bench                       times beside the Rust passes
  compare slowest [COUNT] [--seed S]  the slowest of built tables, of COUNT random ones and of COUNT changes; fails over 50 ms";

/// How many random tables and changes are tried if no number is given.
const USUAL_COUNT: u64 = 500;

fn main() -> ExitCode {
    let arguments: Vec<String> = std::env::args().skip(1).collect();
    let arguments: Vec<&str> = arguments.iter().map(String::as_str).collect();
    match run(&arguments) {
        Ok(code) => code,
        Err(trouble) => {
            eprintln!("{trouble}");
            ExitCode::from(2)
        }
    }
}

fn run(arguments: &[&str]) -> Result<ExitCode, String> {
    match arguments {
        ["compare", count] => Ok(run_compare(0, number(count)?)),
        ["compare", count, "--seed", seed] => Ok(run_compare(number(seed)?, number(count)?)),
        ["slowest"] => Ok(run_slowest(0, USUAL_COUNT)),
        ["slowest", count] => Ok(run_slowest(0, number(count)?)),
        ["slowest", "--seed", seed] => Ok(run_slowest(number(seed)?, USUAL_COUNT)),
        ["slowest", count, "--seed", seed] => Ok(run_slowest(number(seed)?, number(count)?)),
        ["bench"] => {
            print!("{}", on_deep_stack(bench::text));
            Ok(ExitCode::SUCCESS)
        }
        _ => Err(USAGE.to_owned()),
    }
}

fn number(text: &str) -> Result<u64, String> {
    text.parse().map_err(|_| format!("`{text}` is no number\n{USAGE}"))
}

fn run_compare(first_seed: u64, count: u64) -> ExitCode {
    let outcome = Comparison { first_seed, count }.run();
    print!("{}", outcome.coverage.text());
    if outcome.differing_seeds.is_empty() {
        println!("no difference");
        return ExitCode::SUCCESS;
    }
    let first: Vec<String> = outcome.differing_seeds.iter().take(10).map(u64::to_string).collect();
    println!("{} cases differ, seeds {}", outcome.differing_seeds.len(), first.join(", "));
    ExitCode::FAILURE
}

fn run_slowest(first_seed: u64, count: u64) -> ExitCode {
    let is_over = on_deep_stack(|| slowest::is_over_limit(first_seed, count));
    ExitCode::from(u8::from(is_over))
}
