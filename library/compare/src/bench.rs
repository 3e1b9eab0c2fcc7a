//! The time of the library beside the time of the Rust passes, on the oracle's named tables.

use crate::pdl::analyze;
use oracle::answer::PROGRAM_BUFFER;
use oracle::bench::{median, run_passes, tables, NamedTable};
use oracle::convert::{to_file, to_table};
use oracle::record::{encode_table, Record};
use std::fmt::Write;
use std::time::Duration;

/// Medians in the order of the columns.
struct Medians {
    passes: Duration,
    conversion: Duration,
    both: Duration,
    library: Duration,
}

/// The medians of all tables as text. Call it on a deep stack.
pub fn text() -> String {
    let mut text = format!(
        "{:<36} {:>7} {:>11} {:>11} {:>11} {:>11} {:>12}\n",
        "table (medians in microseconds)",
        "records",
        "Rust passes",
        "conversion",
        "both",
        "pdl_analyze",
        "ours/passes"
    );
    for NamedTable { name, table } in tables() {
        let Medians { passes, conversion, both, library } = medians(&table);
        write!(text, "{name:<36} {:>7}", table.len()).expect("a string takes any text");
        for time in [passes, conversion, both, library] {
            write!(text, " {:>11.1}", micros(time)).expect("a string takes any text");
        }
        let ratio = micros(library) / micros(passes);
        writeln!(text, " {ratio:>12.3}").expect("a string takes any text");
    }
    text
}

fn micros(time: Duration) -> f64 {
    time.as_nanos() as f64 / 1_000.0
}

/// The library's buffers are cleared once, not before each run.
fn medians(table: &[Record]) -> Medians {
    let bytes = encode_table(table);
    let file = to_file(table);
    let last = run_passes(&file);
    let (mut written, mut faults) = (vec![0; PROGRAM_BUFFER], vec![0; PROGRAM_BUFFER]);
    Medians {
        passes: median(|| run_passes(&file)),
        conversion: median(|| (to_file(table), to_table(&last))),
        both: median(|| to_table(&run_passes(&to_file(table)))),
        library: median(|| analyze(&bytes, &mut written, &mut faults)),
    }
}
