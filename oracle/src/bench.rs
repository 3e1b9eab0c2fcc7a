//! The tables of the benchmark, and the time that the Rust passes take on them.

use crate::analyzer::passes;
use crate::answer::{answer, PROGRAM_BUFFER};
use crate::ast::File;
use crate::convert::{to_file, to_table};
use crate::generate::sound_table_near;
use crate::groups;
use crate::record::{encode_table, kind, Record};
use crate::reply::Reply;
use crate::stored::Part;
use std::fmt::Write;
use std::hint::black_box;
use std::io::Write as _;
use std::path::Path;
use std::process::{Command, Stdio};
use std::time::{Duration, Instant};

const RUNS: usize = 51;
/// After so long no further run is begun.
const LONG: Duration = Duration::from_secs(1);

/// A table with the name that the benchmark prints.
pub struct NamedTable {
    pub name: &'static str,
    pub table: Vec<Record>,
}

/// The tables of the benchmark. Call it on a deep stack.
pub fn tables() -> Vec<NamedTable> {
    let named = |name, table| NamedTable { name, table };
    vec![
        named("generated", generated()),
        named("one packet of 1,599 scalars", scalars()),
        named("one enum of 1,599 values", values()),
        named("one enum of 800 ranges, 799 values", ranges()),
        named("799 sizes with their arrays", sizes()),
        named("1,600 packets in a parent chain", parents()),
        named("nested groups", nested_groups()),
        named("groups 500 deep, constrained", deep_groups(500, 39, 40)),
        named("groups 250 deep, 800 times", deep_groups(250, 799, 2)),
        named("soft stroke", soft_stroke()),
    ]
}

/// An accepted table of the generator with about 1,390 records.
fn generated() -> Vec<Record> {
    let tables = (0..).map(|seed| sound_table_near(seed, 1_390));
    let mut near = tables.filter(|table| (1_380..=1_400).contains(&table.len()));
    near.find(|table| is_accepted(table)).expect("the seeds never end")
}

/// Whether a table is accepted and its groups are soon walked.
fn is_accepted(table: &[Record]) -> bool {
    let reply = answer(&encode_table(table), usize::MAX).reply;
    let is_soon_walked = |listed: File| groups::is_soon_walked(&listed);
    matches!(reply, Reply::Accepted(_)) && passes::check(&to_file(table)).is_ok_and(is_soon_walked)
}

fn named(kind: u8, name: usize) -> Record {
    Record { name: name as u16, ..Record::of(kind) }
}

fn scalars() -> Vec<Record> {
    let fields = (0..1_599).map(|at| Record { one: 8, ..named(kind::SCALAR, 100 + at) });
    std::iter::once(named(kind::PACKET, 10)).chain(fields).collect()
}

fn values() -> Vec<Record> {
    let tags = (0..1_599).map(|at| Record { one: at as u64, ..named(kind::TAG_VALUE, 100 + at) });
    std::iter::once(Record { one: 16, ..named(kind::ENUM, 10) }).chain(tags).collect()
}

/// Ranges that lie apart, and values between them.
fn ranges() -> Vec<Record> {
    let mut table = vec![Record { one: 16, ..named(kind::ENUM, 10) }];
    for at in 0..800 {
        let one = 4 * at as u64;
        table.push(Record { one, two: one + 1, ..named(kind::TAG_RANGE, 100 + at) });
    }
    let value = |at: usize| Record { one: 4 * at as u64 + 2, ..named(kind::TAG_VALUE, 1_000 + at) };
    table.extend((0..799).map(value));
    table
}

fn sizes() -> Vec<Record> {
    let mut table = vec![named(kind::PACKET, 10)];
    for at in 0..799 {
        table.push(Record { second: 100 + at as u16, one: 8, ..Record::of(kind::SIZE) });
        table.push(Record { marks: 1, one: 8, ..named(kind::ARRAY, 100 + at) });
    }
    table
}

/// Each packet names the next one as its parent, so that the first visit goes down the whole chain.
fn parents() -> Vec<Record> {
    let parent = |at: u16| if at < 1_600 { at + 1 } else { 0 };
    (1..=1_600)
        .map(|at| Record { second: parent(at), ..named(kind::PACKET, at as usize) })
        .collect()
}

/// Sixty groups, each in the one before it with a constraint, inlined into twenty packets.
fn nested_groups() -> Vec<Record> {
    let mut table = Vec::new();
    for at in 0..60 {
        table.push(named(kind::GROUP, 100 + at));
        table.push(Record { one: 8, ..named(kind::SCALAR, 200 + at) });
        if at < 59 {
            table.push(Record { second: 101 + at as u16, ..Record::of(kind::GROUP_FIELD) });
            let name = 200 + (at + 1 + at % 7).min(59);
            table.push(Record { marks: 1, one: 3, ..named(kind::CONSTRAINT, name) });
        }
    }
    for at in 0..20 {
        table.push(named(kind::PACKET, 300 + at));
        table.push(Record { second: 100, ..Record::of(kind::GROUP_FIELD) });
        table.push(Record { marks: 1, one: 1, ..named(kind::CONSTRAINT, 200 + at) });
    }
    table
}

/// A chain of groups with a constraint at each level, inlined `times` times into a packet; the innermost has `fields` scalars.
fn deep_groups(depth: usize, times: usize, fields: usize) -> Vec<Record> {
    let mut table = vec![named(kind::GROUP, 1)];
    table.extend((0..fields).map(|at| Record { one: 8, ..named(kind::SCALAR, 1_000 + at) }));
    for at in 1..depth {
        table.push(named(kind::GROUP, 1 + at));
        table.push(Record { second: at as u16, ..Record::of(kind::GROUP_FIELD) });
        table.push(Record { marks: 1, one: 3, ..named(kind::CONSTRAINT, 2_000 + at) });
    }
    table.push(named(kind::PACKET, 3_000));
    table.extend(vec![Record { second: depth as u16, ..Record::of(kind::GROUP_FIELD) }; times]);
    table
}

/// The soft stroke of document 01.
pub fn soft_stroke() -> Vec<Record> {
    let scalar = |name, one, key| Record { one, key, ..named(kind::SCALAR, name) };
    let condition = |one| Record { marks: 1, one, ..named(kind::CONDITION, 11) };
    vec![
        Record { key: 1, ..named(kind::PACKET, 10) },
        scalar(11, 1, 2),
        Record { one: 7, key: 3, ..Record::of(kind::RESERVED) },
        scalar(12, 8, 4),
        condition(1),
        scalar(13, 8, 5),
        condition(0),
    ]
}

/// Medians in the order of the benchmark's columns.
struct Medians {
    conversion: Duration,
    passes: Duration,
    whole: Duration,
}

/// The medians of all tables as text. Call it on a deep stack.
pub fn text() -> String {
    let mut text = format!(
        "{:<36} {:>7} {:>14} {:>13} {:>11} {:>10}\n",
        "table (medians in microseconds)", "records", "reply", "conversion", "passes", "whole"
    );
    for NamedTable { name, table } in tables() {
        let reply = answer(&encode_table(&table), usize::MAX).reply.line();
        let Medians { conversion, passes, whole } = medians(&table);
        let micros = |time: Duration| time.as_nanos() as f64 / 1_000.0;
        writeln!(
            text,
            "{name:<36} {:>7} {reply:>14} {:>13.1} {:>11.1} {:>10.1}",
            table.len(),
            micros(conversion),
            micros(passes),
            micros(whole)
        )
        .expect("a string takes any text");
    }
    text
}

/// How many times a timed program gets a table in one run.
const REPEATED: u32 = 50;

/// The Rust's passes beside the crate `replay`, which is run on the same tables; its times include reading a table, digests of
/// the buffers and printing a line. Call it on a deep stack.
pub fn parts_text(program: &Path) -> std::io::Result<String> {
    let mut text = format!(
        "{:<36} {:>14} {:>8} {:>8} {:>14} {:>10} {:>8}\n",
        "table (medians in microseconds)",
        "Rust, 1 to 9",
        "pass 1",
        "pass 2",
        "passes 2 to 9",
        "Rust, all",
        "whole"
    );
    for NamedTable { name, table } in tables() {
        let file = to_file(&table);
        let rust = median(|| passes::check(&file).is_ok()).as_nanos() as f64 / 1_000.0;
        let bytes = encode_table(&table);
        write!(text, "{name:<36} {rust:>14.1}").expect("a string takes any text");
        for (part, width) in [(Part::Scope, 8), (Part::Order, 8), (Part::Checks, 14)] {
            let time = program_time(program, part, &bytes)?.as_nanos() as f64 / 1_000.0;
            write!(text, " {time:>width$.1}").expect("a string takes any text");
        }
        let all = median(|| run_passes(&file)).as_nanos() as f64 / 1_000.0;
        let whole = program_time(program, Part::Whole, &bytes)?.as_nanos() as f64 / 1_000.0;
        writeln!(text, " {all:>10.1} {whole:>8.1}").expect("a string takes any text");
    }
    Ok(text)
}

/// The median time of a program for one table, of runs with many of them.
fn program_time(program: &Path, part: Part, table: &[u8]) -> std::io::Result<Duration> {
    let mut times = Vec::new();
    for _ in 0..9 {
        let begin = Instant::now();
        let mut running =
            Command::new(program).stdin(Stdio::piped()).stdout(Stdio::null()).spawn()?;
        let mut input = running.stdin.take().expect("a piped standard input");
        for _ in 0..REPEATED {
            input.write_all(&part.case_bytes(table, PROGRAM_BUFFER, 200))?;
        }
        drop(input);
        running.wait()?;
        times.push(begin.elapsed() / REPEATED);
    }
    times.sort_unstable();
    Ok(times[times.len() / 2])
}

fn medians(table: &[Record]) -> Medians {
    let bytes = encode_table(table);
    let file = to_file(table);
    let last = run_passes(&file);
    Medians {
        conversion: median(|| (to_file(table), to_table(&last))),
        passes: median(|| run_passes(&file)),
        whole: median(|| answer(&bytes, usize::MAX)),
    }
}

/// All passes, `inline_groups` and `desugar_flags`, on a table that is accepted and soon walked.
pub fn run_passes(file: &File) -> File {
    let listed = passes::check(file).unwrap_or_else(|(pass, _)| panic!("faults in pass {pass}"));
    let mut inlined = passes::inline(&listed);
    passes::desugar(&mut inlined);
    inlined
}

/// The median time of up to `RUNS` runs, of fewer where they take long.
pub fn median<T>(mut work: impl FnMut() -> T) -> Duration {
    let mut times: Vec<Duration> = Vec::new();
    while times.len() < RUNS && (times.len() < 3 || times.iter().sum::<Duration>() < LONG) {
        let begin = Instant::now();
        black_box(work());
        times.push(begin.elapsed());
    }
    times.sort_unstable();
    times[times.len() / 2]
}
