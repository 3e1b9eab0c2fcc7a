//! The commands of the oracle.

use oracle::answer::{answer, on_deep_stack, PROGRAM_BUFFER};
use oracle::bench;
use oracle::cases::case_text;
use oracle::compare::Comparison;
use oracle::coverage::{Coverage, WANTED};
use oracle::generate::{generate, generate_small};
use oracle::print::printed;
use oracle::reply::Reply;
use oracle::stored::{Part, Stored};
use oracle::text::{lines_of, table_of};
use oracle::verify::{silence_panics, verify, Verified};
use std::collections::BTreeMap;
use std::io::{Read, Write};
use std::path::Path;
use std::process::ExitCode;

const USAGE: &str = "usage:
  oracle answer [--table-len N] [--fault-len N]    the answer to the table on standard input
  oracle table                                     the table of the lines on standard input
  oracle lines                                     the lines of the table on standard input
  oracle generate SEED                             the bytes of a generated table
  oracle compare PROGRAM COUNT [--seed S]          a program's output against the oracle's
  oracle coverage COUNT [--seed S] [--small N]     how often cases reach each reply and code
  oracle verify COUNT [--seed S]                   the Rust panics exactly on Unfit and Loose
  oracle cases COUNT MAXRECORDS [--seed S]         small cases as text
  oracle stored DIRECTORY PART=COUNT.. [--seed S]  stdin and stdout of the program that replays parts
                                                   of the analyzer (layout, scope, order, checks,
                                                   whole)
  oracle bench                                     the time that the Rust passes take
  oracle bench-parts PROGRAM                       the same beside the program that replays parts";

/// Where differences between a program and the oracle are saved.
const DIFFERENCES: &str = "target/differences";

fn main() -> ExitCode {
    let arguments: Vec<String> = std::env::args().skip(1).collect();
    match on_deep_stack(|| run(&arguments)) {
        Ok(code) => code,
        Err(trouble) => {
            eprintln!("{trouble}");
            ExitCode::from(2)
        }
    }
}

/// Plain arguments, and the numbers of the options.
struct Arguments {
    plain: Vec<String>,
    options: Vec<(String, u64)>,
}

impl Arguments {
    fn parse(arguments: &[String], allowed: &[&str]) -> Result<Arguments, String> {
        let mut parsed = Arguments { plain: Vec::new(), options: Vec::new() };
        let mut rest = arguments.iter();
        while let Some(argument) = rest.next() {
            if !argument.starts_with("--") {
                parsed.plain.push(argument.clone());
            } else if allowed.contains(&argument.as_str()) {
                let value = rest.next().ok_or(format!("{argument} wants a number\n{USAGE}"))?;
                parsed.options.push((argument.clone(), number(value)?));
            } else {
                return Err(format!("unknown option {argument}\n{USAGE}"));
            }
        }
        Ok(parsed)
    }

    fn option(&self, name: &str, usual: u64) -> u64 {
        let found = self.options.iter().rev().find(|(option, _)| option == name);
        found.map_or(usual, |&(_, value)| value)
    }

    fn expect<const N: usize>(&self) -> Result<[&str; N], String> {
        let plain: Vec<&str> = self.plain.iter().map(String::as_str).collect();
        plain.try_into().map_err(|_| USAGE.to_owned())
    }
}

fn number(text: &str) -> Result<u64, String> {
    text.parse().map_err(|_| format!("`{text}` is no number\n{USAGE}"))
}

fn run(arguments: &[String]) -> Result<ExitCode, String> {
    let (command, rest) = arguments.split_first().ok_or(USAGE)?;
    match command.as_str() {
        "answer" => run_answer(&Arguments::parse(rest, &["--table-len", "--fault-len"])?),
        "table" => run_table(&Arguments::parse(rest, &[])?),
        "lines" => run_lines(&Arguments::parse(rest, &[])?),
        "generate" => run_generate(&Arguments::parse(rest, &[])?),
        "compare" => run_compare(&Arguments::parse(rest, &["--seed"])?),
        "coverage" => run_coverage(&Arguments::parse(rest, &["--seed", "--small"])?),
        "verify" => run_verify(&Arguments::parse(rest, &["--seed"])?),
        "cases" => run_cases(&Arguments::parse(rest, &["--seed"])?),
        "stored" => run_stored(&Arguments::parse(rest, &["--seed"])?),
        "bench" => run_bench(&Arguments::parse(rest, &[])?),
        "bench-parts" => run_bench_parts(&Arguments::parse(rest, &[])?),
        _ => Err(format!("unknown command `{command}`\n{USAGE}")),
    }
}

fn print_bytes(bytes: &[u8]) -> Result<ExitCode, String> {
    let written = std::io::stdout().write_all(bytes).and_then(|()| std::io::stdout().flush());
    written.map(|()| ExitCode::SUCCESS).map_err(|error| error.to_string())
}

fn run_answer(arguments: &Arguments) -> Result<ExitCode, String> {
    let [] = arguments.expect()?;
    let table_len = arguments.option("--table-len", PROGRAM_BUFFER as u64) as usize;
    let fault_len = arguments.option("--fault-len", PROGRAM_BUFFER as u64) as usize;
    print_bytes(printed(&answer(&standard_input()?, table_len), fault_len).as_bytes())
}

fn standard_input() -> Result<Vec<u8>, String> {
    let mut input = Vec::new();
    std::io::stdin().read_to_end(&mut input).map_err(|error| error.to_string())?;
    Ok(input)
}

fn run_table(arguments: &Arguments) -> Result<ExitCode, String> {
    let [] = arguments.expect()?;
    let text = String::from_utf8(standard_input()?).map_err(|error| error.to_string())?;
    print_bytes(&table_of(&text)?)
}

fn run_lines(arguments: &Arguments) -> Result<ExitCode, String> {
    let [] = arguments.expect()?;
    print_bytes(lines_of(&standard_input()?)?.as_bytes())
}

fn run_generate(arguments: &Arguments) -> Result<ExitCode, String> {
    let [seed] = arguments.expect()?;
    print_bytes(&generate(number(seed)?).input)
}

fn run_compare(arguments: &Arguments) -> Result<ExitCode, String> {
    let [program, count] = arguments.expect()?;
    let comparison = Comparison {
        program: Path::new(program),
        first_seed: arguments.option("--seed", 0),
        count: number(count)?,
        directory: Path::new(DIFFERENCES),
    };
    let outcome = comparison.run().map_err(|error| format!("{program}: {error}"))?;
    print!("{}", outcome.coverage.text());
    let differing = outcome.differing_seeds;
    if differing.is_empty() {
        println!("no difference");
        return Ok(ExitCode::SUCCESS);
    }
    let first: Vec<String> = differing.iter().take(10).map(u64::to_string).collect();
    println!("{} tables differ, seeds {}; see {DIFFERENCES}", differing.len(), first.join(", "));
    Ok(ExitCode::FAILURE)
}

fn run_coverage(arguments: &Arguments) -> Result<ExitCode, String> {
    let [count] = arguments.expect()?;
    let first = arguments.option("--seed", 0);
    let mut coverage = Coverage::default();
    let small = arguments.option("--small", 0) as usize;
    for seed in first..first.saturating_add(number(count)?) {
        let case = if small > 0 { generate_small(seed, small) } else { generate(seed) };
        coverage.count(&answer(&case.input, case.table_len));
    }
    print!("{}", coverage.text());
    let under = coverage.under(WANTED);
    if under.is_empty() {
        println!("each reply and each code in at least {WANTED} tables");
        return Ok(ExitCode::SUCCESS);
    }
    println!("in fewer than {WANTED} tables: {}", under.join(", "));
    Ok(ExitCode::FAILURE)
}

fn run_verify(arguments: &Arguments) -> Result<ExitCode, String> {
    let [count] = arguments.expect()?;
    let first = arguments.option("--seed", 0);
    silence_panics();
    let mut sum = Verified::default();
    for seed in first..first.saturating_add(number(count)?) {
        let found =
            verify(&generate(seed).input).map_err(|wrong| format!("seed {seed}: {wrong}"))?;
        sum.unfit += found.unfit;
        sum.loose += found.loose;
        sum.calm += found.calm;
        sum.with_empty_groups += found.with_empty_groups;
    }
    println!("panics of inline_groups, each answered Unfit: {}", sum.unfit);
    println!("panics of desugar_flags, each answered Loose: {}", sum.loose);
    println!("tables without panic, each answered otherwise: {}", sum.calm);
    println!(
        "tables also inlined with their empty groups, no difference: {}",
        sum.with_empty_groups
    );
    Ok(ExitCode::SUCCESS)
}

fn run_cases(arguments: &Arguments) -> Result<ExitCode, String> {
    let [count, most_records] = arguments.expect()?;
    let first = arguments.option("--seed", 0);
    let most_records = number(most_records)? as usize;
    let mut out = std::io::stdout().lock();
    for seed in first..first.saturating_add(number(count)?) {
        let text = case_text(seed, most_records);
        out.write_all(text.as_bytes()).map_err(|error| error.to_string())?;
    }
    Ok(ExitCode::SUCCESS)
}

fn run_stored(arguments: &Arguments) -> Result<ExitCode, String> {
    let (directory, parts) = arguments.plain.split_first().ok_or(USAGE)?;
    let mut made = Stored::default();
    for part in parts {
        let (name, count) = part.split_once('=').ok_or(USAGE)?;
        let part = Part::named(name).ok_or(format!("unknown part `{name}`\n{USAGE}"))?;
        made.add(part, number(count)? as usize, arguments.option("--seed", 0));
    }
    let write = |name: &str, bytes: &[u8]| {
        let path = Path::new(directory).join(name);
        std::fs::write(&path, bytes).map_err(|error| format!("{}: {error}", path.display()))
    };
    write("stdin", &made.input)?;
    write("stdout", made.output.as_bytes())?;
    println!("{} cases, {} bytes", made.output.lines().count(), made.input.len());
    println!("tables of the parts by fault code: {}", counts(&made.codes));
    println!("tables of the whole analyzer by fault code: {}", counts(&made.whole_codes));
    let replies: Vec<String> =
        Reply::NAMES.iter().zip(made.replies).map(|(name, n)| format!("{name}: {n}")).collect();
    println!("tables of the whole analyzer by reply: {}", replies.join(", "));
    Ok(ExitCode::SUCCESS)
}

fn counts(codes: &BTreeMap<u16, usize>) -> String {
    let counts: Vec<String> = codes.iter().map(|(code, n)| format!("{code}: {n}")).collect();
    counts.join(", ")
}

fn run_bench(arguments: &Arguments) -> Result<ExitCode, String> {
    let [] = arguments.expect()?;
    print_bytes(bench::text().as_bytes())
}

fn run_bench_parts(arguments: &Arguments) -> Result<ExitCode, String> {
    let [program] = arguments.expect()?;
    let text =
        bench::parts_text(Path::new(program)).map_err(|error| format!("{program}: {error}"))?;
    print_bytes(text.as_bytes())
}
