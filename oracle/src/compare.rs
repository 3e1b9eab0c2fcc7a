//! A program compared with the oracle on generated tables.

use crate::answer::{answer, PROGRAM_BUFFER, STACK_BYTES};
use crate::coverage::Coverage;
use crate::generate::generate;
use crate::print::printed;
use std::fs;
use std::io::{self, Read, Write};
use std::path::Path;
use std::process::{Command, ExitStatus, Stdio};
use std::sync::atomic::{AtomicU64, AtomicUsize, Ordering};
use std::sync::mpsc::channel;
use std::thread::{scope, Builder};
use std::time::Duration;

/// As many differences are saved.
const MOST_SAVED: usize = 20;
const WORKERS: usize = 4;
/// A program that has not ended by then differs.
const PATIENCE: Duration = Duration::from_secs(60);

/// The tables to compare on, and where differences go.
pub struct Comparison<'a> {
    pub program: &'a Path,
    pub first_seed: u64,
    pub count: u64,
    pub directory: &'a Path,
}

/// What a comparison found.
#[derive(Default)]
pub struct Outcome {
    pub coverage: Coverage,
    pub differing_seeds: Vec<u64>,
}

impl Comparison<'_> {
    /// Runs the program on every table, with a few workers side by side.
    pub fn run(&self) -> io::Result<Outcome> {
        if self.directory.exists() {
            fs::remove_dir_all(self.directory)?;
        }
        let next = AtomicU64::new(0);
        let saved = AtomicUsize::new(0);
        let results: Vec<io::Result<Outcome>> = scope(|scope| {
            let workers: Vec<_> = (0..WORKERS)
                .map(|_| {
                    let thread = Builder::new().stack_size(STACK_BYTES);
                    thread.spawn_scoped(scope, || self.work(&next, &saved)).expect("a worker")
                })
                .collect();
            workers.into_iter().map(|worker| worker.join().expect("a worker's result")).collect()
        });
        let mut sum = Outcome::default();
        for result in results {
            let found = result?;
            sum.coverage.add(&found.coverage);
            sum.differing_seeds.extend(found.differing_seeds);
        }
        sum.differing_seeds.sort_unstable();
        Ok(sum)
    }

    /// Takes seeds until there are none left.
    fn work(&self, next: &AtomicU64, saved: &AtomicUsize) -> io::Result<Outcome> {
        let mut found = Outcome::default();
        loop {
            let number = next.fetch_add(1, Ordering::Relaxed);
            if number >= self.count {
                return Ok(found);
            }
            let seed = self.first_seed.wrapping_add(number);
            let input = generate(seed).input;
            let wanted = answer(&input, PROGRAM_BUFFER);
            found.coverage.count(&wanted);
            let wanted = printed(&wanted, PROGRAM_BUFFER);
            let given = output_of(self.program, &input)?;
            if given != wanted.as_bytes() {
                found.differing_seeds.push(seed);
                if saved.fetch_add(1, Ordering::Relaxed) < MOST_SAVED {
                    self.save(seed, &input, wanted.as_bytes(), &given)?;
                }
            }
        }
    }

    /// Saves a table and both outputs under the seed's number.
    fn save(&self, seed: u64, input: &[u8], wanted: &[u8], given: &[u8]) -> io::Result<()> {
        fs::create_dir_all(self.directory)?;
        fs::write(self.directory.join(format!("{seed}.input")), input)?;
        fs::write(self.directory.join(format!("{seed}.oracle")), wanted)?;
        fs::write(self.directory.join(format!("{seed}.program")), given)
    }
}

/// What a program prints for an input, and how it ended if it did not end by itself.
pub fn output_of(program: &Path, input: &[u8]) -> io::Result<Vec<u8>> {
    let mut command = Command::new(program);
    command.stdin(Stdio::piped()).stdout(Stdio::piped()).stderr(Stdio::null());
    let mut child = command.spawn()?;
    let mut stdin = child.stdin.take().expect("a pipe was asked for");
    let mut stdout = child.stdout.take().expect("a pipe was asked for");
    let (sender, receiver) = channel();
    scope(|scope| {
        // A program may stop reading early, so that a failed write is no trouble.
        scope.spawn(move || stdin.write_all(input).ok());
        scope.spawn(move || {
            let mut text = Vec::new();
            sender.send(stdout.read_to_end(&mut text).map(|_| text)).ok();
        });
        if let Ok(read) = receiver.recv_timeout(PATIENCE) {
            return ended(read?, child.wait()?);
        }
        child.kill()?;
        child.wait()?;
        Ok(format!("no end after {} seconds\n", PATIENCE.as_secs()).into_bytes())
    })
}

/// The text of a program that ended, with a line behind it if a signal ended it.
fn ended(mut text: Vec<u8>, status: ExitStatus) -> io::Result<Vec<u8>> {
    if status.code().is_none() {
        text.extend(format!("{status}\n").bytes());
    }
    Ok(text)
}
