//! Replies and buffers of the library and of the oracle, on generated cases.

use crate::pdl::analyze;
use oracle::answer::{answer, on_deep_stack, Answer};
use oracle::coverage::Coverage;
use oracle::generate::{generate, Case};
use oracle::reply::Reply;
use std::sync::atomic::{AtomicU64, Ordering};
use std::thread;

/// What both buffers hold beforehand, everywhere.
const FILLER: u8 = 7;

/// The cases to compare on.
pub struct Comparison {
    pub first_seed: u64,
    pub count: u64,
}

/// What a comparison found.
#[derive(Default)]
pub struct Outcome {
    pub coverage: Coverage,
    pub differing_seeds: Vec<u64>,
}

impl Comparison {
    /// Compares on every case, with a worker a processor.
    pub fn run(&self) -> Outcome {
        let next = AtomicU64::new(0);
        let workers = thread::available_parallelism().map_or(1, usize::from);
        let mut sum = Outcome::default();
        thread::scope(|scope| {
            let work = || on_deep_stack(|| self.work(&next));
            let running: Vec<_> = (0..workers).map(|_| scope.spawn(work)).collect();
            for worker in running {
                let found = worker.join().expect("a worker's result");
                sum.coverage.add(&found.coverage);
                sum.differing_seeds.extend(found.differing_seeds);
            }
        });
        sum.differing_seeds.sort_unstable();
        sum
    }

    /// Takes seeds until there are none left.
    fn work(&self, next: &AtomicU64) -> Outcome {
        let mut found = Outcome::default();
        loop {
            let number = next.fetch_add(1, Ordering::Relaxed);
            if number >= self.count {
                return found;
            }
            let seed = self.first_seed.wrapping_add(number);
            let case = generate(seed);
            let wanted = answer(&case.input, case.table_len);
            found.coverage.count(&wanted);
            if differs(&case, &wanted) {
                found.differing_seeds.push(seed);
            }
        }
    }
}

/// Whether the library gives another reply, or leaves another byte in one of the buffers.
fn differs(case: &Case, wanted: &Answer) -> bool {
    let (mut table, mut faults) = (vec![FILLER; case.table_len], vec![FILLER; case.fault_len]);
    let reply = analyze(&case.input, &mut table, &mut faults);
    reply != numbers(wanted.reply)
        || (table, faults) != wanted.buffers(case.table_len, case.fault_len, FILLER)
}

/// A reply as the header's three numbers.
fn numbers(reply: Reply) -> [u64; 3] {
    let (first, second) = match reply {
        Reply::Uneven | Reply::TooLong | Reply::Swollen | Reply::Overlisted => (0, 0),
        Reply::Malformed(value) | Reply::NoRoom(value) | Reply::Accepted(value) => (value, 0),
        Reply::Unfit(key) | Reply::Loose(key) => (usize::from(key), 0),
        Reply::Faulty(pass, total) => (usize::from(pass), total),
    };
    [reply.row() + 1, first, second].map(|number| number as u64)
}
