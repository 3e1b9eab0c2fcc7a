//! A search for the input on which the library is slowest: built tables, random tables, and changes to the slowest found.

mod families;

use crate::pdl::analyze;
use families::{built, Built, Table};
use oracle::answer::PROGRAM_BUFFER;
use oracle::generate::{generate_input, sound_table_near};
use oracle::random::Random;
use oracle::record::{encode_table, Record, MOST_RECORDS, RECORD_BYTES};
use oracle::reply::Reply;
use std::cmp::Reverse;
use std::time::Duration;

/// The longest time that an input may take.
const LIMIT: Duration = Duration::from_millis(50);
/// More are kept than printed, as a disturbance may make one look slow until all run again.
const KEPT: usize = 20;
const PRINTED: usize = 10;
/// An input runs so many times before it is kept.
const RUNS: usize = 9;
/// A time that is greater by less than the part of this divisor is not taken for greater.
const NOISE: u32 = 100;
/// Changes are made to so many of the slowest.
const CHANGED: usize = 3;

/// What is known of an input; `family` is what it was made as, before any changes.
struct Found {
    family: String,
    shape: &'static str,
    changes: usize,
    input: Vec<u8>,
    reply: [u64; 3],
    time: Duration,
}

/// The slowest inputs, one a family, and the library's buffers.
struct Search {
    slowest: Vec<Found>,
    buffers: [Vec<u8>; 2],
}

/// Searches among the built tables, `count` random ones of each generator and as many changes; prints the slowest, and tells
/// whether it is over the limit. Call it on a deep stack.
pub fn is_over_limit(first_seed: u64, count: u64) -> bool {
    let buffers = [vec![0; PROGRAM_BUFFER], vec![0; PROGRAM_BUFFER]];
    let mut search = Search { slowest: Vec::new(), buffers };
    for Built { family, shape, table } in built() {
        search.offer(Found::new(family.to_owned(), shape, encode_table(&table)));
    }
    let mut random = Random::new(first_seed);
    for seed in (0..count).map(|at| first_seed.wrapping_add(at)) {
        let mut sound = sound_table_near(seed, random.between(200, 1_900));
        sound.truncate(MOST_RECORDS);
        let name = format!("sound table of seed {seed}");
        search.offer(Found::new(name, "", encode_table(&sound)));
        search.offer(Found::new(format!("seed {seed}"), "", generate_input(seed)));
    }
    for _ in 0..count {
        search.change_one(&mut random);
    }
    search.time_again();
    search.print()
}

impl Found {
    fn new(family: String, shape: &'static str, input: Vec<u8>) -> Found {
        Found { family, shape, changes: 0, input, reply: [0; 3], time: Duration::MAX }
    }

    /// The family with the shape and the number of changes, if any.
    fn name(&self) -> String {
        let mut name = self.family.clone();
        if !self.shape.is_empty() {
            name = format!("{name}, {}", self.shape);
        }
        if self.changes > 0 {
            name = format!("{name}, changes: {}", self.changes);
        }
        name
    }

    fn table(&self) -> Table {
        self.input.chunks_exact(RECORD_BYTES).map(Record::decode).collect()
    }

    /// Runs the library once. The time kept is the least of all runs, as other programs disturb some.
    fn run(&mut self, [table, faults]: &mut [Vec<u8>; 2]) -> Duration {
        let begin = processor_time();
        self.reply = analyze(&self.input, table, faults);
        let time = processor_time() - begin;
        self.time = self.time.min(time);
        time
    }
}

impl Search {
    /// Keeps an input if it is slower than the one kept of its family, or than the last one kept.
    fn offer(&mut self, mut found: Found) {
        let same = self.slowest.iter().position(|kept| kept.family == found.family);
        let rival = same.or((self.slowest.len() == KEPT).then_some(KEPT - 1));
        if rival.is_some_and(|at| !self.is_slower(&mut found, at)) {
            return;
        }
        found.run(&mut self.buffers);
        if let Some(at) = rival {
            self.slowest.remove(at);
        }
        self.slowest.push(found);
        self.slowest.sort_by_key(|kept| Reverse(kept.time));
    }

    /// Whether an input is slower than one kept, in all earlier runs and in some that both do in turn.
    fn is_slower(&mut self, found: &mut Found, at: usize) -> bool {
        let rival = &mut self.slowest[at];
        let is_more = |time: Duration, least: Duration| time > least + least / NOISE;
        let mut now = Duration::MAX;
        for _ in 0..RUNS {
            found.run(&mut self.buffers);
            if !is_more(found.time, rival.time) {
                return false;
            }
            now = now.min(rival.run(&mut self.buffers));
        }
        is_more(found.time, now)
    }

    /// Changes some records of one of the slowest tables, and keeps the slower.
    fn change_one(&mut self, random: &mut Random) {
        let (at, other) = (random.below(CHANGED), random.below(KEPT));
        self.slowest[at].run(&mut self.buffers);
        let (chosen, donor) = (&self.slowest[at], self.slowest[other].table());
        let mut table = chosen.table();
        for _ in 0..random.pick(&[1, 4, 40]) {
            change(&mut table, &donor, random);
        }
        let changed = Found::new(chosen.family.clone(), chosen.shape, encode_table(&table));
        let changes = chosen.changes + 1;
        self.offer(Found { changes, ..changed });
    }

    /// Runs all that are kept in turn, so that a disturbance is not taken for the time of one.
    fn time_again(&mut self) {
        for _ in 0..RUNS {
            for kept in &mut self.slowest {
                kept.run(&mut self.buffers);
            }
        }
        self.slowest.sort_by_key(|kept| Reverse(kept.time));
    }

    /// Prints the slowest inputs, and tells whether one is over the limit.
    fn print(&self) -> bool {
        println!("{:<68} {:>7} {:>17} {:>12}", "input", "records", "reply", "microseconds");
        for found in self.slowest.iter().take(PRINTED) {
            let (name, records) = (found.name(), found.input.len() / RECORD_BYTES);
            let (reply, micros) = (reply_line(found.reply), found.time.as_nanos() as f64 / 1_000.0);
            println!("{name:<68} {records:>7} {reply:>17} {micros:>12.1}");
        }
        let worst = &self.slowest[0];
        let is_over = worst.time > LIMIT;
        let verdict = if is_over { "over" } else { "within" };
        let (time, limit) = (worst.time.as_micros(), LIMIT.as_millis());
        println!("slowest: {}, {time} microseconds, {verdict} {limit} ms", worst.name());
        is_over
    }
}

#[repr(C)]
struct Timespec {
    seconds: i64,
    nanos: i64,
}

extern "C" {
    fn clock_gettime(clock: i32, time: *mut Timespec) -> i32;
}

/// The time that this thread had a processor: other programs' turns don't count.
fn processor_time() -> Duration {
    const THREAD_CLOCK: i32 = 3;
    let mut time = Timespec { seconds: 0, nanos: 0 };
    // SAFETY: the function of the C library writes one time where it is told.
    let answer = unsafe { clock_gettime(THREAD_CLOCK, &mut time) };
    assert_eq!(answer, 0, "Linux has a clock for each thread");
    Duration::new(time.seconds as u64, time.nanos as u32)
}

/// A reply's name with the numbers that are not zero.
fn reply_line(reply: [u64; 3]) -> String {
    let numbers = reply[1..].iter().filter(|&&number| number != 0);
    let name = Reply::NAMES[reply[0] as usize - 1].to_owned();
    numbers.fold(name, |line, number| format!("{line} {number}"))
}

/// Changes a record, or the order of two records or declarations, or copies some records of the donor.
fn change(table: &mut Table, donor: &Table, random: &mut Random) {
    let (at, other) = (random.below(table.len()), random.below(table.len()));
    match random.below(8) {
        0 => table[at] = table[other],
        1 => table[at].kind = table[other].kind,
        2 => table[at].name = table[other].name,
        3 => table[at].name = table[at].name.wrapping_add(4_093),
        4 => table[at].second = table[other].name,
        5 => table.swap(at, other),
        6 => {
            let copied = donor.iter().skip(other).take(random.between(1, 200));
            table[at..].iter_mut().zip(copied).for_each(|(to, from)| *to = *from);
        }
        _ => {
            let is_head = |p: &usize| table[*p].is_declaration();
            let heads: Vec<usize> = (0..table.len()).filter(is_head).collect();
            let mut cuts = [(); 3].map(|()| random.pick(&heads));
            cuts.sort_unstable();
            table[cuts[0]..cuts[2]].rotate_left(cuts[1] - cuts[0]);
        }
    }
}

#[cfg(test)]
mod tests {
    use super::*;

    /// A malformed table is answered at once, and would tell nothing.
    #[test]
    fn built_tables_have_a_sound_layout() {
        for Built { family, shape, table } in built() {
            let checked = oracle::layout::check(&encode_table(&table));
            assert!(checked.is_ok_and(|table| table.len() > 1_000), "{family}, {shape}");
        }
    }
}
