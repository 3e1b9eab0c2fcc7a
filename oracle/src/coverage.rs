//! Counts of replies and fault codes.

use crate::answer::Answer;
use crate::reply::Reply;
use std::fmt::Write;

/// Fewer than this many in a run count as too few.
pub const WANTED: usize = 100;
/// The fault codes that document 01 names.
pub const CODES: [u16; 35] = [
    1, 2, 3, 4, 5, 6, 7, 8, 9, 10, 11, 12, 13, 14, 23, 24, 25, 26, 27, 28, 29, 30, 31, 32, 33, 34,
    35, 36, 37, 38, 39, 40, 41, 43, 44,
];
const CODE_LIMIT: usize = 64;

/// How often each reply, each pass and each fault code was seen; a code counts once a table.
#[derive(Clone, Debug)]
pub struct Coverage {
    pub tables: usize,
    replies: [usize; Reply::NAMES.len()],
    passes: [usize; 10],
    tables_with: [usize; CODE_LIMIT],
    faults: [usize; CODE_LIMIT],
}

impl Default for Coverage {
    fn default() -> Coverage {
        Coverage {
            tables: 0,
            replies: [0; Reply::NAMES.len()],
            passes: [0; 10],
            tables_with: [0; CODE_LIMIT],
            faults: [0; CODE_LIMIT],
        }
    }
}

impl Coverage {
    /// Counts one answer.
    pub fn count(&mut self, answer: &Answer) {
        self.tables += 1;
        self.replies[answer.reply.row()] += 1;
        if let Reply::Faulty(pass, _) = answer.reply {
            self.passes[pass as usize] += 1;
        }
        let mut seen = [false; CODE_LIMIT];
        for fault in &answer.faults {
            self.faults[fault.code as usize] += 1;
            seen[fault.code as usize] = true;
        }
        (0..CODE_LIMIT).for_each(|code| self.tables_with[code] += usize::from(seen[code]));
    }

    /// Adds the counts of another run.
    pub fn add(&mut self, other: &Coverage) {
        self.tables += other.tables;
        add_each(&mut self.replies, &other.replies);
        add_each(&mut self.passes, &other.passes);
        add_each(&mut self.tables_with, &other.tables_with);
        add_each(&mut self.faults, &other.faults);
    }

    /// The replies and codes seen in fewer than `wanted` tables.
    pub fn under(&self, wanted: usize) -> Vec<String> {
        let replies = Reply::NAMES.iter().zip(self.replies);
        let replies = replies.filter(|&(_, seen)| seen < wanted).map(|(name, _)| name.to_string());
        let codes = CODES.iter().filter(|&&code| self.tables_with[code as usize] < wanted);
        replies.chain(codes.map(|code| format!("code {code}"))).collect()
    }

    /// The counts as a table.
    pub fn text(&self) -> String {
        let mut text = format!("tables {}\n", self.tables);
        for (name, seen) in Reply::NAMES.iter().zip(self.replies) {
            writeln!(text, "reply {name:<10} {seen:>8}").expect("a string takes any text");
        }
        for pass in 1..self.passes.len() {
            let seen = self.passes[pass];
            writeln!(text, "pass {pass:<11} {seen:>8}").expect("a string takes any text");
        }
        for code in CODES {
            let (tables, faults) = (self.tables_with[code as usize], self.faults[code as usize]);
            writeln!(text, "code {code:<11} {tables:>8} tables {faults:>9} faults")
                .expect("a string takes any text");
        }
        text
    }
}

fn add_each(sums: &mut [usize], others: &[usize]) {
    sums.iter_mut().zip(others).for_each(|(sum, other)| *sum += other);
}
