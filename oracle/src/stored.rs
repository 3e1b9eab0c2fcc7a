//! Stored cases with the oracle's answers, which the programs of the gate replay where no Rust is at hand.

use crate::analyzer::passes;
use crate::answer::{answer, Answer, PROGRAM_BUFFER};
use crate::cases::FILLER;
use crate::convert::{to_file, to_table};
use crate::fault::FAULT_BYTES;
use crate::generate::{edges, generate, Case};
use crate::layout;
use crate::record::Record;
use crate::reply::Reply;
use std::collections::BTreeMap;

/// What the crate `replay` runs on a case.
#[derive(Clone, Copy, Debug, PartialEq, Eq)]
pub enum Part {
    /// The layout's rows.
    Layout,
    /// Pass 1, on tables of sound layout.
    Scope,
    /// Pass 2, on tables without faults in pass 1.
    Order,
    /// Passes 3 to 9, on tables without faults in passes 1 and 2.
    Checks,
    /// The whole analyzer, on any bytes.
    Whole,
}

impl Part {
    const ALL: [(&'static str, Part); 5] = [
        ("layout", Part::Layout),
        ("scope", Part::Scope),
        ("order", Part::Order),
        ("checks", Part::Checks),
        ("whole", Part::Whole),
    ];

    /// The part of a name on the command line.
    pub fn named(name: &str) -> Option<Part> {
        Part::ALL.into_iter().find(|&(other, _)| other == name).map(|(_, part)| part)
    }

    /// The number that the crate `replay` knows it by.
    fn number(self) -> u32 {
        match self {
            Part::Layout => 1,
            Part::Scope => 2,
            Part::Order => 3,
            Part::Checks => 4,
            Part::Whole => 5,
        }
    }

    /// A case as the crate `replay` reads it.
    pub fn case_bytes(self, input: &[u8], table_len: usize, fault_len: usize) -> Vec<u8> {
        let lengths = [input.len(), table_len, fault_len].map(|length| length as u32);
        let head = std::iter::once(self.number()).chain(lengths);
        head.flat_map(u32::to_le_bytes).chain(input.iter().copied()).collect()
    }

    /// Whether a reply is one that this part gives.
    fn gives(self, reply: Reply) -> bool {
        match (self, reply) {
            (Part::Layout, reply) => reply.row() < 3,
            (Part::Scope, Reply::Faulty(pass, _)) => pass == 1,
            (Part::Order, Reply::Faulty(pass, _)) => pass == 2,
            (Part::Checks, Reply::Faulty(pass, _)) => pass >= 3,
            (Part::Whole, _) => true,
            _ => false,
        }
    }

    /// Whether the part is reached by a table with this reply.
    fn is_reached(self, reply: Reply) -> bool {
        match reply {
            _ if self == Part::Whole => true,
            Reply::Uneven | Reply::TooLong | Reply::Malformed(_) => self == Part::Layout,
            Reply::Faulty(pass, _) => u32::from(pass.min(3)) + 1 >= self.number(),
            _ => true,
        }
    }

    /// How many of `count` cases may have such a reply. Those that pass a part without a reply of its own are counted together.
    fn most(self, reply: Reply, count: usize) -> usize {
        let share = match (self, reply) {
            (Part::Whole, Reply::Accepted(_)) => 1,
            (Part::Whole, Reply::Faulty(..)) => 2,
            (Part::Whole, Reply::Unfit(_) | Reply::Loose(_) | Reply::NoRoom(_)) => 8,
            (Part::Whole, _) => 20,
            _ if self.gives(reply) => 1,
            (Part::Layout | Part::Scope, _) => 3,
            (Part::Order, _) => 2,
            (Part::Checks, _) => 10,
        };
        count / share
    }

    /// The replies that `most` counts together.
    fn sort(self, reply: Reply) -> usize {
        match self {
            Part::Whole => reply.row(),
            _ => usize::from(self.gives(reply)),
        }
    }

    /// The line that the program prints for a case.
    fn line(self, case: &Case, answer: &Answer) -> String {
        match self {
            Part::Layout => layout_line(answer.reply),
            Part::Scope => format!("{}\n", faults_kept(self, case, answer)),
            Part::Order => order_line(case, answer),
            Part::Checks => checks_line(case, answer),
            Part::Whole => whole_line(case, answer),
        }
    }

    /// The longest input of a case.
    fn longest(self) -> usize {
        if self == Part::Whole {
            12_000
        } else {
            SHORT
        }
    }

    /// Inputs that every stored file of this part begins with.
    fn fixed(self) -> Vec<Case> {
        let lengths: &[usize] = match self {
            Part::Layout | Part::Whole => &[0, 64_000, 64_040, 64_041],
            Part::Scope | Part::Order | Part::Checks => &[0],
        };
        let case = |&length| Case { input: vec![0; length], table_len: 0, fault_len: 0 };
        let mut cases: Vec<Case> = lengths.iter().map(case).collect();
        if self == Part::Whole {
            let at_edge = |input| Case { input, table_len: PROGRAM_BUFFER, fault_len: 0 };
            cases.extend(edges().into_iter().map(at_edge));
        }
        cases
    }
}

/// The row of the layout's reply from the top, 0 for a sound layout, and the place of Malformed.
fn layout_line(reply: Reply) -> String {
    match reply {
        Reply::Uneven => "1\n".to_owned(),
        Reply::TooLong => "2\n".to_owned(),
        Reply::Malformed(place) => format!("3 {place}\n"),
        _ => "0\n".to_owned(),
    }
}

/// Faults kept, faults found and the digest of the fault buffer, for one part.
fn faults_kept(part: Part, case: &Case, answer: &Answer) -> String {
    let found = if part.gives(answer.reply) { answer.faults.len() } else { 0 };
    let (_, faults) = answer.buffers(case.table_len, case.fault_len, FILLER);
    let buffer = if found > 0 { faults } else { vec![FILLER; case.fault_len] };
    format!("{} {found} {}", found.min(case.fault_len / FAULT_BYTES), digest(&buffer))
}

/// The faults, the number of listed records and the digest of a buffer with the listed table.
fn order_line(case: &Case, answer: &Answer) -> String {
    let table = layout::check(&case.input).expect("a sound table");
    let listed = passes::order(&to_file(&table)).map(|listed| to_table(&listed));
    let mut bytes: Vec<u8> = listed.iter().flatten().flat_map(Record::encode).collect();
    let records = bytes.len() / 40;
    bytes.resize(PROGRAM_BUFFER, FILLER);
    format!("{} {records} {}\n", faults_kept(Part::Order, case, answer), digest(&bytes))
}

/// The pass that finds faults, or 0, and the faults.
fn checks_line(case: &Case, answer: &Answer) -> String {
    let pass = match answer.reply {
        Reply::Faulty(pass, _) => pass,
        _ => 0,
    };
    format!("{pass} {}\n", faults_kept(Part::Checks, case, answer))
}

/// The row of the reply from the top, its values, and the digests of both buffers.
fn whole_line(case: &Case, answer: &Answer) -> String {
    let (table, faults) = answer.buffers(case.table_len, case.fault_len, FILLER);
    let line = answer.reply.line();
    let values: Vec<&str> = line.split(' ').skip(1).collect();
    let row = (answer.reply.row() + 1).to_string();
    let numbers = [vec![row.as_str()], values].concat().join(" ");
    format!("{numbers} {} {}\n", digest(&table), digest(&faults))
}

/// A digest of bytes, as the crate `replay` makes it.
pub fn digest(bytes: &[u8]) -> u64 {
    bytes.iter().fold(7, |sum, &byte| (sum * 31 + u64::from(byte)) % (1 << 32))
}

/// Cases longer than this are left out, so that the stored file stays small.
const SHORT: usize = 1_600;

/// The standard input and the expected output of the crate `replay`.
#[derive(Default)]
pub struct Stored {
    pub input: Vec<u8>,
    pub output: String,
    /// In how many tables each fault code was found, by part and by the whole analyzer.
    pub codes: BTreeMap<u16, usize>,
    pub whole_codes: BTreeMap<u16, usize>,
    /// How many tables the whole analyzer answers with each reply.
    pub replies: [usize; Reply::NAMES.len()],
}

impl Stored {
    fn push(&mut self, part: Part, case: &Case, answer: &Answer) {
        self.input.extend(part.case_bytes(&case.input, case.table_len, case.fault_len));
        self.output.push_str(&part.line(case, answer));
        self.replies[answer.reply.row()] += usize::from(part == Part::Whole);
        let mut codes: Vec<u16> = answer.faults.iter().map(|fault| fault.code).collect();
        codes.sort_unstable();
        codes.dedup();
        let counts = if part == Part::Whole { &mut self.whole_codes } else { &mut self.codes };
        for code in codes.into_iter().filter(|_| part.gives(answer.reply)) {
            *counts.entry(code).or_default() += 1;
        }
    }

    /// Adds `count` cases from a seed on, few of them without a reply of the part. Call it on a deep stack.
    pub fn add(&mut self, part: Part, count: usize, first_seed: u64) {
        for case in part.fixed() {
            self.push(part, &case, &answer(&case.input, case.table_len));
        }
        let (mut taken, mut by_sort, mut seed) = (0, [0; Reply::NAMES.len()], first_seed);
        while taken < count {
            let case = generate(seed);
            seed += 1;
            if case.input.len() > part.longest() {
                continue;
            }
            let answer = answer(&case.input, case.table_len);
            let sort = part.sort(answer.reply);
            let is_full = by_sort[sort] >= part.most(answer.reply, count);
            if is_full || !part.is_reached(answer.reply) || is_long(&case, answer.reply) {
                continue;
            }
            self.push(part, &case, &answer);
            taken += 1;
            by_sort[sort] += 1;
        }
    }
}

/// Whether a case is longer than its reply is worth: only the room limits need more records.
fn is_long(case: &Case, reply: Reply) -> bool {
    case.input.len() > SHORT && !matches!(reply, Reply::Swollen | Reply::Overlisted)
}
