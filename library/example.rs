//! Prints the answer to a table: of the file that is named, or of standard input.

mod pdl;

use std::fs::File;
use std::io::{self, Read, Write};

const RECORD_BYTES: usize = 40;
const FAULT_BYTES: usize = 20;
const BUFFER_BYTES: usize = 64_000;
const FAULTY: u64 = 4;
const ACCEPTED: u64 = 10;

/// Name and number of values of each reply, from row 1 on.
const ROWS: [(&str, usize); 10] = [
    ("Uneven", 0),
    ("TooLong", 0),
    ("Malformed", 1),
    ("Faulty", 2),
    ("Swollen", 0),
    ("Unfit", 1),
    ("Loose", 1),
    ("Overlisted", 0),
    ("NoRoom", 1),
    ("Accepted", 1),
];

/// Where each number of a record begins, and its bytes.
const PARTS: [(usize, usize); 10] =
    [(0, 1), (1, 1), (2, 2), (4, 2), (6, 2), (8, 8), (16, 8), (24, 2), (28, 2), (32, 2)];

fn main() -> io::Result<()> {
    let input = read_input()?;
    let (mut table, mut faults) = ([0; BUFFER_BYTES], [0; BUFFER_BYTES]);
    let [row, first, second] = pdl::analyze(&input, &mut table, &mut faults);
    let (name, values) = ROWS[row as usize - 1];
    let mut text = format!("{name}{}\n", blank_before(&[first, second][..values]));
    if row == ACCEPTED {
        text.extend(table.chunks(RECORD_BYTES).take(first as usize).map(record_line));
    }
    if row == FAULTY {
        text.extend(faults.chunks(FAULT_BYTES).take(second as usize).map(fault_line));
    }
    io::stdout().write_all(text.as_bytes())
}

/// All bytes of the file that is named, or of standard input.
fn read_input() -> io::Result<Vec<u8>> {
    let mut input = Vec::new();
    match std::env::args_os().nth(1) {
        Some(path) => File::open(path)?.read_to_end(&mut input)?,
        None => io::stdin().read_to_end(&mut input)?,
    };
    Ok(input)
}

/// The number of some bytes, little endian.
fn number(bytes: &[u8]) -> u64 {
    bytes.iter().rev().fold(0, |sum, &byte| sum << 8 | u64::from(byte))
}

/// Numbers, each after a blank.
fn blank_before(numbers: &[u64]) -> String {
    numbers.iter().map(|number| format!(" {number}")).collect()
}

/// Kind, marks, name, second, third, one, two, key, start, end.
fn record_line(record: &[u8]) -> String {
    let numbers = PARTS.map(|(at, length)| number(&record[at..at + length]));
    format!("{}{}\n", numbers[0], blank_before(&numbers[1..]))
}

/// The code, then the primary location, then the secondary one if there is one.
fn fault_line(fault: &[u8]) -> String {
    let end = if number(&fault[2..4]) == 1 { FAULT_BYTES } else { 12 };
    let locations: Vec<u64> = fault[4..end].chunks(4).map(number).collect();
    format!("{}{}\n", number(&fault[..2]), blank_before(&locations))
}
