//! The printed form of an answer.

use crate::answer::Answer;
use crate::fault::{Fault, FAULT_BYTES};
use crate::record::Record;
use std::fmt::Write;

/// An answer as document 01 prints it, for a fault buffer of `fault_len` bytes.
pub fn printed(answer: &Answer, fault_len: usize) -> String {
    let mut text = answer.reply.line();
    text.push('\n');
    answer.records.iter().for_each(|record| push_record(record, &mut text));
    let kept = answer.faults.iter().take(fault_len / FAULT_BYTES);
    kept.for_each(|fault| push_fault(fault, &mut text));
    text
}

/// Appends the line of a record.
pub fn push_record(record: &Record, text: &mut String) {
    let Record { kind, marks, name, second, third, one, two, key, start, end } = record;
    writeln!(text, "{kind} {marks} {name} {second} {third} {one} {two} {key} {start} {end}")
        .expect("a string takes any text");
}

fn push_fault(fault: &Fault, text: &mut String) {
    write!(text, "{} {} {}", fault.code, fault.primary.start, fault.primary.end)
        .expect("a string takes any text");
    if let Some(second) = fault.secondary {
        write!(text, " {} {}", second.start, second.end).expect("a string takes any text");
    }
    text.push('\n');
}
