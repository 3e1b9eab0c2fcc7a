//! A table as declarations with their fields or tags.

use oracle::fault::{Fault, Location};
use oracle::record::{kind, Record};

/// A field with its condition and constraints, or a tag.
#[derive(Clone, Copy)]
pub struct Part<'a> {
    pub record: &'a Record,
    pub condition: Option<&'a Record>,
    pub constraints: &'a [Record],
}

/// A declaration with its records.
#[derive(Clone)]
pub struct Declaration<'a> {
    pub head: &'a Record,
    pub constraints: &'a [Record],
    pub parts: Vec<Part<'a>>,
}

impl<'a> Declaration<'a> {
    /// The fields, or none for an enum.
    pub fn fields(&self) -> impl Iterator<Item = &Part<'a>> {
        self.parts.iter().filter(|part| part.record.is_field())
    }
}

/// Splits a sound table at its declarations.
pub fn declarations(table: &[Record]) -> Vec<Declaration<'_>> {
    let heads = |at: &usize| table[*at].is_declaration();
    let starts: Vec<usize> = (0..table.len()).filter(heads).collect();
    let ends = starts.iter().skip(1).copied().chain([table.len()]);
    starts.iter().zip(ends).map(|(&start, end)| declaration(&table[start..end])).collect()
}

fn declaration(records: &[Record]) -> Declaration<'_> {
    let (constraints, mut rest) = leading(kind::CONSTRAINT, &records[1..]);
    let mut parts = Vec::new();
    while let Some((record, behind)) = rest.split_first() {
        let (condition, behind) = leading(kind::CONDITION, behind);
        let (constraints, behind) = leading(kind::CONSTRAINT, behind);
        parts.push(Part { record, condition: condition.first(), constraints });
        rest = behind;
    }
    Declaration { head: &records[0], constraints, parts }
}

/// The records of a kind at the front, and those behind them.
fn leading(kind: u8, records: &[Record]) -> (&[Record], &[Record]) {
    records.split_at(records.iter().take_while(|record| record.kind == kind).count())
}

/// A fault at a record, with another one as its secondary.
pub fn fault(code: u16, at: &Record, secondary: Option<&Record>) -> Fault {
    Fault { code, primary: location(at), secondary: secondary.map(location) }
}

fn location(record: &Record) -> Location {
    Location { start: record.start.into(), end: record.end.into() }
}
