//! Records by their kind, for tests.
#![allow(dead_code)]

use oracle::answer::{answer, on_deep_stack, Answer, PROGRAM_BUFFER};
use oracle::print::printed;
use oracle::record::{encode_table, kind, Record};
use oracle::reply::Reply;

pub fn named(kind: u8, name: u16) -> Record {
    Record { name, ..Record::of(kind) }
}

pub fn packet(name: u16) -> Record {
    named(kind::PACKET, name)
}

pub fn structure(name: u16) -> Record {
    named(kind::STRUCT, name)
}

pub fn group(name: u16) -> Record {
    named(kind::GROUP, name)
}

pub fn enumeration(name: u16, width: u64) -> Record {
    Record { one: width, ..named(kind::ENUM, name) }
}

pub fn scalar(name: u16) -> Record {
    Record { one: 8, ..named(kind::SCALAR, name) }
}

pub fn typedef(name: u16, second: u16) -> Record {
    Record { second, ..named(kind::TYPEDEF, name) }
}

pub fn group_field(second: u16) -> Record {
    Record { second, ..Record::of(kind::GROUP_FIELD) }
}

pub fn array(name: u16) -> Record {
    Record { marks: 1, one: 8, ..named(kind::ARRAY, name) }
}

pub fn reserved() -> Record {
    Record { one: 8, ..Record::of(kind::RESERVED) }
}

pub fn value(kind: u8, name: u16, one: u64) -> Record {
    Record { one, ..named(kind, name) }
}

pub fn range(name: u16, one: u64, two: u64) -> Record {
    Record { one, two, ..named(kind::TAG_RANGE, name) }
}

/// A constraint or condition with a value.
pub fn valued(kind: u8, name: u16, one: u64) -> Record {
    Record { marks: 1, one, ..named(kind, name) }
}

pub fn at(record: Record, start: u16) -> Record {
    Record { start, end: start + 5, ..record }
}

pub fn keyed(record: Record, key: u16) -> Record {
    Record { key, ..record }
}

/// Each record's place is its location's start, so that faults tell places.
pub fn placed(table: &[Record]) -> Vec<Record> {
    table.iter().enumerate().map(|(place, &record)| at(record, place as u16)).collect()
}

pub fn answer_bytes(input: &[u8]) -> Answer {
    on_deep_stack(|| answer(input, PROGRAM_BUFFER))
}

pub fn answer_to(table: &[Record]) -> Answer {
    answer_bytes(&encode_table(table))
}

pub fn reply_to(table: &[Record]) -> Reply {
    answer_to(table).reply
}

/// The printed answer to a table whose locations are its places.
pub fn printed_for(table: &[Record]) -> String {
    printed(&answer_to(&placed(table)), PROGRAM_BUFFER)
}

/// Code, place and secondary's place of each fault, for a table whose locations are its places.
pub fn faults_in(table: &[Record]) -> Vec<(u16, u32, Option<u32>)> {
    let faults = answer_to(&placed(table)).faults;
    let places = |fault: &oracle::fault::Fault| {
        (fault.code, fault.primary.start, fault.secondary.map(|second| second.start))
    };
    faults.iter().map(places).collect()
}
