//! Sound layout: the rows Uneven, TooLong and Malformed, written from document 01 alone.

use crate::record::{kind, spare_bytes_are_zero, Record, MOST_RECORDS, RECORD_BYTES};
use crate::reply::Reply;

/// What a kind's row says of a name.
#[derive(Clone, Copy, PartialEq, Eq)]
enum Name {
    Unlisted,
    Listed,
    Optional,
}

/// What a kind's row says of a number.
#[derive(Clone, Copy, PartialEq, Eq)]
enum Number {
    Unlisted,
    Listed,
    /// Listed if this mark bit is set.
    Marked(u8),
}

/// One row of document 01's table of kinds.
struct Row {
    name: Name,
    second: Name,
    third: Name,
    one: Number,
    two: Number,
    has_key: bool,
}

/// A row that lists nothing and has a key.
const BARE: Row = Row {
    name: Name::Unlisted,
    second: Name::Unlisted,
    third: Name::Unlisted,
    one: Number::Unlisted,
    two: Number::Unlisted,
    has_key: true,
};

/// The records of a table of sound layout, or the reply that refuses it.
pub fn check(input: &[u8]) -> Result<Vec<Record>, Reply> {
    if !input.len().is_multiple_of(RECORD_BYTES) {
        return Err(Reply::Uneven);
    }
    if input.len() / RECORD_BYTES > MOST_RECORDS {
        return Err(Reply::TooLong);
    }
    let mut table: Vec<Record> = Vec::new();
    let mut holder = 0;
    for (place, bytes) in input.chunks_exact(RECORD_BYTES).enumerate() {
        let record = Record::decode(bytes);
        let fits = fits_row(&record) && fits_place(&record, holder, &table);
        if !fits || !spare_bytes_are_zero(bytes) {
            return Err(Reply::Malformed(place));
        }
        if record.is_declaration() {
            holder = record.kind;
        }
        table.push(record);
    }
    Ok(table)
}

/// The row of a kind that may stand on input.
fn row_of(wanted: u8) -> Option<Row> {
    use kind::*;
    use Name::{Listed as Named, Optional};
    use Number::{Listed, Marked};
    let row = match wanted {
        CHECKSUM | ENUM | SCALAR => Row { name: Named, one: Listed, ..BARE },
        CUSTOM => Row { name: Named, one: Marked(0), ..BARE },
        PACKET | STRUCT => Row { name: Named, second: Optional, ..BARE },
        GROUP => Row { name: Named, ..BARE },
        TEST | CHECKSUM_FIELD | GROUP_FIELD => Row { second: Named, ..BARE },
        CONSTRAINT | CONDITION => {
            Row { name: Named, second: Optional, one: Marked(0), has_key: false, ..BARE }
        }
        PADDING | RESERVED => Row { one: Listed, ..BARE },
        SIZE | COUNT | ELEMENT_SIZE => Row { second: Named, one: Listed, ..BARE },
        BODY => BARE,
        PAYLOAD => Row { third: Optional, ..BARE },
        FIXED_SCALAR => Row { one: Listed, two: Listed, ..BARE },
        FIXED_ENUM => Row { second: Named, third: Named, ..BARE },
        ARRAY => Row {
            name: Named,
            second: Optional,
            third: Optional,
            one: Marked(0),
            two: Marked(1),
            ..BARE
        },
        TYPEDEF => Row { name: Named, second: Named, ..BARE },
        TAG_VALUE | INNER_VALUE => Row { name: Named, one: Listed, has_key: false, ..BARE },
        TAG_RANGE => Row { name: Named, one: Listed, two: Listed, has_key: false, ..BARE },
        DEFAULT_TAG => Row { name: Named, has_key: false, ..BARE },
        _ => return None,
    };
    Some(row)
}

/// Whether a record keeps to its kind's row.
fn fits_row(record: &Record) -> bool {
    let Some(row) = row_of(record.kind) else { return false };
    let marks = mark_of(row.one) | mark_of(row.two);
    let width_or_type = record.has_mark(0) != (record.second != 0);
    record.marks & !marks == 0
        && name_fits(row.name, record.name)
        && name_fits(row.second, record.second)
        && name_fits(row.third, record.third)
        && number_fits(row.one, record.one, record)
        && number_fits(row.two, record.two, record)
        && (row.has_key || record.key == 0)
        && (record.kind != kind::ARRAY || width_or_type)
}

/// The mark bit that a number stands under, if any.
fn mark_of(listed: Number) -> u8 {
    match listed {
        Number::Marked(bit) => 1 << bit,
        Number::Unlisted | Number::Listed => 0,
    }
}

fn name_fits(listed: Name, name: u16) -> bool {
    match listed {
        Name::Unlisted => name == 0,
        Name::Listed => name != 0,
        Name::Optional => true,
    }
}

fn number_fits(listed: Number, number: u64, record: &Record) -> bool {
    match listed {
        Number::Unlisted => number == 0,
        Number::Listed => true,
        Number::Marked(bit) => record.has_mark(bit) || number == 0,
    }
}

/// Whether a record may stand behind the records before it, in a declaration of the kind `holder`.
fn fits_place(record: &Record, holder: u8, before: &[Record]) -> bool {
    use kind::*;
    let last = before.last().map_or(0, |record| record.kind);
    match record.kind {
        CHECKSUM..=TEST => true,
        CONSTRAINT => constraint_may_follow(before),
        CONDITION => before.last().is_some_and(Record::is_field),
        CHECKSUM_FIELD..=GROUP_FIELD => matches!(holder, PACKET | STRUCT | GROUP),
        TAG_VALUE | TAG_RANGE | DEFAULT_TAG => holder == ENUM,
        INNER_VALUE => matches!(last, TAG_RANGE | INNER_VALUE),
        _ => false,
    }
}

/// Whether a constraint may stand next: behind a packet, a struct, another constraint, or a group
/// field with or without its condition.
fn constraint_may_follow(before: &[Record]) -> bool {
    use kind::*;
    let kinds: Vec<u8> = before.iter().rev().take(2).map(|record| record.kind).collect();
    matches!(kinds[..], [PACKET | STRUCT | GROUP_FIELD | CONSTRAINT, ..] | [CONDITION, GROUP_FIELD])
}
