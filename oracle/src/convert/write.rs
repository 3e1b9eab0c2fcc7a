//! A syntax tree in the form of a table.

use super::names::{numbered, numbered_if_any};
use crate::ast::*;
use crate::record::{kind, Record};

/// The table of a syntax tree; flags carry their entries behind their condition.
pub fn to_table(file: &File) -> Vec<Record> {
    let mut table = Vec::new();
    for decl in &file.declarations {
        table.push(declaration(decl));
        table.extend(decl.constraints().map(|held| constraint(kind::CONSTRAINT, held)));
        if let DeclDesc::Enum { tags, .. } = &decl.desc {
            tags.iter().for_each(|held| push_tag(held, &mut table));
        }
        decl.fields().for_each(|held| push_field(held, &mut table));
    }
    table
}

fn located(record: Record, loc: &SourceRange) -> Record {
    Record { start: loc.start.offset as u16, end: loc.end.offset as u16, ..record }
}

/// A number with its mark, where none is an unset mark and 0.
fn marked(number: Option<usize>, bit: u8) -> (u8, u64) {
    number.map_or((0, 0), |number| (1 << bit, number as u64))
}

fn declaration(decl: &Decl) -> Record {
    let name = decl.id().map_or(0, numbered);
    let record = match &decl.desc {
        DeclDesc::Checksum { width, .. } => {
            Record { one: *width as u64, ..Record::of(kind::CHECKSUM) }
        }
        DeclDesc::CustomField { width, .. } => {
            let (marks, one) = marked(*width, 0);
            Record { marks, one, ..Record::of(kind::CUSTOM) }
        }
        DeclDesc::Enum { width, .. } => Record { one: *width as u64, ..Record::of(kind::ENUM) },
        DeclDesc::Packet { parent_id, .. } => {
            Record { second: numbered_if_any(parent_id), ..Record::of(kind::PACKET) }
        }
        DeclDesc::Struct { parent_id, .. } => {
            Record { second: numbered_if_any(parent_id), ..Record::of(kind::STRUCT) }
        }
        DeclDesc::Group { .. } => Record::of(kind::GROUP),
        DeclDesc::Test { type_id, .. } => {
            Record { second: numbered(type_id), ..Record::of(kind::TEST) }
        }
    };
    located(Record { name, key: decl.key.0 as u16, ..record }, &decl.loc)
}

fn constraint(kind: u8, held: &Constraint) -> Record {
    let (marks, one) = marked(held.value, 0);
    let second = numbered_if_any(&held.tag_id);
    located(Record { marks, one, second, name: numbered(&held.id), ..Record::of(kind) }, &held.loc)
}

fn push_field(field: &Field, table: &mut Vec<Record>) {
    let record = Record { key: field.key.0 as u16, ..field_desc(&field.desc) };
    table.push(located(record, &field.loc));
    table.extend(field.cond.iter().map(|held| constraint(kind::CONDITION, held)));
    match &field.desc {
        FieldDesc::Flag { optional_field_ids, .. } => {
            table.extend(optional_field_ids.iter().map(|(id, value)| {
                let one = *value as u64;
                Record { name: numbered(id), one, ..Record::of(kind::FLAG_ENTRY) }
            }))
        }
        FieldDesc::Group { constraints, .. } => {
            table.extend(constraints.iter().map(|held| constraint(kind::CONSTRAINT, held)))
        }
        _ => (),
    }
}

fn field_desc(desc: &FieldDesc) -> Record {
    match desc {
        FieldDesc::Checksum { field_id } => reference(kind::CHECKSUM_FIELD, field_id, 0),
        FieldDesc::Padding { size } => Record { one: *size as u64, ..Record::of(kind::PADDING) },
        FieldDesc::Size { field_id, width } => reference(kind::SIZE, field_id, *width),
        FieldDesc::Count { field_id, width } => reference(kind::COUNT, field_id, *width),
        FieldDesc::ElementSize { field_id, width } => {
            reference(kind::ELEMENT_SIZE, field_id, *width)
        }
        FieldDesc::Body => Record::of(kind::BODY),
        FieldDesc::Payload { size_modifier } => {
            Record { third: numbered_if_any(size_modifier), ..Record::of(kind::PAYLOAD) }
        }
        FieldDesc::FixedScalar { width, value } => {
            Record { one: *width as u64, two: *value as u64, ..Record::of(kind::FIXED_SCALAR) }
        }
        FieldDesc::FixedEnum { enum_id, tag_id } => {
            Record { third: numbered(tag_id), ..reference(kind::FIXED_ENUM, enum_id, 0) }
        }
        FieldDesc::Reserved { width } => {
            Record { one: *width as u64, ..Record::of(kind::RESERVED) }
        }
        FieldDesc::Array { .. } => array(desc),
        FieldDesc::Scalar { id, width } => Record { one: *width as u64, ..named(kind::SCALAR, id) },
        FieldDesc::Flag { id, .. } => named(kind::FLAG, id),
        FieldDesc::Typedef { id, type_id } => {
            Record { second: numbered(type_id), ..named(kind::TYPEDEF, id) }
        }
        FieldDesc::Group { group_id, .. } => reference(kind::GROUP_FIELD, group_id, 0),
    }
}

fn named(kind: u8, id: &str) -> Record {
    Record { name: numbered(id), ..Record::of(kind) }
}

fn reference(kind: u8, id: &str, width: usize) -> Record {
    Record { second: numbered(id), one: width as u64, ..Record::of(kind) }
}

fn array(desc: &FieldDesc) -> Record {
    let FieldDesc::Array { id, width, type_id, size_modifier, size } = desc else {
        unreachable!("only arrays are written here")
    };
    let (width_mark, one) = marked(*width, 0);
    let (size_mark, two) = marked(*size, 1);
    Record {
        marks: width_mark | size_mark,
        one,
        two,
        second: numbered_if_any(type_id),
        third: numbered_if_any(size_modifier),
        ..named(kind::ARRAY, id)
    }
}

fn push_tag(tag: &Tag, table: &mut Vec<Record>) {
    match tag {
        Tag::Value(value) => table.push(tag_value(kind::TAG_VALUE, value)),
        Tag::Range(range) => {
            let (one, two) = (*range.range.start() as u64, *range.range.end() as u64);
            let record = Record { one, two, ..named(kind::TAG_RANGE, &range.id) };
            table.push(located(record, &range.loc));
            table.extend(range.tags.iter().map(|value| tag_value(kind::INNER_VALUE, value)));
        }
        Tag::Other(other) => table.push(located(named(kind::DEFAULT_TAG, &other.id), &other.loc)),
    }
}

fn tag_value(kind: u8, value: &TagValue) -> Record {
    located(Record { one: value.value as u64, ..named(kind, &value.id) }, &value.loc)
}
