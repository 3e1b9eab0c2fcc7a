//! A table of sound layout as a syntax tree.

use super::names::{spelled, spelled_if_any};
use crate::ast::*;
use crate::record::{kind, Record};

/// The syntax tree of a table of sound layout.
pub fn to_file(table: &[Record]) -> File {
    let mut file = File::new(0);
    let mut rest = table;
    while let Some((head, tail)) = rest.split_first() {
        let held = tail.iter().take_while(|record| !record.is_declaration()).count();
        let (body, next) = tail.split_at(held);
        file.declarations.push(declaration(head, body));
        rest = next;
    }
    file.max_key = table.iter().map(|record| record.key as usize).max().unwrap_or(0);
    file
}

fn location(record: &Record) -> SourceRange {
    let at = |offset: u16| SourceLocation { offset: offset as usize, line: 0, column: 0 };
    SourceRange { file: 0, start: at(record.start), end: at(record.end) }
}

/// The number under a mark, if that mark is set.
fn marked(record: &Record, bit: u8, number: u64) -> Option<usize> {
    record.has_mark(bit).then_some(number as usize)
}

fn declaration(head: &Record, body: &[Record]) -> Decl {
    let id = spelled(head.name);
    let function = String::new();
    let desc = match head.kind {
        kind::CHECKSUM => DeclDesc::Checksum { id, function, width: head.one as usize },
        kind::CUSTOM => DeclDesc::CustomField { id, width: marked(head, 0, head.one), function },
        kind::ENUM => DeclDesc::Enum { id, tags: tags(body), width: head.one as usize },
        kind::PACKET | kind::STRUCT => packet_or_struct(head, body),
        kind::GROUP => DeclDesc::Group { id, fields: fields(body) },
        _ => DeclDesc::Test { type_id: spelled(head.second), test_cases: Vec::new() },
    };
    Decl { loc: location(head), key: DeclKey(head.key as usize), desc }
}

fn packet_or_struct(head: &Record, body: &[Record]) -> DeclDesc {
    let (constraints, body) = leading_constraints(body);
    let (id, fields, parent_id) = (spelled(head.name), fields(body), spelled_if_any(head.second));
    if head.kind == kind::PACKET {
        DeclDesc::Packet { id, constraints, fields, parent_id }
    } else {
        DeclDesc::Struct { id, constraints, fields, parent_id }
    }
}

fn constraint(record: &Record) -> Constraint {
    Constraint {
        id: spelled(record.name),
        loc: location(record),
        value: marked(record, 0, record.one),
        tag_id: spelled_if_any(record.second),
    }
}

fn leading_constraints(body: &[Record]) -> (Vec<Constraint>, &[Record]) {
    let count = body.iter().take_while(|record| record.kind == kind::CONSTRAINT).count();
    let (constraints, rest) = body.split_at(count);
    (constraints.iter().map(constraint).collect(), rest)
}

fn leading_condition(body: &[Record]) -> (Option<Constraint>, &[Record]) {
    match body.split_first() {
        Some((first, rest)) if first.kind == kind::CONDITION => (Some(constraint(first)), rest),
        _ => (None, body),
    }
}

fn fields(body: &[Record]) -> Vec<Field> {
    let mut fields = Vec::new();
    let mut rest = body;
    while let Some((record, tail)) = rest.split_first() {
        let (cond, tail) = leading_condition(tail);
        let (constraints, tail) = leading_constraints(tail);
        let desc = field_desc(record, constraints);
        let key = FieldKey(record.key as usize);
        fields.push(Field { loc: location(record), key, desc, cond });
        rest = tail;
    }
    fields
}

fn field_desc(record: &Record, constraints: Vec<Constraint>) -> FieldDesc {
    let id = spelled(record.name);
    let field_id = spelled(record.second);
    let size_modifier = spelled_if_any(record.third);
    let width = record.one as usize;
    match record.kind {
        kind::CHECKSUM_FIELD => FieldDesc::Checksum { field_id },
        kind::PADDING => FieldDesc::Padding { size: width },
        kind::SIZE => FieldDesc::Size { field_id, width },
        kind::COUNT => FieldDesc::Count { field_id, width },
        kind::ELEMENT_SIZE => FieldDesc::ElementSize { field_id, width },
        kind::BODY => FieldDesc::Body,
        kind::PAYLOAD => FieldDesc::Payload { size_modifier },
        kind::FIXED_SCALAR => FieldDesc::FixedScalar { width, value: record.two as usize },
        kind::FIXED_ENUM => {
            FieldDesc::FixedEnum { enum_id: field_id, tag_id: spelled(record.third) }
        }
        kind::RESERVED => FieldDesc::Reserved { width },
        kind::ARRAY => FieldDesc::Array {
            id,
            width: marked(record, 0, record.one),
            type_id: spelled_if_any(record.second),
            size_modifier,
            size: marked(record, 1, record.two),
        },
        kind::SCALAR => FieldDesc::Scalar { id, width },
        kind::TYPEDEF => FieldDesc::Typedef { id, type_id: field_id },
        _ => FieldDesc::Group { group_id: field_id, constraints },
    }
}

fn tags(body: &[Record]) -> Vec<Tag> {
    let mut tags = Vec::new();
    let mut rest = body;
    while let Some((record, tail)) = rest.split_first() {
        let inner = tail.iter().take_while(|record| record.kind == kind::INNER_VALUE).count();
        let (inner, tail) = tail.split_at(inner);
        tags.push(tag(record, inner));
        rest = tail;
    }
    tags
}

fn tag(record: &Record, inner: &[Record]) -> Tag {
    let (id, loc) = (spelled(record.name), location(record));
    match record.kind {
        kind::TAG_VALUE => Tag::Value(tag_value(record)),
        kind::TAG_RANGE => Tag::Range(TagRange {
            id,
            loc,
            range: record.one as usize..=record.two as usize,
            tags: inner.iter().map(tag_value).collect(),
        }),
        _ => Tag::Other(TagOther { id, loc }),
    }
}

fn tag_value(record: &Record) -> TagValue {
    TagValue { id: spelled(record.name), loc: location(record), value: record.one as usize }
}
