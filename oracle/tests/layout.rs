//! The rows Uneven, TooLong and Malformed.

mod common;

use common::*;
use oracle::layout::check;
use oracle::record::{encode_table, kind, Record};
use oracle::reply::Reply;

fn malformed(table: &[Record]) -> Option<usize> {
    match check(&encode_table(table)) {
        Ok(_) => None,
        Err(Reply::Malformed(place)) => Some(place),
        Err(other) => panic!("{other:?}"),
    }
}

/// One sound record of every kind that may stand on input, with the records it stands behind.
fn sound_records() -> Vec<(Vec<Record>, Record)> {
    let second = |kind, second| Record { second, ..Record::of(kind) };
    let one = |kind| Record { one: u64::MAX, ..Record::of(kind) };
    let size = |kind| Record { second: 9, one: 8, ..Record::of(kind) };
    let (top, field, tag) = (vec![], vec![packet(3)], vec![enumeration(3, 8)]);
    let in_range = vec![enumeration(3, 8), range(4, 1, 2)];
    vec![
        (top.clone(), Record { one: 8, ..named(kind::CHECKSUM, 3) }),
        (top.clone(), valued(kind::CUSTOM, 3, 8)),
        (top.clone(), enumeration(3, 8)),
        (top.clone(), Record { second: 3, ..packet(3) }),
        (top.clone(), Record { second: 4, ..structure(3) }),
        (top.clone(), group(3)),
        (top, second(kind::TEST, 3)),
        (field.clone(), Record { second: 5, ..valued(kind::CONSTRAINT, 3, 0) }),
        (vec![packet(3), scalar(4)], valued(kind::CONDITION, 3, 1)),
        (field.clone(), second(kind::CHECKSUM_FIELD, 3)),
        (field.clone(), one(kind::PADDING)),
        (field.clone(), size(kind::SIZE)),
        (field.clone(), size(kind::COUNT)),
        (field.clone(), size(kind::ELEMENT_SIZE)),
        (field.clone(), Record::of(kind::BODY)),
        (field.clone(), Record { third: 6, ..Record::of(kind::PAYLOAD) }),
        (field.clone(), Record { one: 8, two: 9, ..Record::of(kind::FIXED_SCALAR) }),
        (field.clone(), Record { second: 3, third: 4, ..Record::of(kind::FIXED_ENUM) }),
        (field.clone(), one(kind::RESERVED)),
        (field.clone(), Record { third: 5, two: 4, marks: 3, ..array(4) }),
        (field.clone(), scalar(4)),
        (field.clone(), typedef(4, 5)),
        (field, group_field(5)),
        (tag.clone(), value(kind::TAG_VALUE, 4, 1)),
        (tag.clone(), range(4, 2, 1)),
        (in_range, value(kind::INNER_VALUE, 5, 1)),
        (tag, named(kind::DEFAULT_TAG, 4)),
    ]
}

/// Whether a record's kind lists a part, by document 01's table.
fn listed(kind: u8) -> (bool, bool, bool, bool, bool, u8) {
    let name = matches!(kind, 1..=6 | 10 | 11 | 30 | 31 | 33 | 40..=43);
    let second = matches!(kind, 4 | 5 | 7 | 10 | 11 | 20 | 22..=24 | 28 | 30 | 33 | 34);
    let third = matches!(kind, 26 | 28 | 30);
    let one = matches!(kind, 1..=3 | 10 | 11 | 21..=24 | 27 | 29..=31 | 40..=42);
    let two = matches!(kind, 27 | 30 | 41);
    let marks = if matches!(kind, 2 | 10 | 11) { 1 } else { 3 * u8::from(kind == 30) };
    (name, second, third, one, two, marks)
}

fn is_sound(before: &[Record], record: Record) -> bool {
    malformed(&[before, &[record]].concat()).is_none()
}

#[test]
fn each_kind_has_a_sound_record() {
    for (before, record) in sound_records() {
        assert!(is_sound(&before, record), "{record:?}");
        let far = Record { start: u16::MAX, end: 0, ..record };
        assert!(is_sound(&before, far), "any location is legal: {record:?}");
    }
}

#[test]
fn what_a_kind_does_not_list_is_zero() {
    for (before, record) in sound_records() {
        let (name, second, third, one, two, marks) = listed(record.kind);
        let sound = |record| is_sound(&before, record);
        assert!(name || !sound(Record { name: 1, ..record }), "{record:?}");
        assert!(second || !sound(Record { second: 1, ..record }), "{record:?}");
        assert!(third || !sound(Record { third: 1, ..record }), "{record:?}");
        assert!(one || !sound(Record { one: 1, ..record }), "{record:?}");
        assert!(two || !sound(Record { two: 1, ..record }), "{record:?}");
        for bit in 0..8 {
            let flipped = Record { marks: record.marks | 1 << bit, ..record };
            assert!(marks >> bit & 1 == 1 || !sound(flipped), "{record:?}");
        }
    }
}

#[test]
fn listed_names_are_nonzero_unless_optional() {
    for (before, record) in sound_records() {
        let (name, second, third, ..) = listed(record.kind);
        let sound = |record| is_sound(&before, record);
        assert!(!name || !sound(Record { name: 0, ..record }), "{record:?}");
        let second_opt = matches!(record.kind, 4 | 5 | 10 | 11 | 30);
        assert_eq!(!second || second_opt, sound(Record { second: 0, ..record }), "{record:?}");
        let third_opt = matches!(record.kind, 26 | 30);
        assert_eq!(!third || third_opt, sound(Record { third: 0, ..record }), "{record:?}");
    }
}

#[test]
fn keys_stand_on_declarations_and_fields() {
    for (before, record) in sound_records() {
        let has_key = matches!(record.kind, 1..=7 | 20..=34);
        assert_eq!(is_sound(&before, keyed(record, 1)), has_key, "{record:?}");
        assert_eq!(is_sound(&before, keyed(record, u16::MAX)), has_key, "{record:?}");
    }
}

#[test]
fn spare_bytes_are_zero() {
    for at in 0..40 {
        let mut bytes = packet(3).encode();
        bytes[at] |= 128;
        let is_spare = matches!(at, 26 | 27 | 30 | 31 | 34..=39);
        let is_unlisted = matches!(at, 0 | 1 | 6..=23);
        assert_eq!(check(&bytes).is_err(), is_spare || is_unlisted, "byte {at}");
    }
}

#[test]
fn a_number_under_an_unset_mark_is_zero() {
    let custom = Record { one: 1, ..named(kind::CUSTOM, 3) };
    assert_eq!(malformed(&[custom]), Some(0));
    assert_eq!(malformed(&[Record { marks: 1, one: 0, ..custom }]), None);
    let condition = Record { one: 1, ..named(kind::CONDITION, 3) };
    assert_eq!(malformed(&[packet(3), scalar(4), condition]), Some(2));
    assert_eq!(malformed(&[packet(3), Record { two: 1, ..array(4) }]), Some(1));
}

#[test]
fn an_array_has_a_width_or_a_type() {
    let of = |marks, second| Record { marks, second, ..named(kind::ARRAY, 4) };
    let place = |array| malformed(&[packet(3), array]);
    assert_eq!(place(of(0, 0)), Some(1));
    assert_eq!(place(of(2, 0)), Some(1));
    assert_eq!(place(of(1, 5)), Some(1));
    assert_eq!(place(of(3, 5)), Some(1));
    assert_eq!(place(of(1, 0)), None);
    assert_eq!(place(of(2, 5)), None);
}

#[test]
fn written_kinds_and_unknown_kinds_are_unsound() {
    for kind in
        (0..=255).filter(|&kind| !matches!(kind, 1..=7 | 10 | 11 | 20..=31 | 33 | 34 | 40..=43))
    {
        assert_eq!(malformed(&[packet(3), scalar(4), named(kind, 5)]), Some(2), "kind {kind}");
        assert_eq!(malformed(&[packet(3), Record::of(kind)]), Some(1), "kind {kind}");
    }
}

#[test]
fn constraints_have_their_places() {
    let held = valued(kind::CONSTRAINT, 9, 1);
    let condition = valued(kind::CONDITION, 9, 1);
    assert_eq!(malformed(&[packet(3), held, held]), None);
    assert_eq!(malformed(&[structure(3), held, scalar(4)]), None);
    assert_eq!(malformed(&[group(3), held]), Some(1));
    assert_eq!(malformed(&[enumeration(3, 8), held]), Some(1));
    assert_eq!(malformed(&[packet(3), scalar(4), held]), Some(2));
    assert_eq!(malformed(&[packet(3), scalar(4), condition, held]), Some(3));
    assert_eq!(malformed(&[group(3), group_field(4), held, held]), None);
    assert_eq!(malformed(&[group(3), group_field(4), condition, held, held]), None);
    assert_eq!(malformed(&[held]), Some(0));
}

#[test]
fn conditions_stand_directly_behind_fields() {
    let held = valued(kind::CONSTRAINT, 9, 1);
    let condition = valued(kind::CONDITION, 9, 1);
    assert_eq!(malformed(&[packet(3), condition]), Some(1));
    assert_eq!(malformed(&[packet(3), scalar(4), condition, condition]), Some(3));
    assert_eq!(malformed(&[packet(3), group_field(4), held, condition]), Some(3));
    assert_eq!(malformed(&[packet(3), reserved(), condition]), None);
}

#[test]
fn fields_and_tags_have_their_declarations() {
    let inner = value(kind::INNER_VALUE, 5, 1);
    let tag = value(kind::TAG_VALUE, 4, 1);
    let test = Record { second: 3, ..Record::of(kind::TEST) };
    assert_eq!(malformed(&[scalar(4)]), Some(0));
    assert_eq!(malformed(&[enumeration(3, 8), scalar(4)]), Some(1));
    assert_eq!(malformed(&[test, scalar(4)]), Some(1));
    assert_eq!(malformed(&[valued(kind::CUSTOM, 3, 8), scalar(4)]), Some(1));
    assert_eq!(malformed(&[packet(3), tag]), Some(1));
    assert_eq!(malformed(&[enumeration(3, 8), inner]), Some(1));
    assert_eq!(malformed(&[enumeration(3, 8), tag, inner]), Some(2));
    assert_eq!(malformed(&[enumeration(3, 8), range(4, 1, 2), inner, inner, tag]), None);
    assert_eq!(malformed(&[enumeration(3, 8), range(4, 1, 2), tag, inner]), Some(3));
    assert_eq!(malformed(&[enumeration(3, 8), named(kind::DEFAULT_TAG, 4), inner]), Some(2));
}

#[test]
fn the_first_place_is_reported_and_lengths_come_first() {
    assert_eq!(malformed(&[packet(3), Record::of(0), Record::of(0)]), Some(1));
    assert_eq!(check(&[0; 39]), Err(Reply::Uneven));
    assert_eq!(check(&vec![0; 40 * 1_601]), Err(Reply::TooLong));
    assert_eq!(check(&vec![0; 40 * 1_601 + 1]), Err(Reply::Uneven));
    assert_eq!(check(&vec![0; 40 * 1_600]), Err(Reply::Malformed(0)));
    assert!(check(&[]).is_ok());
}
