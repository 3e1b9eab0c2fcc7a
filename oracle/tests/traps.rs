//! The traps that document 01 lists, and the edges of its room limits.

mod common;

use common::*;
use oracle::answer::{answer, on_deep_stack};
use oracle::fault::FAULT_BYTES;
use oracle::record::{encode_table, kind, Record};
use oracle::reply::Reply;

fn held(name: u16, one: u64) -> Record {
    valued(kind::CONSTRAINT, name, one)
}

fn condition(name: u16, one: u64) -> Record {
    valued(kind::CONDITION, name, one)
}

fn kinds_of(table: &[Record]) -> Vec<(u8, u16, u64)> {
    let records = answer_to(table).records;
    records.iter().map(|record| (record.kind, record.name, record.one)).collect()
}

#[test]
fn a_flag_lists_every_condition_value() {
    let fields = [scalar(11), scalar(12), condition(11, 1), scalar(13), condition(11, 0)];
    let written = kinds_of(&[&[packet(10)], &fields[..]].concat());
    assert_eq!(written[1..4], [(32, 11, 0), (12, 12, 1), (12, 13, 0)]);
}

#[test]
fn a_repeated_name_points_at_the_nearest_earlier_one() {
    let fields = faults_in(&[packet(10), scalar(11), array(11), scalar(11)]);
    assert_eq!(fields, [(11, 2, Some(1)), (11, 3, Some(2))]);
    let tag = |name, one| value(kind::TAG_VALUE, name, one);
    let tags = faults_in(&[enumeration(10, 8), tag(11, 1), tag(11, 2), tag(11, 3)]);
    assert_eq!(tags, [(12, 2, Some(1)), (12, 3, Some(2))]);
}

#[test]
fn a_repeated_payload_points_at_the_first() {
    let [payload, body] = [Record::of(kind::PAYLOAD), Record::of(kind::BODY)];
    let faults = faults_in(&[packet(10), payload, body, payload]);
    assert_eq!(faults, [(36, 2, Some(1)), (36, 3, Some(1))]);
}

#[test]
fn later_passes_read_the_listed_order() {
    let parent = [structure(20), scalar(21), scalar(21), Record::of(kind::BODY)];
    let child = [Record { second: 20, ..structure(10) }, scalar(11), scalar(11)];
    let faults = faults_in(&[&child[..], &parent[..]].concat());
    assert_eq!(faults, [(11, 5, Some(4)), (11, 2, Some(1))]);
}

#[test]
fn inner_constraints_beat_outer_ones_and_the_last_of_a_list_holds() {
    let inner = [group(20), scalar(21), group(30), group_field(20), held(21, 1), held(21, 2)];
    let outer = [packet(10), group_field(30), held(21, 9)];
    let answer = answer_to(&[&inner[..], &outer[..]].concat());
    let fixed = answer.records.iter().find(|record| record.kind == kind::FIXED_SCALAR);
    assert_eq!(fixed.map(|record| record.two), Some(2));
}

#[test]
fn outer_constraints_hold_where_no_inner_one_does() {
    let inner = [group(20), scalar(21), group(30), group_field(20)];
    let outer = [packet(10), group_field(30), held(21, 9)];
    let answer = answer_to(&[&inner[..], &outer[..]].concat());
    assert_eq!((answer.records[1].kind, answer.records[1].two), (kind::FIXED_SCALAR, 9));
}

#[test]
fn a_fixed_enum_is_neither_checked_nor_followed_in_pass_2() {
    let fixed = |second| Record { second, third: 9, ..Record::of(kind::FIXED_ENUM) };
    assert_eq!(faults_in(&[packet(10), fixed(77)]), [(33, 1, None)]);
    assert_eq!(faults_in(&[packet(10), fixed(10)]), [(35, 1, Some(0))]);
    let table = [packet(10), fixed(20), enumeration(20, 8), value(kind::TAG_VALUE, 9, 1)];
    let answer = answer_to(&table);
    assert_eq!(answer.records[0].kind, kind::PACKET, "the packet stays before the enum");
    assert_eq!(answer.reply, Reply::Accepted(4));
}

#[test]
fn an_inner_value_is_no_tag_of_its_enum() {
    let fixed = Record { second: 20, third: 9, ..Record::of(kind::FIXED_ENUM) };
    let inner = value(kind::INNER_VALUE, 9, 1);
    let table = [enumeration(20, 8), range(8, 1, 2), inner, packet(10), fixed];
    assert_eq!(faults_in(&table), [(34, 4, Some(0))]);
}

#[test]
fn a_group_field_loses_its_condition() {
    let table = [group(20), scalar(21), packet(10), scalar(11), group_field(20), condition(11, 1)];
    assert_eq!(kinds_of(&table), [(4, 10, 0), (31, 11, 8), (31, 21, 8)]);
}

#[test]
fn unfit_names_the_first_inlined_field() {
    let bare = named(kind::CONSTRAINT, 21);
    let group = [group(20), keyed(reserved(), 4), keyed(scalar(21), 5), keyed(scalar(22), 6)];
    let table = [&group[..], &[packet(10), keyed(group_field(20), 9), bare]].concat();
    assert_eq!(reply_to(&table), Reply::Unfit(5));
    let tagged = Record { second: 3, ..bare };
    let table = [&group[..], &[packet(10), group_field(20), tagged]].concat();
    assert_eq!(reply_to(&table), Reply::Unfit(5), "a tag is no value");
    let last = [&group[..], &[packet(10), group_field(20), bare, held(21, 1)]].concat();
    assert_eq!(reply_to(&last), Reply::Accepted(4), "only the holding constraint counts");
}

#[test]
fn a_constrained_typedef_wants_a_tag() {
    let group = [enumeration(30, 8), group(20), keyed(typedef(21, 30), 5)];
    let table = [&group[..], &[packet(10), group_field(20), held(21, 1)]].concat();
    assert_eq!(reply_to(&table), Reply::Unfit(5));
    let tagged = Record { second: 3, ..named(kind::CONSTRAINT, 21) };
    let table = [&group[..], &[packet(10), group_field(20), tagged]].concat();
    assert_eq!(reply_to(&table), Reply::Accepted(3));
}

#[test]
fn an_unused_group_is_neither_unfit_nor_loose() {
    let bare = named(kind::CONSTRAINT, 21);
    let unfit = [group(20), scalar(21), group(30), group_field(20), bare];
    assert_eq!(reply_to(&unfit), Reply::Accepted(0));
    let loose = [group(20), reserved(), condition(21, 1)];
    assert_eq!(reply_to(&loose), Reply::Accepted(0));
}

#[test]
fn loose_names_the_first_inlined_field() {
    let bare = named(kind::CONDITION, 11);
    let table = [packet(10), keyed(scalar(11), 3), keyed(scalar(12), 4), bare];
    assert_eq!(reply_to(&table), Reply::Loose(4));
    let table = [packet(10), keyed(scalar(11), 3), keyed(reserved(), 4), condition(11, 1)];
    assert_eq!(reply_to(&table), Reply::Loose(4));
    let group = [group(20), keyed(scalar(21), 5), condition(11, 1)];
    let table = [&group[..], &[packet(10), group_field(20), held(21, 1)]].concat();
    assert_eq!(reply_to(&table), Reply::Loose(5), "a FixedScalar has no name");
}

#[test]
fn unfit_comes_before_loose() {
    let loose = [packet(10), keyed(reserved(), 4), condition(11, 1)];
    let unfit = [group(20), keyed(scalar(21), 5)];
    let held = named(kind::CONSTRAINT, 21);
    let table = [&loose[..], &unfit[..], &[packet(30), group_field(20), held]].concat();
    assert_eq!(reply_to(&table), Reply::Unfit(5));
}

#[test]
fn a_conditional_flag_keeps_its_condition_before_its_entries() {
    let table = [packet(10), scalar(11), condition(12, 1), scalar(12), condition(11, 0)];
    let wanted = [(4, 10, 0), (32, 11, 0), (11, 12, 1), (12, 12, 0), (32, 12, 0), (11, 11, 0)];
    assert_eq!(kinds_of(&table)[..6], wanted);
    assert_eq!(kinds_of(&table)[6..], [(12, 11, 1)]);
}

#[test]
fn doubled_groups_end_soon() {
    for records in [0, 1] {
        let mut table = vec![group(100)];
        table.extend(vec![scalar(3); records]);
        for level in 101..500 {
            table.extend([group(level), group_field(level - 1), group_field(level - 1)]);
        }
        table.extend([packet(10), group_field(499)]);
        let wanted = if records == 0 { Reply::Accepted(1) } else { Reply::Swollen };
        assert_eq!(reply_to(&table), wanted);
    }
}

#[test]
fn chains_of_1600_declarations() {
    let parent = |name: u16| Record { second: (name + 1) % 1_601, ..packet(name) };
    let chain: Vec<Record> = (1..=1_600).map(parent).collect();
    assert_eq!(reply_to(&chain), Reply::Accepted(1_600));
    let mut ring = chain;
    ring[1_599].second = 1;
    assert_eq!(faults_in(&ring), [(2, 0, None)]);
}

#[test]
fn overlisted_counts_the_flag_entries() {
    let listed = |rest: usize| {
        let head = [packet(10), scalar(11), scalar(12), condition(11, 1)];
        reply_to(&[&head[..], &vec![reserved(); rest][..]].concat())
    };
    assert_eq!(listed(1_595), Reply::Accepted(1_600));
    assert_eq!(listed(1_596), Reply::Overlisted);
}

#[test]
fn swollen_counts_the_inlined_records() {
    let total = |rest: usize| {
        let fields: Vec<Record> = (100..200).map(scalar).collect();
        let copies = vec![group_field(20); 15];
        let reserved = vec![reserved(); rest];
        let parts = [vec![group(20)], fields, vec![packet(10)], copies, reserved];
        reply_to(&parts.concat())
    };
    assert_eq!(total(99), Reply::Accepted(1_600));
    assert_eq!(total(100), Reply::Swollen);
}

#[test]
fn no_room_and_what_the_buffers_keep() {
    let table = encode_table(&[packet(10), scalar(11)]);
    let answered = |room| on_deep_stack(|| answer(&table, room));
    assert_eq!(answered(79).reply, Reply::NoRoom(80));
    assert_eq!(answered(79).buffers(79, 3, 7), (vec![7; 79], vec![7; 3]));
    let (after, faults) = answered(83).buffers(83, 0, 7);
    assert_eq!(after, [&table[..], &[7, 7, 7]].concat());
    assert!(faults.is_empty());
}

#[test]
fn faults_are_written_whole_and_all_are_counted() {
    let answered = answer_to(&[packet(10), scalar(11), scalar(11), scalar(11)]);
    assert_eq!(answered.reply, Reply::Faulty(3, 2));
    let (table, faults) = answered.buffers(5, FAULT_BYTES + 19, 7);
    assert_eq!(table, [7; 5]);
    assert_eq!(faults[..FAULT_BYTES], answered.faults[0].encode());
    assert_eq!(faults[FAULT_BYTES..], [7; 19]);
}

#[test]
fn names_1_and_2_are_payload_and_body() {
    let size = |second| Record { second, one: 8, ..Record::of(kind::SIZE) };
    let [payload, body] = [Record::of(kind::PAYLOAD), Record::of(kind::BODY)];
    assert_eq!(reply_to(&[packet(10), size(1), payload]), Reply::Accepted(3));
    assert_eq!(reply_to(&[packet(10), size(2), body]), Reply::Accepted(3));
    assert_eq!(faults_in(&[packet(10), size(2), payload]), [(24, 1, None)]);
    assert_eq!(faults_in(&[packet(10), size(1), scalar(1), payload]), [(25, 1, Some(2))]);
    assert_eq!(reply_to(&[packet(10), size(1), payload, scalar(1)]), Reply::Accepted(4));
    let count = Record { second: 1, one: 8, ..Record::of(kind::COUNT) };
    assert_eq!(faults_in(&[packet(10), count, payload]), [(27, 1, None)]);
}
