//! T1 to T11 of document 01, and the cases that are only run.

mod common;

use common::*;
use oracle::analyzer::passes::{greatest_of, width_of};
use oracle::answer::PROGRAM_BUFFER;
use oracle::bench::soft_stroke;
use oracle::print::printed;
use oracle::record::{kind, Record};
use oracle::reply::Reply;

const SOFT_STROKE: &str = "Accepted 9
4 0 10 0 0 0 0 1 0 0
32 0 11 0 0 0 0 2 0 0
12 0 12 0 0 1 0 0 0 0
12 0 13 0 0 0 0 0 0 0
29 0 0 0 0 7 0 3 0 0
31 0 12 0 0 8 0 4 0 0
11 1 11 0 0 1 0 0 0 0
31 0 13 0 0 8 0 5 0 0
11 1 11 0 0 0 0 0 0 0
";

#[test]
fn t1_soft_stroke() {
    assert_eq!(printed(&answer_to(&soft_stroke()), PROGRAM_BUFFER), SOFT_STROKE);
}

#[test]
fn t2_empty_input() {
    assert_eq!(printed_for(&[]), "Accepted 0\n");
}

#[test]
fn t3_bit_widths() {
    assert_eq!([0, 255, 256].map(width_of), [0, 8, 9]);
}

#[test]
fn t4_maxima() {
    assert_eq!([0, 8, 64].map(greatest_of), [0, 255, u64::MAX]);
}

#[test]
fn t5_struct_with_an_array_of_itself() {
    let countless = Record { second: 10, ..named(kind::ARRAY, 11) };
    assert_eq!(reply_to(&[structure(10), countless]), Reply::Accepted(2));
    let counted = Record { marks: 2, two: 1, ..countless };
    assert_eq!(faults_in(&[structure(10), counted]), [(2, 0, None)]);
}

#[test]
fn t6_fixed_values() {
    let fixed = |two| Record { one: 8, two, ..Record::of(kind::FIXED_SCALAR) };
    assert_eq!(reply_to(&[packet(10), fixed(255)]), Reply::Accepted(2));
    assert_eq!(faults_in(&[packet(10), fixed(256)]), [(32, 1, None)]);
}

#[test]
fn t7_range_of_one_value() {
    assert_eq!(faults_in(&[enumeration(10, 8), range(11, 5, 5)]), [(40, 1, None)]);
}

#[test]
fn t8_one_name_three_times() {
    let wanted = [(1, 1, Some(0)), (1, 2, Some(1))];
    assert_eq!(faults_in(&[packet(10), packet(10), structure(10)]), wanted);
}

#[test]
fn t9_two_paddings() {
    let padding = Record { one: 4, ..Record::of(kind::PADDING) };
    assert_eq!(faults_in(&[packet(10), array(11), padding, padding]), [(39, 3, None)]);
}

#[test]
fn t10_packet_and_its_test() {
    let test = Record { second: 10, ..Record::of(kind::TEST) };
    assert_eq!(reply_to(&[packet(10), test]), Reply::Accepted(1));
}

#[test]
fn t11_three_ranges() {
    let table = [enumeration(10, 8), range(11, 0, 100), range(12, 1, 2), range(13, 50, 60)];
    assert_eq!(faults_in(&table), [(41, 2, Some(1))]);
}

#[test]
fn lengths() {
    let of_length = |length: usize| answer_bytes(&vec![0; length]).reply;
    assert_eq!(of_length(64_000), Reply::Malformed(0));
    assert_eq!(of_length(64_040), Reply::TooLong);
    assert_eq!(of_length(64_041), Reply::Uneven);
}

#[test]
fn printed_rows() {
    assert_eq!(printed_for(&[Record::of(kind::FLAG)]), "Malformed 0\n");
    let faulty = [packet(10), scalar(11), scalar(11)];
    assert_eq!(printed_for(&faulty), "Faulty 3 1\n11 2 7 1 6\n");
    let missing = Record { second: 77, ..packet(10) };
    assert_eq!(printed_for(&[missing]), "Faulty 2 1\n7 0 5\n");
}
