//! Tables by hand.

use oracle::generate::generate;
use oracle::record::RECORD_BYTES;
use oracle::text::{lines_of, table_of};

const EXAMPLE: &str = include_str!("../../examples/soft-stroke.lines");
const TABLE: &[u8] = include_bytes!("../../examples/soft-stroke.table");

#[test]
fn example_lines_are_the_example_table() {
    assert_eq!(table_of(EXAMPLE).as_deref(), Ok(TABLE));
}

#[test]
fn an_answer_can_be_given_back() {
    let lines = lines_of(TABLE).expect("a whole table");
    assert_eq!(table_of(&format!("Accepted 7\n{lines}")).as_deref(), Ok(TABLE));
}

#[test]
fn lines_and_tables_say_the_same() {
    let tables = (0..2_000).map(|seed| generate(seed).input).filter(|table| table.len() < 4_000);
    let mut said = 0;
    for table in tables {
        if let Ok(lines) = lines_of(&table) {
            assert_eq!(table_of(&lines), Ok(table));
            said += 1;
        }
    }
    assert!(said > 1_000, "most tables can be said as lines");
}

#[test]
fn what_is_wrong_is_said_with_its_line() {
    let wrong = |text: &str| table_of(text).expect_err("a wrong line");
    assert_eq!(wrong("4 0 10 0 0 0 0 1 0 0\n\n4 0").split(',').next(), Some("line 3: 2 numbers"));
    assert_eq!(wrong("256 0 0 0 0 0 0 0 0 0"), "line 1: kind: 256 is above 255");
    assert_eq!(wrong("4 0 -1 0 0 0 0 0 0 0"), "line 1: name: `-1` is no number");
    assert_eq!(
        wrong("4 0 1 0 0 18446744073709551616 0 0 0 0"),
        "line 1: one: 18446744073709551616 is above 18446744073709551615"
    );
}

#[test]
fn bytes_that_no_line_says_are_refused() {
    let mut record = [0; RECORD_BYTES];
    record[39] = 1;
    assert!(lines_of(&record).is_err());
    assert!(lines_of(&record[1..]).is_err());
}
