//! Tables by hand: the printed lines of document 01 as a table, and back.

use crate::print::push_record;
use crate::record::{Record, RECORD_BYTES};

/// What a line of a record has, in its order.
const PARTS: &str = "kind marks name second third one two key start end";

/// The bytes of a table written as lines of ten numbers. What stands behind a `#` is a comment; empty lines are passed over, and so is the
/// reply's line of a printed answer.
pub fn table_of(text: &str) -> Result<Vec<u8>, String> {
    let mut bytes = Vec::new();
    for (at, line) in text.lines().enumerate() {
        let content = line.split('#').next().unwrap_or("").trim();
        if content.is_empty() || (bytes.is_empty() && content.starts_with("Accepted ")) {
            continue;
        }
        let record = record_of(content).map_err(|wrong| format!("line {}: {wrong}", at + 1))?;
        bytes.extend(record.encode());
    }
    Ok(bytes)
}

/// The record of a line.
fn record_of(line: &str) -> Result<Record, String> {
    let words: Vec<&str> = line.split_whitespace().collect();
    let [kind, marks, name, second, third, one, two, key, start, end] = words[..] else {
        return Err(format!("{} numbers, but a record has ten: {PARTS}", words.len()));
    };
    Ok(Record {
        kind: number("kind", kind, u8::MAX.into())? as u8,
        marks: number("marks", marks, u8::MAX.into())? as u8,
        name: short("name", name)?,
        second: short("second", second)?,
        third: short("third", third)?,
        one: number("one", one, u64::MAX)?,
        two: number("two", two, u64::MAX)?,
        key: short("key", key)?,
        start: short("start", start)?,
        end: short("end", end)?,
    })
}

fn short(part: &str, word: &str) -> Result<u16, String> {
    number(part, word, u16::MAX.into()).map(|number| number as u16)
}

fn number(part: &str, word: &str, most: u64) -> Result<u64, String> {
    let is_decimal = !word.is_empty() && word.bytes().all(|byte| byte.is_ascii_digit());
    if !is_decimal {
        return Err(format!("{part}: `{word}` is no number"));
    }
    let found = word.parse().ok().filter(|&number| number <= most);
    found.ok_or_else(|| format!("{part}: {word} is above {most}"))
}

/// The lines of a table. Bytes that no line can say are refused.
pub fn lines_of(bytes: &[u8]) -> Result<String, String> {
    if bytes.len() % RECORD_BYTES != 0 {
        return Err(format!("{} bytes are no whole records of {RECORD_BYTES}", bytes.len()));
    }
    let mut text = String::new();
    for (place, bytes) in bytes.chunks(RECORD_BYTES).enumerate() {
        let record = Record::decode(bytes);
        if record.encode() != *bytes {
            return Err(format!("place {place}: a byte that belongs to no part is not zero"));
        }
        push_record(&record, &mut text);
    }
    Ok(text)
}
