//! Small cases as text, for a checker that is slow.

use crate::answer::answer;
use crate::generate::{generate_small, Case};

/// The byte that fills both buffers beforehand.
pub const FILLER: u8 = 7;

/// The text of the small case of a seed. Call it on a deep stack.
pub fn case_text(seed: u64, most_records: usize) -> String {
    let Case { input, table_len, fault_len } = generate_small(seed, most_records);
    let answer = answer(&input, table_len);
    let (table, faults) = answer.buffers(table_len, fault_len, FILLER);
    let lines = [
        format!("case {seed}"),
        bytes_line("input", &input),
        format!("table {table_len}"),
        format!("faults {fault_len}"),
        format!("reply {}", answer.reply.line()),
        bytes_line("table-after", &table),
        bytes_line("faults-after", &faults),
        "end\n".to_owned(),
    ];
    lines.join("\n")
}

fn bytes_line(word: &str, bytes: &[u8]) -> String {
    let words = std::iter::once(word.to_owned()).chain(bytes.iter().map(u8::to_string));
    words.collect::<Vec<String>>().join(" ")
}
