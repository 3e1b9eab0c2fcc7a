//! The answer to a table: document 01's replies, first match from the top.

use crate::analyzer::passes;
use crate::ast::File;
use crate::convert::{to_file, to_table};
use crate::fault::{faults_of, Fault};
use crate::groups;
use crate::layout;
use crate::record::{Record, MOST_RECORDS, RECORD_BYTES};
use crate::reply::Reply;

/// Bytes of each of the program's two buffers.
pub const PROGRAM_BUFFER: usize = 64_000;
/// Enough stack for chains of 1,600 declarations, also in an unoptimised build.
pub const STACK_BYTES: usize = 512 << 20;

/// A reply, all faults found, and the records of an accepted table.
#[derive(Clone, Debug, PartialEq, Eq)]
pub struct Answer {
    pub reply: Reply,
    pub faults: Vec<Fault>,
    pub records: Vec<Record>,
}

impl Answer {
    fn bare(reply: Reply) -> Answer {
        Answer { reply, faults: Vec::new(), records: Vec::new() }
    }

    /// The table buffer and the fault buffer afterwards, both filled with one byte beforehand.
    pub fn buffers(&self, table_len: usize, fault_len: usize, filler: u8) -> (Vec<u8>, Vec<u8>) {
        let table = self.records.iter().flat_map(Record::encode).collect();
        let faults = self.faults.iter().map(Fault::encode);
        (written(table, table_len, filler), written(whole(faults, fault_len), fault_len, filler))
    }
}

/// The first faults, as many whole ones as fit.
fn whole<const N: usize>(items: impl Iterator<Item = [u8; N]>, room: usize) -> Vec<u8> {
    items.take(room / N).flatten().collect()
}

/// Bytes written to the front of a filled buffer.
fn written(mut bytes: Vec<u8>, length: usize, filler: u8) -> Vec<u8> {
    assert!(bytes.len() <= length, "an answer never outgrows its buffer");
    bytes.resize(length, filler);
    bytes
}

/// Runs something on a thread with a stack that is deep enough for `answer`.
pub fn on_deep_stack<T: Send>(work: impl FnOnce() -> T + Send) -> T {
    std::thread::scope(|scope| {
        let thread = std::thread::Builder::new().stack_size(STACK_BYTES);
        let running = thread.spawn_scoped(scope, work).expect("a thread with a deep stack");
        running.join().unwrap_or_else(|panic| std::panic::resume_unwind(panic))
    })
}

/// The answer to a table, for a table buffer of `table_len` bytes. Call it on a deep stack.
pub fn answer(input: &[u8], table_len: usize) -> Answer {
    let table = match layout::check(input) {
        Ok(table) => table,
        Err(reply) => return Answer::bare(reply),
    };
    let listed = match passes::check(&to_file(&table)) {
        Ok(listed) => listed,
        Err((pass, found)) => {
            let faults = faults_of(&found);
            let reply = Reply::Faulty(pass, faults.len());
            return Answer { reply, faults, records: Vec::new() };
        }
    };
    match inlined(&listed).and_then(desugared).and_then(|records| with_room(records, table_len)) {
        Ok(records) => {
            Answer { reply: Reply::Accepted(records.len()), faults: Vec::new(), records }
        }
        Err(reply) => Answer::bare(reply),
    }
}

/// The inlined file, unless it is Swollen or Unfit, which are found without calling the Rust.
fn inlined(listed: &File) -> Result<File, Reply> {
    let sizes = groups::sizes(listed);
    if groups::is_swollen(listed, &sizes) {
        return Err(Reply::Swollen);
    }
    let finite = groups::without_empty_groups(listed, &sizes);
    match groups::first_unfit(&finite) {
        Some(key) => Err(Reply::Unfit(key.0 as u16)),
        None => Ok(passes::inline(&finite)),
    }
}

/// The table with flags, unless a field is Loose, which is found without calling the Rust.
fn desugared(mut inlined: File) -> Result<Vec<Record>, Reply> {
    if let Some(key) = groups::first_loose(&inlined) {
        return Err(Reply::Loose(key.0 as u16));
    }
    passes::desugar(&mut inlined);
    Ok(to_table(&inlined))
}

fn with_room(records: Vec<Record>, table_len: usize) -> Result<Vec<Record>, Reply> {
    let needed = records.len() * RECORD_BYTES;
    if records.len() > MOST_RECORDS {
        Err(Reply::Overlisted)
    } else if needed > table_len {
        Err(Reply::NoRoom(needed))
    } else {
        Ok(records)
    }
}
