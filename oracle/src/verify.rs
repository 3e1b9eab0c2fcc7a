//! Checks of the oracle itself: the Rust panics exactly where Unfit or Loose is answered.

use crate::analyzer::passes;
use crate::answer::answer;
use crate::ast::File;
use crate::convert::{to_file, to_table};
use crate::groups;
use crate::layout;
use crate::reply::Reply;
use std::cell::Cell;
use std::panic::{catch_unwind, set_hook, take_hook, AssertUnwindSafe};

/// What was verified on one table.
#[derive(Clone, Copy, Debug, Default, PartialEq, Eq)]
pub struct Verified {
    /// `inline_groups` panicked, as Unfit says.
    pub unfit: usize,
    /// `desugar_flags` panicked, as Loose says.
    pub loose: usize,
    /// Neither panicked.
    pub calm: usize,
    /// `inline_groups` was also called with the empty groups, and made the same file.
    pub with_empty_groups: usize,
}

thread_local! {
    /// Set while this thread provokes a panic.
    static PROVOKES: Cell<bool> = const { Cell::new(false) };
}

/// Silences the panics that `verify` provokes and catches, and no others.
pub fn silence_panics() {
    let usual = take_hook();
    set_hook(Box::new(move |panic| {
        if !PROVOKES.get() {
            usual(panic)
        }
    }));
}

/// The result of something that may panic, or none if it does.
fn caught<T>(work: impl FnOnce() -> T) -> Option<T> {
    PROVOKES.set(true);
    let result = catch_unwind(AssertUnwindSafe(work)).ok();
    PROVOKES.set(false);
    result
}

/// Checks one table, or says what is wrong. Call it on a deep stack.
pub fn verify(input: &[u8]) -> Result<Verified, String> {
    let mut verified = Verified::default();
    let Ok(table) = layout::check(input) else { return Ok(verified) };
    let file = to_file(&table);
    if to_table(&file) != table {
        return Err("the table does not survive the conversion".to_owned());
    }
    let Ok(listed) = passes::check(&file) else { return Ok(verified) };
    let reply = answer(input, usize::MAX).reply;
    if reply == Reply::Swollen {
        return Ok(verified);
    }
    let finite = groups::without_empty_groups(&listed, &groups::sizes(&listed));
    verify_empty_groups(&listed, &finite, &mut verified)?;
    let panics = panics_of(&finite);
    let wanted = (matches!(reply, Reply::Unfit(_)), matches!(reply, Reply::Loose(_)));
    if panics != wanted {
        return Err(format!("{} but panics (inline, flags) are {panics:?}", reply.line()));
    }
    verified.unfit = usize::from(panics.0);
    verified.loose = usize::from(panics.1);
    verified.calm = usize::from(panics == (false, false));
    Ok(verified)
}

/// Whether `inline_groups` panics, and whether `desugar_flags` panics after it.
fn panics_of(finite: &File) -> (bool, bool) {
    match caught(|| passes::inline(finite)) {
        None => (true, false),
        Some(mut inlined) => (false, caught(|| passes::desugar(&mut inlined)).is_none()),
    }
}

/// Checks that leaving the empty groups out changes nothing, where walking them ends soon.
fn verify_empty_groups(listed: &File, finite: &File, sum: &mut Verified) -> Result<(), String> {
    if !groups::is_soon_walked(listed) || to_table(listed) == to_table(finite) {
        return Ok(());
    }
    let written = |file: &File| caught(|| to_table(&passes::inline(file)));
    if written(listed) != written(finite) {
        return Err("leaving the empty groups out changes the inlined file".to_owned());
    }
    sum.with_empty_groups = 1;
    Ok(())
}
