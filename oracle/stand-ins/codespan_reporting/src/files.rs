//! Source files. The oracle has no source text, so nothing is stored.

use std::marker::PhantomData;

/// A lookup that failed. Nothing here looks anything up.
#[derive(Debug)]
pub enum Error {}

/// A set of source files with their names.
#[derive(Debug, Default)]
pub struct SimpleFiles<Name, Source> {
    stored: PhantomData<(Name, Source)>,
}
