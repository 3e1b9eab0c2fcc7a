//! The oracle: the unchanged Rust passes of google/pdl, run on tables of 40-byte records.

pub mod answer;
pub mod bench;
pub mod cases;
pub mod compare;
pub mod convert;
pub mod coverage;
pub mod fault;
pub mod generate;
pub mod groups;
pub mod layout;
pub mod print;
pub mod random;
pub mod record;
pub mod reply;
pub mod stored;
pub mod text;
pub mod verify;

/// The syntax tree of google/pdl, included as it was published.
#[allow(dead_code, clippy::all)]
pub mod ast {
    include!("../vendor/pdl/ast.rs");
}

/// The analyzer of google/pdl, included as it was published; its child sees the private passes.
#[allow(dead_code, clippy::all)]
pub mod analyzer {
    include!("../vendor/pdl/analyzer.rs");

    pub mod passes;
}
