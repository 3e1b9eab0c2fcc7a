//! Tables of sound layout to the syntax tree of the Rust, and back.

mod names;
mod read;
mod write;

pub use read::to_file;
pub use write::to_table;
