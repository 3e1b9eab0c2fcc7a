//! Stand-in for `codespan_reporting`, as far as `analyzer.rs` and `ast.rs` name it. A diagnostic
//! keeps what the original keeps (code, message, labels, notes), so that a pass does the same work.

pub mod diagnostic;
pub mod files;
pub mod term;
