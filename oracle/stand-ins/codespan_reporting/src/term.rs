//! Rendering of diagnostics. The oracle prints faults itself, so this renders nothing.

use crate::diagnostic::Diagnostic;
use crate::files::{Error, SimpleFiles};

pub mod termcolor {
    /// A sink for coloured text.
    pub trait WriteColor {}
}

/// Rendering options.
#[derive(Debug, Default)]
pub struct Config;

/// Accepts a diagnostic and renders nothing.
pub fn emit_to_write_style<Name, Source>(
    _writer: &mut dyn termcolor::WriteColor,
    _config: &Config,
    _files: &SimpleFiles<Name, Source>,
    _diagnostic: &Diagnostic<usize>,
) -> Result<(), Error> {
    Ok(())
}
