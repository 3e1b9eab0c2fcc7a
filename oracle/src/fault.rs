//! One fault: 20 bytes, made from a diagnostic of the Rust passes.

use crate::analyzer::Diagnostics;
use crate::ast::FileId;
use codespan_reporting::diagnostic::{Diagnostic, Label, LabelStyle};

/// Bytes of a fault.
pub const FAULT_BYTES: usize = 20;

/// Start and end of a source location.
#[derive(Clone, Copy, Debug, PartialEq, Eq)]
pub struct Location {
    pub start: u32,
    pub end: u32,
}

/// A fault with its code and locations.
#[derive(Clone, Copy, Debug, PartialEq, Eq)]
pub struct Fault {
    pub code: u16,
    pub primary: Location,
    pub secondary: Option<Location>,
}

impl Fault {
    /// Writes a fault as its 20 bytes.
    pub fn encode(&self) -> [u8; FAULT_BYTES] {
        let second = self.secondary.unwrap_or(Location { start: 0, end: 0 });
        let mut bytes = [0; FAULT_BYTES];
        bytes[0..2].copy_from_slice(&self.code.to_le_bytes());
        bytes[2..4].copy_from_slice(&u16::from(self.secondary.is_some()).to_le_bytes());
        bytes[4..8].copy_from_slice(&self.primary.start.to_le_bytes());
        bytes[8..12].copy_from_slice(&self.primary.end.to_le_bytes());
        bytes[12..16].copy_from_slice(&second.start.to_le_bytes());
        bytes[16..20].copy_from_slice(&second.end.to_le_bytes());
        bytes
    }
}

/// The faults of a pass, in the order in which it raised them.
pub fn faults_of(found: &Diagnostics) -> Vec<Fault> {
    found.diagnostics.iter().map(fault_of).collect()
}

fn fault_of(diagnostic: &Diagnostic<FileId>) -> Fault {
    let code = diagnostic.code.as_deref().and_then(|code| code.strip_prefix('E'));
    Fault {
        code: code.and_then(|code| code.parse().ok()).expect("every diagnostic has a code"),
        primary: label_of(diagnostic, LabelStyle::Primary).expect("every diagnostic has a primary"),
        secondary: label_of(diagnostic, LabelStyle::Secondary),
    }
}

/// The one label of a style, if there is one; a fault has no room for a second of the same style.
fn label_of(diagnostic: &Diagnostic<FileId>, style: LabelStyle) -> Option<Location> {
    let mut labels = diagnostic.labels.iter().filter(|label| label.style == style);
    let found = labels.next().map(location_of);
    assert!(labels.next().is_none(), "two labels of one style");
    found
}

fn location_of(label: &Label<FileId>) -> Location {
    Location { start: label.range.start as u32, end: label.range.end as u32 }
}
