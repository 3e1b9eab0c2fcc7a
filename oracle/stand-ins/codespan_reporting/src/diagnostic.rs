//! Diagnostics and their labels.

use std::ops::Range;

/// Whether a label marks the cause or something related to it.
#[derive(Clone, Copy, Debug, PartialEq, Eq)]
pub enum LabelStyle {
    Primary,
    Secondary,
}

/// A marked range of a source file.
#[derive(Clone, Debug, PartialEq, Eq)]
pub struct Label<FileId> {
    pub style: LabelStyle,
    pub file_id: FileId,
    pub range: Range<usize>,
    pub message: String,
}

impl<FileId> Label<FileId> {
    fn new(style: LabelStyle, file_id: FileId, range: Range<usize>) -> Label<FileId> {
        Label { style, file_id, range, message: String::new() }
    }

    pub fn primary(file_id: FileId, range: Range<usize>) -> Label<FileId> {
        Label::new(LabelStyle::Primary, file_id, range)
    }

    pub fn secondary(file_id: FileId, range: Range<usize>) -> Label<FileId> {
        Label::new(LabelStyle::Secondary, file_id, range)
    }

    pub fn with_message(mut self, message: impl ToString) -> Label<FileId> {
        self.message = message.to_string();
        self
    }
}

/// One reported error.
#[derive(Clone, Debug, PartialEq, Eq)]
pub struct Diagnostic<FileId> {
    pub code: Option<String>,
    pub message: String,
    pub labels: Vec<Label<FileId>>,
    pub notes: Vec<String>,
}

impl<FileId> Diagnostic<FileId> {
    pub fn error() -> Diagnostic<FileId> {
        Diagnostic { code: None, message: String::new(), labels: Vec::new(), notes: Vec::new() }
    }

    pub fn with_code(mut self, code: impl Into<String>) -> Diagnostic<FileId> {
        self.code = Some(code.into());
        self
    }

    pub fn with_message(mut self, message: impl ToString) -> Diagnostic<FileId> {
        self.message = message.to_string();
        self
    }

    pub fn with_labels(mut self, mut labels: Vec<Label<FileId>>) -> Diagnostic<FileId> {
        self.labels.append(&mut labels);
        self
    }

    pub fn with_notes(mut self, mut notes: Vec<String>) -> Diagnostic<FileId> {
        self.notes.append(&mut notes);
        self
    }
}
