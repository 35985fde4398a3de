//! When the measure of a result file was (02, 5/14): the entries that say so, and changes to them that are tried.

use crate::edit::{Action, Edit};
use crate::placed;
use crate::table::{self, Given};

/// The entries that say when a measure was.
pub const DAY: &str = "DataMisura";
pub const START: &str = "InizioMisura";
pub const END: &str = "FineMisura";

/// When the measure was.
pub struct Measure<'a> {
    file: u32,
    text: &'a [u8],
    pub day: Given<'a>,
    pub start: Given<'a>,
    pub end: Given<'a>,
}

impl<'a> Measure<'a> {
    /// What a file with this text says of it.
    pub fn of(file: u32, text: &'a [u8]) -> Option<Measure<'a>> {
        Some(Measure {
            file,
            text,
            day: given(file, text, DAY)?,
            start: given(file, text, START)?,
            end: given(file, text, END)?,
        })
    }

    /// The file with another DataMisura.
    pub fn on_day(&self, day: &[u8]) -> Edit {
        with_value(self.file, &self.day, day)
    }

    /// The file with a measure that ends when it begins, on DataMisura.
    pub fn on_its_day(&self) -> Edit {
        with_value(self.file, &self.end, self.start.value)
    }

    /// The file with InizioMisura and FineMisura exchanged.
    pub fn exchanged(&self) -> Edit {
        let start = with_value(self.file, &self.start, self.end.value);
        let text = self.on_its_day().apply(self.text);
        Edit {
            file: self.file,
            line: 0,
            action: Action::Content(start.apply(&text)),
        }
    }

    /// `InizioMisura and FineMisura (lines 5 and 4)`.
    pub fn times(&self) -> String {
        let (start, end) = (self.start.line, self.end.line);
        format!("{START} and {END} (lines {start} and {end})")
    }
}

/// The first entry of this name, where the library reads the text.
pub fn given<'a>(file: u32, text: &'a [u8], name: &'static str) -> Option<Given<'a>> {
    let (line, value) = placed::value(file, table::entry_named(file, name)?, text)?;
    Some(Given { name, line, value })
}

/// An entry of a file's first section, as it stands in a text that the library may not read.
pub fn written<'a>(file: u32, text: &'a [u8], name: &'static str) -> Option<Given<'a>> {
    let heading = mctc::heading_name(file, 0).ok()?;
    let (line, value) = table::line_of(text, &heading, name)?;
    Some(Given { name, line, value })
}

/// The line of an entry with another value.
pub fn with_value(file: u32, given: &Given, value: &[u8]) -> Edit {
    let text = [given.name.as_bytes(), b"=", value].concat();
    Edit {
        file,
        line: given.line,
        action: Action::Replace(text),
    }
}
