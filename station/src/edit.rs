//! Changes to a set that advice may ask for. Each is tried in memory before it is printed.

use crate::json::Object;
use crate::line_ends;
use crate::shown;

/// A change to one file, at a line or as a whole.
#[derive(Clone, Debug, PartialEq, Eq)]
pub struct Edit {
    /// 0 where the change is to the stem.
    pub file: u32,
    /// From 1; 0 for none.
    pub line: u32,
    pub action: Action,
}

#[derive(Clone, Debug, PartialEq, Eq)]
pub enum Action {
    /// The line has this text instead, ended by CR LF.
    Replace(Vec<u8>),
    Delete,
    /// A line with this text stands below it.
    Insert(Vec<u8>),
    /// Line ends and byte order mark as `mctc format --mend` mends them.
    LineEnds,
    /// The file, which has no lines, has this content.
    Content(Vec<u8>),
    /// All files of the set have this stem.
    Rename(Vec<u8>),
    /// A last resort: nothing stands behind the `=` of the line.
    Empty,
    /// A last resort: the file is taken out of the set.
    Remove,
}

impl Edit {
    /// The text of the file with this change.
    pub fn apply(&self, text: &[u8]) -> Vec<u8> {
        match &self.action {
            Action::LineEnds => line_ends::mended(text).text,
            Action::Content(content) => content.clone(),
            Action::Rename(_) => text.to_vec(),
            Action::Remove => Vec::new(),
            Action::Replace(_) | Action::Delete | Action::Insert(_) | Action::Empty => {
                self.apply_to_lines(text)
            }
        }
    }

    fn apply_to_lines(&self, text: &[u8]) -> Vec<u8> {
        let mut result = Vec::with_capacity(text.len());
        for (number, whole) in (1..).zip(text.split_inclusive(|byte| *byte == b'\n')) {
            if number == self.line {
                self.apply_to_line(whole, &mut result);
            } else {
                result.extend(whole);
            }
        }
        result
    }

    fn apply_to_line(&self, whole: &[u8], result: &mut Vec<u8>) {
        let parts: [&[u8]; 2] = match &self.action {
            Action::Replace(line) => [line, b"\r\n"],
            Action::Insert(line) => {
                result.extend(whole);
                [line, b"\r\n"]
            }
            Action::Empty => match shown::entry(whole) {
                Some((name, _)) => [name, b"=\r\n"],
                None => [whole, b""],
            },
            _ => [b"", b""],
        };
        parts.iter().for_each(|part| result.extend(*part));
    }

    /// What to do, as a sentence without its end.
    pub fn words(&self) -> String {
        let line = self.line;
        match &self.action {
            Action::Replace(text) => format!("write line {line} as {}", shown::value(text)),
            Action::Delete => format!("delete line {line}"),
            Action::Insert(text) => {
                format!("add {} as a line below line {line}", shown::value(text))
            }
            Action::LineEnds => "let `mctc format --mend` write the file anew".to_string(),
            Action::Content(_) => "write the file anew without them".to_string(),
            Action::Rename(stem) => {
                format!("give all files of the set the stem {}", shown::value(stem))
            }
            Action::Empty => format!("leave nothing behind the `=` of line {line}"),
            Action::Remove => "take the file out of the set".to_string(),
        }
    }

    /// For programs. Each byte of the text is the character with its number.
    pub fn json(&self) -> Object {
        let (action, text) = match &self.action {
            Action::Replace(text) => ("replace", Some(text)),
            Action::Delete => ("delete", None),
            Action::Insert(text) => ("insert", Some(text)),
            Action::LineEnds => ("line ends", None),
            Action::Content(text) => ("content", Some(text)),
            Action::Rename(stem) => ("rename", Some(stem)),
            Action::Empty => ("empty", None),
            Action::Remove => ("remove", None),
        };
        let text = text.map(|text| {
            text.iter()
                .map(|byte| char::from(*byte))
                .collect::<String>()
        });
        Object::default()
            .number("file", self.file)
            .number("line", self.line)
            .string("action", action)
            .optional("text", text.as_deref())
    }
}
