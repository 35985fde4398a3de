//! `mctc explain ENTRY`: where entries of a name stand, what they look like and when they are filled.

use mctc::{Condition, Kind};

use crate::file_types::{FileType, FILE_TYPES};
use crate::kinds;
use crate::near::nearest;
use crate::out_of_date;
use crate::page::labelled;
use crate::reasons;
use crate::table::{self, Entry, Section};
use crate::words;

/// An entry of a file, and the headings that it stands under: one, or those of all axles.
pub struct Described {
    pub headings: String,
    pub name: String,
    kind: Kind,
    condition: Condition,
    file: &'static FileType,
}

impl Described {
    fn new(
        file: &'static FileType,
        sections: &[Section],
        section: &Section,
        entry: &Entry,
    ) -> Option<Described> {
        let number = u32::try_from(entry.number).ok()?;
        let headings = match table::axles_like(sections, section.heading.as_bytes()).as_slice() {
            [first, .., last] => format!("`{first}` to `{last}`"),
            _ => format!("`{}`", section.heading),
        };
        Some(Described {
            headings,
            name: entry.name.clone(),
            kind: mctc::kind(file.number, number).ok()?,
            condition: mctc::condition(file.number, number).ok()?,
            file,
        })
    }

    fn is_as(&self, other: &Described) -> bool {
        (&self.headings, &self.name) == (&other.headings, &other.name)
    }

    pub fn kind(&self) -> String {
        kinds::words(&self.kind)
    }

    pub fn filled(&self) -> String {
        reasons::when_filled(&self.condition)
    }

    /// The rule that its line is refused by, and what it decides for other lines.
    fn rules(&self, file: u32) -> String {
        let name = self.name.as_bytes();
        let rule = words::rule(file, name).map(|(_, rule)| rule);
        let rules = rule.into_iter().chain(out_of_date::decided_by(file, name));
        rules.map(|rule| labelled("rule", &rule)).collect()
    }

    fn page(&self) -> String {
        let FileType {
            number,
            ending,
            title,
        } = self.file;
        let file = format!("{ending} (file {number}, {title}), {}", self.headings);
        let mut page = labelled("file", &file);
        page += &labelled("kind", &self.kind());
        page += &labelled("filled", &self.filled());
        page + &self.rules(*number)
    }
}

/// The entries of a file in table order; those of the axles, which are the same, once.
pub fn of_file(file: &'static FileType) -> Vec<Described> {
    let sections = table::sections(file.number);
    let mut all: Vec<Described> = Vec::new();
    for section in &sections {
        for entry in &section.entries {
            let described = Described::new(file, &sections, section, entry);
            let is_new = |one: &Described| !all.iter().any(|other| one.is_as(other));
            all.extend(described.filter(is_new));
        }
    }
    all
}

/// All that is said of entries of this name; None where there is none.
pub fn page(name: &str) -> Option<String> {
    let all = FILE_TYPES.iter().flat_map(of_file);
    let pages: String = all
        .filter(|entry| entry.name == name)
        .map(|entry| entry.page())
        .collect();
    (!pages.is_empty()).then(|| format!("{name}\n{pages}"))
}

/// Which name is near one that no entry has.
pub fn near(written: &[u8]) -> Option<String> {
    let names: Vec<String> = FILE_TYPES
        .iter()
        .flat_map(of_file)
        .map(|entry| entry.name)
        .collect();
    nearest(written, names.iter().map(String::as_str)).map(String::from)
}
