//! The entries of a text that the library read: where its places say that they stand.

use mctc::Places;

use crate::json::Object;
use crate::shown;
use crate::table::{self, Entry, Section};

/// An entry of a text that the library read.
pub struct EntryRead {
    pub heading: String,
    /// Numbered from 0 in the order of the file's table.
    pub number: usize,
    pub name: String,
    pub line: u32,
    pub value: String,
}

impl EntryRead {
    pub fn is_filled(&self) -> bool {
        !self.value.is_empty()
    }

    /// For programs.
    pub fn json(&self) -> Object {
        Object::default()
            .string("heading", &self.heading)
            .string("entry", &self.name)
            .number("line", self.line)
            .string("value", &self.value)
    }
}

/// The entries of a text in table order, where its places say that they stand; of an axle that is not there none.
pub fn entries(file: u32, text: &[u8], places: &Places) -> Vec<EntryRead> {
    let sections = table::sections(file).into_iter();
    let entries = sections.flat_map(|section| {
        let Section { heading, entries } = section;
        entries
            .into_iter()
            .map(move |entry| (heading.clone(), entry))
    });
    let read = entries.filter_map(|(heading, entry)| {
        let Entry { number, name } = entry;
        let (line, value) = line_and_value(file, number, text, places)?;
        Some(EntryRead {
            heading,
            number,
            name,
            line,
            value: shown::bytes(value),
        })
    });
    read.collect()
}

/// A row for each entry, below the headings that they stand under.
pub fn under_headings<E>(
    entries: &[E],
    read: fn(&E) -> &EntryRead,
    row: impl Fn(&E) -> String,
) -> String {
    let sections = entries.chunk_by(|one, other| read(one).heading == read(other).heading);
    let sections = sections.map(|section| {
        let heading = section.first().map_or("", |entry| &read(entry).heading);
        let rows: String = section.iter().map(&row).collect();
        format!("{heading}\n{rows}")
    });
    sections.collect()
}

/// Where the places say that an entry of a text stands, and its value.
fn line_and_value<'a>(
    file: u32,
    entry: usize,
    text: &'a [u8],
    places: &Places,
) -> Option<(u32, &'a [u8])> {
    let value = text.get(places.value(file, entry)?)?;
    Some((places.line(file, entry)?, value))
}

/// The places of a text, where the library reads it.
pub fn read(file: u32, text: &[u8]) -> Option<Places> {
    let mut places = Places::default();
    mctc::read(file, text, &mut places).ok()?;
    Some(places)
}

/// Line and value of an entry of a text, where the library reads it.
pub fn value(file: u32, entry: usize, text: &[u8]) -> Option<(u32, &[u8])> {
    line_and_value(file, entry, text, &read(file, text)?)
}

/// The number of the entry that stands on a line of a text, where the library reads it.
pub fn entry_at(file: u32, text: &[u8], line: u32) -> Option<usize> {
    let places = read(file, text)?;
    let mut lines = (0..).map_while(|entry| places.line(file, entry));
    lines.position(|other| other == line)
}

#[cfg(test)]
mod tests {
    use super::entry_at;
    use crate::file_types::DRIFT;
    use crate::table;

    const THREE_AXLES: &[u8] = include_bytes!("../../samples/accepted-trailer/AC204711.der");

    #[test]
    fn entries_stand_where_the_places_say() {
        assert_eq!(entry_at(DRIFT, THREE_AXLES, 1), None, "the heading");
        assert_eq!(entry_at(DRIFT, THREE_AXLES, 2), Some(0));
        assert_eq!(entry_at(DRIFT, THREE_AXLES, 23), Some(18), "the third axle");
        for line in 0..=24 {
            let looked_for = table::entry_at(DRIFT, THREE_AXLES, line);
            assert_eq!(entry_at(DRIFT, THREE_AXLES, line), looked_for, "{line}");
        }
    }

    #[test]
    fn a_text_that_is_not_read_has_no_places() {
        let text = THREE_AXLES.strip_suffix(b"4\r\n").expect("12.34");
        let text = [text, b"\r\n"].concat();
        assert_eq!(
            entry_at(DRIFT, &text, 23),
            None,
            "12.3 is of the wrong kind"
        );
        assert_eq!(table::entry_at(DRIFT, &text, 23), Some(18));
    }
}
