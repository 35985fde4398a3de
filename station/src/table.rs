//! The headings and entries of a file, as the library names them.

use crate::shown;

/// A heading with its entries.
pub struct Section {
    pub heading: String,
    pub entries: Vec<Entry>,
}

/// An entry, numbered from 0 in the order of the file's table.
pub struct Entry {
    pub number: usize,
    pub name: String,
}

/// An entry as it stands in a text.
pub struct Given<'a> {
    pub name: &'static str,
    pub line: u32,
    pub value: &'a [u8],
}

impl Given<'_> {
    /// `line 8: Alimentazione_1=..`.
    pub fn words(&self) -> String {
        shown::entry_at(self.line, self.name.as_bytes(), self.value)
    }
}

/// The number of the first entry of this name.
pub fn entry_named(file: u32, name: &str) -> Option<usize> {
    let mut entries = (0..).map_while(|entry| mctc::entry_name(file, entry).ok());
    entries.position(|entry| entry.name == name)
}

/// All sections of a file in table order, those of nine axles too. A file without a table has none.
pub fn sections(file: u32) -> Vec<Section> {
    let mut sections: Vec<Section> = (0..)
        .map_while(|section| mctc::heading_name(file, section).ok())
        .map(|heading| Section {
            heading,
            entries: Vec::new(),
        })
        .collect();
    let entries = (0..).map_while(|entry| mctc::entry_name(file, entry).ok());
    for (number, entry) in entries.enumerate() {
        if let Some(section) = sections.get_mut(entry.section as usize) {
            section.entries.push(Entry {
                number,
                name: entry.name,
            });
        }
    }
    sections
}

/// The section with this heading.
pub fn section(file: u32, heading: &[u8]) -> Option<Section> {
    let mut sections = sections(file).into_iter();
    sections.find(|section| section.heading.as_bytes() == heading)
}

/// The headings of axles that have the letters of this one; none where it is no axle's.
pub fn axles_like<'a>(sections: &'a [Section], heading: &[u8]) -> Vec<&'a str> {
    let letters = |heading: &[u8]| -> Vec<u8> {
        let letters = heading.iter().filter(|byte| !byte.is_ascii_digit());
        letters.copied().collect()
    };
    let headings = sections.iter().map(|section| section.heading.as_str());
    let alike = headings.filter(|other| letters(other.as_bytes()) == letters(heading));
    let alike: Vec<&str> = alike.collect();
    if alike.len() > 1 {
        alike
    } else {
        Vec::new()
    }
}

/// The headings that stand on no line of a text.
pub fn absent_headings<'a>(sections: &'a [Section], text: &[u8]) -> Vec<&'a str> {
    let lines: Vec<&[u8]> = shown::lines_from(text, 1).into_iter().flatten().collect();
    let headings = sections.iter().map(|section| section.heading.as_str());
    let absent = headings.filter(|heading| !lines.contains(&heading.as_bytes()));
    absent.collect()
}

/// The first line on which a heading stands.
pub fn line_of_heading(text: &[u8], heading: &str) -> Option<u32> {
    let mut lines = (1..).zip(shown::lines_from(text, 1)?);
    let (line, _) = lines.find(|(_, line)| *line == heading.as_bytes())?;
    Some(line)
}

/// The last heading above a line, with its line.
pub fn heading_above(text: &[u8], line: u32) -> Option<(u32, &[u8])> {
    let lines = (1..line).zip(shown::lines_from(text, 1)?);
    lines.filter(|(_, line)| line.starts_with(b"[")).last()
}

/// The lines of the section whose heading stands at a line, without it.
pub fn lines_below(text: &[u8], heading: u32) -> impl Iterator<Item = (u32, &[u8])> {
    let below = heading.saturating_add(1);
    let lines = shown::lines_from(text, below).into_iter().flatten();
    (below..)
        .zip(lines)
        .take_while(|(_, line)| !line.starts_with(b"["))
}

/// The number of the entry that stands on a line, also of a text that the library does not read.
pub fn entry_at(file: u32, text: &[u8], line: u32) -> Option<usize> {
    let (_, heading) = heading_above(text, line)?;
    let (name, _) = shown::entry_on_line(text, line)?;
    let section = section(file, heading)?;
    let mut entries = section.entries.iter();
    let entry = entries.find(|entry| entry.name.as_bytes() == name)?;
    Some(entry.number)
}

/// The first line on which an entry stands under a heading, with its value.
pub fn line_of<'a>(text: &'a [u8], heading: &str, name: &str) -> Option<(u32, &'a [u8])> {
    let start = line_of_heading(text, heading)?;
    lines_below(text, start).find_map(|(number, line)| {
        let (other, value) = shown::entry(line)?;
        (other == name.as_bytes()).then_some((number, value))
    })
}

/// Row 7, with the place in the table. The first heading in table order that is not there is one that must be: all
/// before it are there, so it is a fixed section, axle 1, or an axle below one that is there.
pub fn missing_section(file: u32, text: &[u8]) -> Option<(usize, Section)> {
    let lines: Vec<&[u8]> = shown::lines_from(text, 1)?.collect();
    let mut sections = sections(file).into_iter().enumerate();
    sections.find(|(_, section)| !lines.contains(&section.heading.as_bytes()))
}

/// Row 8: the entries of the section at a line that stand on no line of it.
pub fn missing_entries(file: u32, text: &[u8], heading: u32) -> Vec<Entry> {
    let names: Vec<&[u8]> = lines_below(text, heading)
        .filter_map(|(_, line)| shown::entry(line))
        .map(|(name, _)| name)
        .collect();
    let line = shown::lines_from(text, heading).and_then(|mut lines| lines.next());
    let section = line.and_then(|line| section(file, line));
    let mut entries = section.map_or(Vec::new(), |section| section.entries);
    entries.retain(|entry| !names.contains(&entry.name.as_bytes()));
    entries
}

/// The number of the first of these.
pub fn first_missing_entry(file: u32, text: &[u8], heading: u32) -> usize {
    let missing = missing_entries(file, text, heading);
    missing.first().map_or(0, |entry| entry.number)
}
