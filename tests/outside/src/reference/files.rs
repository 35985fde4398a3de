//! 01, Judging: one file, numbers 3 to 9.

use super::kinds;
use super::lines::{line_at, Line, LONGEST_FILE};
use super::places::{put_triples, Triple};
use super::tables::{table, Entry, Table, MOST_AXLES};
use super::Refusal;

/// Where a section stands: its heading's line, and its entries in table order.
#[derive(Clone, Debug)]
struct SectionFound {
    line: u32,
    entries: Vec<Option<Triple>>,
}

/// What the lines of a file hold.
struct LinesFound {
    /// In table order; None where the section's heading does not stand.
    sections: Vec<Option<SectionFound>>,
    names_compared: u32,
}

/// A file that passed 3 to 9.
pub struct FileRead<'a> {
    pub table: &'static Table,
    pub text: &'a [u8],
    pub axles: usize,
    /// 02, 4/14: "for each entry line, the place of its name in its section's table, counted from 1", in all.
    pub names_compared: u32,
    /// Sections in table order (axles 1 to the count), entries in table order.
    sections: Vec<Vec<Triple>>,
}

impl<'a> FileRead<'a> {
    /// The value of a found entry.
    pub fn bytes(&self, found: Triple) -> &'a [u8] {
        found.value(self.text)
    }

    /// An entry of a fixed section, by its name.
    pub fn entry(&self, name: &str) -> Triple {
        for (section, found) in self.table.sections(0).iter().zip(&self.sections) {
            if let Some(at) = section.entries.iter().position(|entry| entry.name == name) {
                return found[at];
            }
        }
        panic!("no entry {name} in file {}", self.table.file)
    }

    /// The value of an entry of a fixed section.
    pub fn value(&self, name: &str) -> &'a [u8] {
        self.bytes(self.entry(name))
    }

    /// The line of an entry of a fixed section.
    pub fn line(&self, name: &str) -> u32 {
        self.entry(name).line
    }

    pub fn is_filled(&self, name: &str) -> bool {
        self.entry(name).length > 0
    }

    /// The entries of axle 1 to the count.
    pub fn axle(&self, axle: usize) -> &[Triple] {
        &self.sections[self.table.fixed + axle - 1]
    }

    /// All entries in entry order.
    pub fn entries(&self) -> impl Iterator<Item = (&'static Entry, Triple)> + '_ {
        let sections = self.table.sections(self.axles).iter().zip(&self.sections);
        sections.flat_map(|(section, found)| section.entries.iter().zip(found.iter().copied()))
    }

    /// 01, Judging: "for each entry start and length of its value in its file, entries in
    /// the order above, axles by number"; 02, 7/14: and the line on which it stands.
    pub fn fill_places(&self, places: &mut [u32]) {
        let found = self.entries().map(|(_, found)| found);
        put_triples(places, self.table.file, found);
    }
}

/// 01, Judging: "Per file .. 3, the first line with 4, 5 or 6, then 7, 8, all of 9".
pub fn read_file(file: u32, text: &[u8]) -> Result<FileRead<'_>, Refusal> {
    let table = table(file);
    judge_length(table, text)?;
    let found = find_lines(table, text)?;
    let axles = judge_sections(table, &found.sections)?;
    let sections = judge_presence(table, axles, &found.sections)?;
    let read = FileRead {
        table,
        text,
        axles,
        names_compared: found.names_compared,
        sections,
    };
    judge_kinds(&read)?;
    Ok(read)
}

/// 01, row 3: "file too long (0)".
fn judge_length(table: &Table, text: &[u8]) -> Result<(), Refusal> {
    if text.len() > LONGEST_FILE {
        return Err(Refusal::new(3, table.file, 0));
    }
    Ok(())
}

/// 01, rows 4, 5, 6: the lines in their order, each with its form, its heading or entry.
fn find_lines(table: &Table, text: &[u8]) -> Result<LinesFound, Refusal> {
    let mut found: Vec<Option<SectionFound>> = vec![None; table.sections.len()];
    let mut names_compared = 0;
    let mut current: Option<usize> = None;
    let mut position = 0;
    let mut line = 0;
    while position < text.len() {
        line += 1;
        let refused = |number| Refusal::new(number, table.file, line);
        let (content, after) = line_at(text, position).ok_or(refused(4))?;
        match content {
            Line::Heading(heading) => {
                // 01, row 5: "heading not of this file, or repeated".
                let at = table
                    .sections
                    .iter()
                    .position(|section| section.heading.as_bytes() == heading)
                    .ok_or(refused(5))?;
                if found[at].is_some() {
                    return Err(refused(5));
                }
                found[at] = Some(SectionFound {
                    line,
                    entries: vec![None; table.sections[at].entries.len()],
                });
                current = Some(at);
            }
            Line::Entry {
                name,
                start,
                length,
            } => {
                // 01, Lines: an entry "follows some heading".
                let at = current.ok_or(refused(4))?;
                // 01, row 6: "entry unknown here or repeated".
                let entry = table.sections[at]
                    .entries
                    .iter()
                    .position(|entry| entry.name.as_bytes() == name)
                    .ok_or(refused(6))?;
                names_compared += entry as u32 + 1;
                let section = found[at].as_mut().expect("the current section is found");
                if section.entries[entry].is_some() {
                    return Err(refused(6));
                }
                // 02, 7/14: the line, one more than the lines before it.
                section.entries[entry] = Some(Triple {
                    start: start as u32,
                    length: length as u32,
                    line,
                });
            }
        }
        position = after;
    }
    Ok(LinesFound {
        sections: found,
        names_compared,
    })
}

/// 01, row 7: "section absent (0)"; axles "from 1 without a gap: 1 to 9". The axle count.
fn judge_sections(table: &Table, found: &[Option<SectionFound>]) -> Result<usize, Refusal> {
    let absent = Refusal::new(7, table.file, 0);
    let (fixed, axles) = found.split_at(table.fixed);
    if fixed.iter().any(Option::is_none) {
        return Err(absent);
    }
    if !table.has_axles() {
        return Ok(0);
    }
    let count = axles.iter().take_while(|axle| axle.is_some()).count();
    let beyond = axles[count..].iter().any(Option::is_some);
    if count == 0 || beyond {
        return Err(absent);
    }
    debug_assert!(count <= MOST_AXLES);
    Ok(count)
}

/// 01, row 8: "entry absent (heading's line)", in entry order.
fn judge_presence(
    table: &Table,
    axles: usize,
    found: &[Option<SectionFound>],
) -> Result<Vec<Vec<Triple>>, Refusal> {
    let mut sections = Vec::new();
    for section in &found[..table.fixed + axles] {
        let section = section.as_ref().expect("7 is judged before 8");
        let absent = Refusal::new(8, table.file, section.line);
        let entries: Option<Vec<Triple>> = section.entries.iter().copied().collect();
        sections.push(entries.ok_or(absent)?);
    }
    Ok(sections)
}

/// 01, row 9: "wrong kind" of a filled value, in entry order.
fn judge_kinds(read: &FileRead) -> Result<(), Refusal> {
    for (entry, found) in read.entries() {
        if found.length > 0 && !kinds::fits(entry.kind, read.bytes(found)) {
            return Err(Refusal::new(9, read.table.file, found.line));
        }
    }
    Ok(())
}
