//! 01, Writing: one file from text, places, file and axle count; 02, 9/14: its length quoted, and the file committed.

use super::kinds;
use super::places::{triples_of, Triple};
use super::tables::{table, Entry, Section, FILES, MOST_AXLES};
use super::{Refusal, PLACES};

/// An entry to be written: the line that it would have, and start and length of its value.
struct EntryDue<'a> {
    entry: &'a Entry,
    line: u32,
    start: u32,
    length: u32,
}

/// 01, Writing: "the answer is its length, later output bytes stay. Order 1, 16, 17, 9, 18;
/// refused, the output stays." 02, 9/14: "The old call remains as the two together."
pub fn write_file(
    text: &[u8],
    places: &[u32],
    file: u32,
    axles: u32,
    output: &mut [u8],
) -> Result<usize, Refusal> {
    let length = quote(text, places, file, axles)?;
    commit(text, places, file, axles, length as u32, output)
}

/// 02, 9/14: "a quote, which runs all checks but the output's size and gives the length"; "the quote touches no output".
pub fn quote(text: &[u8], places: &[u32], file: u32, axles: u32) -> Result<usize, Refusal> {
    let file = checked_file(text, places, file, axles)?;
    Ok(file.len())
}

/// 02, 9/14: "a commit, which takes that length and writes"; "A commit on the same inputs with the quoted length and enough
/// output always writes the file that was quoted". "Errors: 22, length differs from the quote, after 9 and before 18."
pub fn commit(
    text: &[u8],
    places: &[u32],
    file: u32,
    axles: u32,
    length: u32,
    output: &mut [u8],
) -> Result<usize, Refusal> {
    let bytes = checked_file(text, places, file, axles)?;
    // As other refusals of writing, it carries the file as handed in.
    if length as usize != bytes.len() {
        return Err(Refusal::new(22, file, 0));
    }
    // 01, row 18: "output too short".
    let written = output.get_mut(..bytes.len());
    let written = written.ok_or(Refusal::new(18, file, 0))?;
    written.copy_from_slice(&bytes);
    Ok(bytes.len())
}

/// The bytes of a file that passes 1, 16, 17 and 9, in this order.
fn checked_file(text: &[u8], places: &[u32], file: u32, axles: u32) -> Result<Vec<u8>, Refusal> {
    // 01, row 1; Writing: "(0 with 1)".
    if places.len() < PLACES {
        return Err(Refusal::new(1, 0, 0));
    }
    // 01, row 16: "file not 1 to 5"; 02, 2/14: it "now lets through" file 7.
    if !FILES.contains(&file) || !may_have_axles(file, axles) {
        return Err(Refusal::new(16, file, 0));
    }
    let sections = table(file).sections(axles as usize);
    let entries = entries_due(sections, triples_of(file, places));
    // 01, row 17: "start plus length of a pair of this file and its axles is above the
    // text's length, for length 0 too".
    for due in &entries {
        if u64::from(due.start) + u64::from(due.length) > text.len() as u64 {
            return Err(Refusal::new(17, file, due.line));
        }
    }
    let value = |due: &EntryDue| {
        let start = due.start as usize;
        &text[start..start + due.length as usize]
    };
    // 01, row 9: the kinds of the filled values.
    for due in &entries {
        if due.length > 0 && !kinds::fits(due.entry.kind, value(due)) {
            return Err(Refusal::new(9, file, due.line));
        }
    }
    Ok(bytes_of(sections, entries.iter().map(value)))
}

/// "one file is written in table order, axles by number, an empty value for length 0".
fn bytes_of<'a>(sections: &[Section], mut values: impl Iterator<Item = &'a [u8]>) -> Vec<u8> {
    let mut bytes = Vec::new();
    for section in sections {
        bytes.extend(section.heading.as_bytes());
        bytes.extend(b"\r\n");
        for entry in &section.entries {
            bytes.extend(entry.name.as_bytes());
            bytes.push(b'=');
            bytes.extend(values.next().expect("one value for each entry"));
            bytes.extend(b"\r\n");
        }
    }
    bytes
}

/// 01, row 16: "axles not 1 to 9 in 3, 4, or not 0 in 1, 2, 5"; 02, 2/14: "written as file 7 with 0 axles".
fn may_have_axles(file: u32, axles: u32) -> bool {
    if table(file).has_axles() {
        (1..=MOST_AXLES as u32).contains(&axles)
    } else {
        axles == 0
    }
}

/// The entries of these sections in table order, each with "the line that the entry would
/// have". 02, 7/14: "Writing ignores the third number."
fn entries_due(
    sections: &[Section],
    mut triples: impl Iterator<Item = Triple>,
) -> Vec<EntryDue<'_>> {
    let mut entries = Vec::new();
    let mut line = 0;
    for section in sections {
        line += 1;
        for entry in &section.entries {
            line += 1;
            let Triple { start, length, .. } = triples.next().expect("one for each entry");
            entries.push(EntryDue {
                entry,
                line,
                start,
                length,
            });
        }
    }
    entries
}
