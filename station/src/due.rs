//! `mctc due FOLDER STEM`: the verdict, and file by file and entry by entry what is due and what is found, on which line.

use std::ffi::OsStr;
use std::path::Path;

use crate::columns::{DueAndFound, EntryFound, FileFound, NoColumn};
use crate::explain::Explained;
use crate::file_types::FILE_TYPES;
use crate::json::Object;
use crate::judge::{counts_as_not_given, named_set, Judged};
use crate::output::{Output, Status, Trouble};
use crate::page::labelled;
use crate::placed::under_headings;

/// What is asked for.
#[derive(Clone, Copy, Debug, PartialEq, Eq)]
pub struct Wish {
    /// For programs.
    pub json: bool,
    /// Only what disagrees or is refused.
    pub only_marked: bool,
}

pub fn run(folder: &Path, stem: &OsStr, wish: Wish, out: &mut Output) -> Result<Status, Trouble> {
    let set = named_set(folder, stem, wish.json, out)?;
    let files = FILE_TYPES.iter().map(|file| FileFound::of(&set, file));
    let files: Vec<FileFound> = match wish.only_marked {
        true => files.filter_map(FileFound::marked).collect(),
        false => files.collect(),
    };
    let judged = Judged::new(set, false);
    let status = match files.iter().any(FileFound::is_marked) {
        true => Status::Refused,
        false => judged.status(),
    };
    let text = match wish.json {
        true => json(&judged, &files) + "\n",
        false => page(&judged, &files, wish.only_marked),
    };
    out.text(&text)?;
    Ok(status)
}

/// The verdict, a row for each file, and the part of each file.
fn page(judged: &Judged, files: &[FileFound], only_marked: bool) -> String {
    let mut page = judged.verdict_lines();
    let rows = files
        .iter()
        .filter(|file| !only_marked || file.due_and_found.disagrees());
    let rows: String = rows.map(file_row).collect();
    if !rows.is_empty() {
        page += &format!("{}\n{rows}", columns("file", "due", "found").trim_end());
    }
    let parts = files
        .iter()
        .filter(|file| !only_marked || file.has_marked_column());
    page.extend(parts.map(part));
    if only_marked && files.is_empty() && judged.status() == Status::Accepted {
        page += "\nNothing is marked.\n";
    }
    page
}

/// Whether a file is due and whether it is given.
fn file_row(file: &FileFound) -> String {
    let name = format!("{} {}", file.file.number, file.file.title);
    let found = file.due_and_found;
    let columns = columns(&name, found.due().unwrap_or("unknown"), found.found());
    let row = format!("{columns}  {}", mark(found));
    format!("{}\n{}", row.trim_end(), why(file.why.as_deref()))
}

/// The entries of a file, or why there are none.
fn part(file: &FileFound) -> String {
    let (number, title) = (file.file.number, file.file.title);
    let name = file.name.as_deref().unwrap_or("not given");
    let text = match &file.column {
        Ok(entries) => {
            let head = format!("{} line", columns("", "due", "found"));
            let rows = under_headings(entries, |entry| &entry.read, entry_row);
            let disagreeing = match file.disagreeing() {
                0 => String::new(),
                count => format!("  entries that disagree: {count}\n"),
            };
            format!("{name}\n{head}\n{rows}{disagreeing}")
        }
        Err(none) => no_column(name, none),
    };
    format!("\nFile {number}, {title}: {text}")
}

fn no_column(name: &str, none: &NoColumn) -> String {
    let words = none.words();
    match none {
        NoColumn::NotGiven => words + "\n",
        NoColumn::Empty => counts_as_not_given(name) + "\n",
        NoColumn::NoEntries | NoColumn::NotRead => format!("{name}, {words}\n"),
        NoColumn::BookingRefused => format!("{name}\n  no column: {words}\n"),
        NoColumn::Refused(explained) => {
            format!("{name}\n  no column: {words}\n{}", explained.page())
        }
    }
}

/// Whether an entry is due and whether it is filled, and its line. At most 78 columns: no name has more than 34.
fn entry_row(entry: &EntryFound) -> String {
    let found = entry.due_and_found;
    let due = found.due().unwrap_or_default();
    let columns = columns(&entry.read.name, due, found.found());
    let row = format!("{columns} {:>4} {}", entry.read.line, mark(found));
    format!("{}\n{}", row.trim_end(), why(entry.why.as_deref()))
}

/// What the rows of files and of entries begin with.
fn columns(name: &str, due: &str, found: &str) -> String {
    format!("  {name:34}  {due:7}  {found:6}")
}

/// Behind what disagrees.
fn mark(found: DueAndFound) -> String {
    let words = found.disagreement();
    words.map_or(String::new(), |words| format!("<-- {words}"))
}

/// Below what disagrees.
fn why(words: Option<&str>) -> String {
    words.map_or(String::new(), |words| labelled("  why", words))
}

/// One object.
fn json(judged: &Judged, files: &[FileFound]) -> String {
    let files = files.iter().map(file_json);
    judged.verdict_json().objects("files", files).text()
}

fn file_json(file: &FileFound) -> Object {
    let object = Object::default()
        .number("file", file.file.number)
        .string("title", file.file.title)
        .optional("name", file.name.as_deref());
    let object = with_due_and_found(object, file.due_and_found, file.why.as_deref());
    let none = file.column.as_ref().err();
    let words = none.map(NoColumn::words);
    let refusal = none.and_then(NoColumn::refusal);
    let entries = file.column.iter().flatten();
    object
        .optional("no_column", words.as_deref())
        .object("refusal", refusal.map(Explained::json))
        .objects("entries", entries.map(entry_json))
}

fn entry_json(entry: &EntryFound) -> Object {
    with_due_and_found(entry.read.json(), entry.due_and_found, entry.why.as_deref())
}

fn with_due_and_found(object: Object, found: DueAndFound, why: Option<&str>) -> Object {
    object
        .optional("due", found.due())
        .string("found", found.found())
        .truth("disagrees", found.disagrees())
        .optional("why", why)
}

#[cfg(test)]
mod tests {
    use super::{entry_row, DueAndFound, EntryFound};
    use crate::placed::EntryRead;
    use mctc::Due;

    #[test]
    fn rows_have_at_most_78_columns() {
        let entry = EntryFound {
            read: EntryRead {
                heading: "[AnalisiGas]".to_string(),
                number: 19,
                name: "NumVersioneProtocolloProvaVelocita".to_string(),
                line: 31,
                value: "200".to_string(),
            },
            due_and_found: DueAndFound::entry(Due::NotDue, true),
            why: None,
        };
        let row = entry_row(&entry);
        assert_eq!(
            row,
            "  NumVersioneProtocolloProvaVelocita  not due  filled   31 <-- filled, not due\n"
        );
        assert_eq!(row.trim_end().len(), 78);
    }
}
