//! `mctc read FILE`: one file alone, entry by entry.

use std::os::unix::ffi::OsStrExt;
use std::path::{Path, PathBuf};

use mctc::{FileAcceptance, Places, Refusal};

use crate::case::Case;
use crate::disk::{read_file, FileOnDisk};
use crate::explain::{explain, known_of_refusal, Explained, Subject};
use crate::file_types::{
    by_number, endings, numbers_and_titles, split_name, FILE_TYPES, IDENTIFICATION,
};
use crate::identification::{self, FieldRead};
use crate::json::Object;
use crate::output::{Output, Status, Trouble};
use crate::placed::{self, under_headings, EntryRead};
use crate::shown::{self, counted, IDLE_BY_HAND};

/// The file to be read: its path, and its number where the command says it.
#[derive(Debug, PartialEq, Eq)]
pub struct Input {
    pub path: PathBuf,
    pub number: Option<u32>,
}

/// A file that the library was asked to read.
pub struct FileRead {
    pub number: u32,
    pub file: FileOnDisk,
    pub places: Places,
    pub verdict: Result<FileAcceptance, Refusal>,
}

pub fn run(input: &Input, json: bool, out: &mut Output) -> Result<Status, Trouble> {
    let read = input.or_error(input.read(), json, out)?;
    let contents = read.contents();
    let text = match json {
        true => contents.json() + "\n",
        false => contents.page(),
    };
    out.text(&text)?;
    Ok(contents.status())
}

impl Input {
    pub fn read(&self) -> Result<FileRead, Trouble> {
        let number = match self.number {
            Some(number) => number,
            None => number_of(&self.path)?,
        };
        let file = read_file(&self.path, self.path.as_os_str())?;
        let mut places = Places::default();
        let verdict = mctc::read(number, &file.text, &mut places);
        Ok(FileRead {
            number,
            file,
            places,
            verdict,
        })
    }

    /// What came of the file. That it cannot be read or written is printed for programs too.
    pub fn or_error<T>(
        &self,
        outcome: Result<T, Trouble>,
        json: bool,
        out: &mut Output,
    ) -> Result<T, Trouble> {
        if let (Err(trouble), true) = (&outcome, json) {
            let object = Object::default().string("name", &shown::name(&self.path));
            out.text(&(object.string("error", &trouble.0).text() + "\n"))?;
        }
        outcome
    }
}

/// The number that the ending of a name says.
fn number_of(path: &Path) -> Result<u32, Trouble> {
    let name = path.file_name().unwrap_or_default();
    match split_name(name.as_bytes()) {
        Some((_, file)) => Ok(file.number),
        None => Err(Trouble(format!(
            "{}: the ending is not {}; add --file and the file's number ({})",
            shown::name(path),
            endings(),
            numbers_and_titles(FILE_TYPES.iter())
        ))),
    }
}

impl FileRead {
    fn contents(&self) -> Contents<'_> {
        let found = match self.number {
            IDENTIFICATION => identification::fields_read(&self.file.text).map(Found::Fields),
            number => self.verdict.map(|acceptance| {
                let entries = placed::entries(number, &self.file.text, &self.places);
                Found::Entries(acceptance, entries)
            }),
        };
        let found = found.map_err(|refusal| self.explained(refusal));
        Contents { read: self, found }
    }

    /// How many bytes the file has in table order.
    pub fn quoted(&self) -> Result<usize, Refusal> {
        let (text, axles) = (&self.file.text, self.verdict?.axles);
        mctc::quote(text, &self.places, self.number, axles)
    }

    /// The file in table order, of the length that was quoted.
    pub fn committed(&self, length: usize) -> Result<Vec<u8>, Refusal> {
        let (text, axles) = (&self.file.text, self.verdict?.axles);
        let mut output = vec![0; length];
        mctc::commit(text, &self.places, self.number, axles, length, &mut output)?;
        Ok(output)
    }

    /// The file in table order.
    pub fn in_table_order(&self) -> Result<Vec<u8>, Refusal> {
        self.committed(self.quoted()?)
    }

    pub fn explained(&self, refusal: Refusal) -> Explained {
        let case = Case::file(self.number, &self.file.text);
        explain(case, refusal, Some(Subject::alone(&self.file)))
    }

    /// For programs: the members that say which file it is, whether it is refused, what is known of that, and its axles.
    pub fn about(&self, explained: Option<&Explained>) -> Object {
        let FileRead { file, number, .. } = self;
        let refusal = explained.map(|explained| explained.refusal);
        let object = Object::default()
            .string("name", &file.name)
            .number("file", *number)
            .string("title", title(*number))
            .truth("accepted", explained.is_none())
            .number("number", refusal.map_or(0, |refusal| refusal.number))
            .number("line", refusal.map_or(0, |refusal| refusal.line));
        let axles = self.verdict.unwrap_or_default().axles;
        known_of_refusal(object, explained).number("axles", axles)
    }

    /// The refusal in plain words.
    pub fn refused(&self, refusal: Refusal) -> String {
        refused(&self.file.name, &self.explained(refusal))
    }
}

fn refused(name: &str, explained: &Explained) -> String {
    let number = explained.refusal.number;
    format!("{name}: refused, number {number}\n{}", explained.page())
}

/// What the library found in a file.
enum Found<'a> {
    Entries(FileAcceptance, Vec<EntryRead>),
    /// Of an identification answer, which has no lines.
    Fields(Vec<FieldRead<'a>>),
}

/// A file with what was found in it, or the refusal.
struct Contents<'a> {
    read: &'a FileRead,
    found: Result<Found<'a>, Explained>,
}

impl Contents<'_> {
    fn status(&self) -> Status {
        Status::of(&self.found)
    }

    fn page(&self) -> String {
        match &self.found {
            Ok(Found::Entries(acceptance, entries)) => self.entries_page(*acceptance, entries),
            Ok(Found::Fields(fields)) => self.title() + "\n" + &identification::page(fields),
            Err(explained) => refused(&self.read.file.name, explained),
        }
    }

    fn title(&self) -> String {
        let FileRead { file, number, .. } = self.read;
        format!("{}: {} (file {number})", file.name, title(*number))
    }

    fn entries_page(&self, acceptance: FileAcceptance, entries: &[EntryRead]) -> String {
        let mut page = self.title();
        if acceptance.axles > 0 {
            page += &format!(", {}", counted(acceptance.axles as usize, "axle"));
        }
        if acceptance.idle_by_hand {
            page += &format!(", {IDLE_BY_HAND}");
        }
        let width = entries.iter().map(|entry| entry.name.len()).max();
        let rows = under_headings(
            entries,
            |entry| entry,
            |entry| row(entry, width.unwrap_or_default()),
        );
        format!("{page}\n{:>6}\n{rows}", "line")
    }

    /// One object; the same members for acceptance and refusal.
    fn json(&self) -> String {
        let (idle_by_hand, entries, fields): (_, &[EntryRead], &[FieldRead]) = match &self.found {
            Ok(Found::Entries(acceptance, entries)) => (acceptance.idle_by_hand, entries, &[]),
            Ok(Found::Fields(fields)) => (false, &[], fields),
            Err(_) => (false, &[], &[]),
        };
        let about = self.read.about(self.found.as_ref().err());
        let object = about
            .truth("idle_by_hand", idle_by_hand)
            .objects("entries", entries.iter().map(EntryRead::json))
            .objects("fields", fields.iter().map(FieldRead::json));
        object.text()
    }
}

/// What a file is; nothing for a number that no file has.
fn title(number: u32) -> &'static str {
    by_number(number).map_or("", |file| file.title)
}

/// An entry with its value, behind its line.
fn row(entry: &EntryRead, width: usize) -> String {
    let EntryRead { name, line, .. } = entry;
    let value = match entry.is_filled() {
        true => format!(" {}", entry.value),
        false => String::new(),
    };
    format!("{line:>6}  {name:width$} ={value}\n")
}
