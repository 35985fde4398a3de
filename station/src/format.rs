//! `mctc format FILE`: the file written in table order, or only its length, or with `--mend` the file as it stands but for
//! its line ends.

use std::os::unix::ffi::OsStrExt;
use std::path::{Path, PathBuf};

use mctc::Refusal;

use crate::disk::{read_file, MOST};
use crate::file_types::{split_name, IDENTIFICATION};
use crate::identification;
use crate::line_ends::{self, Mended, NoText};
use crate::new_file::{write_new, NewFile};
use crate::output::{say, Output, Status, Trouble};
use crate::read::{FileRead, Input};
use crate::shown::{self, counted};

/// What is asked for of a file in table order.
#[derive(Debug, PartialEq, Eq)]
pub enum Wish {
    /// On standard output.
    Bytes,
    /// In a new file.
    NewFile(PathBuf),
    /// How many bytes it has, and nothing written.
    Length,
}

pub fn run(input: &Input, wish: &Wish, json: bool, out: &mut Output) -> Result<Status, Trouble> {
    let outcome = input.or_error(Outcome::of(input, wish), json, out)?;
    match json {
        true => out.text(&(outcome.json() + "\n"))?,
        false => outcome.print(out)?,
    }
    Ok(outcome.status())
}

/// What came of a file: what was asked for, done, or the refusal.
struct Outcome<'a> {
    read: FileRead,
    done: Result<Done<'a>, Refusal>,
}

enum Done<'a> {
    /// The file in table order.
    Bytes(Vec<u8>),
    /// It stands in this new file, with so many bytes.
    Written(&'a Path, usize),
    /// It has so many bytes.
    Quoted(usize),
}

/// Why what was asked for is not done: the library refuses the file, or the disk does not take the new one.
enum NotDone {
    Refused(Refusal),
    Troubled(Trouble),
}

impl From<Refusal> for NotDone {
    fn from(refusal: Refusal) -> NotDone {
        NotDone::Refused(refusal)
    }
}

impl From<Trouble> for NotDone {
    fn from(trouble: Trouble) -> NotDone {
        NotDone::Troubled(trouble)
    }
}

impl<'a> Outcome<'a> {
    fn of(input: &Input, wish: &'a Wish) -> Result<Outcome<'a>, Trouble> {
        let read = input.read()?;
        let done = match done(&read, wish) {
            Ok(done) => Ok(done),
            Err(NotDone::Refused(refusal)) => Err(refusal),
            Err(NotDone::Troubled(trouble)) => return Err(trouble),
        };
        Ok(Outcome { read, done })
    }

    fn status(&self) -> Status {
        Status::of(&self.done)
    }

    fn print(&self, out: &mut Output) -> Result<(), Trouble> {
        match &self.done {
            // Standard output is for what was asked for alone.
            Err(refusal) => say(&self.read.refused(*refusal)),
            Ok(Done::Bytes(text)) => out.bytes(text)?,
            Ok(Done::Written(path, length)) => {
                let name = shown::name(path);
                out.text(&format!("{name}: written in table order, {length} bytes\n"))?;
            }
            Ok(Done::Quoted(length)) => out.text(&format!("{length}\n"))?,
        }
        Ok(())
    }

    /// One object; the same members for acceptance and refusal.
    fn json(&self) -> String {
        let (length, new) = match &self.done {
            Err(_) => (0, None),
            Ok(Done::Bytes(text)) => (text.len(), None),
            Ok(Done::Written(path, length)) => (*length, Some(shown::name(path))),
            Ok(Done::Quoted(length)) => (*length, None),
        };
        let refusal = self.done.as_ref().err();
        let explained = refusal.map(|refusal| self.read.explained(*refusal));
        let about = self.read.about(explained.as_ref());
        let object = about
            .number("length", length as u64)
            .optional("new", new.as_deref());
        object.text()
    }
}

fn done<'a>(read: &FileRead, wish: &'a Wish) -> Result<Done<'a>, NotDone> {
    Ok(match wish {
        Wish::Bytes => Done::Bytes(read.in_table_order()?),
        Wish::NewFile(path) => Done::Written(path, write_quoted(read, path)?),
        Wish::Length => Done::Quoted(read.quoted()?),
    })
}

/// Quotes the length, has room for it, and only then asks for the bytes. The length.
fn write_quoted(read: &FileRead, path: &Path) -> Result<usize, NotDone> {
    let length = read.quoted()?;
    let new = NewFile::reserved(path, length)?;
    new.write(&read.committed(length)?)?;
    Ok(length)
}

/// Line ends and byte order mark mended, and nothing else; no verdict is asked for.
pub fn mend(path: &Path, new: Option<&Path>, out: &mut Output) -> Result<Status, Trouble> {
    let file = read_file(path, path.as_os_str())?;
    let name = &file.name;
    if file.text.len() > MOST {
        let why = format!("{name}: has more than {MOST} bytes, which no file of a set may have");
        return Err(Trouble(why));
    }
    let ending = path.file_name().map(OsStrExt::as_bytes);
    let is_answer = ending
        .and_then(split_name)
        .is_some_and(|(_, file)| file.number == IDENTIFICATION);
    if is_answer || file.text.first() == Some(&identification::START) {
        let why = format!("{name}: not mended, as an identification answer has no lines");
        return Err(Trouble(why));
    }
    if let Some(no_text) = NoText::of(&file.text) {
        let (cause, advice) = (no_text.cause(), no_text.advice(false));
        return Err(Trouble(format!("{name}: not mended, as {cause}; {advice}")));
    }
    let mended = line_ends::mended(&file.text);
    let changes = changes(&mended);
    match new {
        // Standard output is for the file alone.
        None => {
            out.bytes(&mended.text)?;
            say(&format!("mctc: {name}: {changes}\n"));
        }
        Some(path) => {
            write_new(path, &mended.text)?;
            let (new, bytes) = (shown::name(path), mended.text.len());
            out.text(&format!("{new}: written, {bytes} bytes; {changes}\n"))?;
        }
    }
    Ok(Status::Accepted)
}

fn changes(mended: &Mended) -> String {
    let mark = mended
        .mark
        .then(|| "byte order mark taken away".to_string());
    let ends = match mended.ends.wrong() {
        0 => None,
        count => Some(format!("{} made CR LF", counted(count, "line end"))),
    };
    let changes: Vec<String> = mark.into_iter().chain(ends).collect();
    let cut_off = match mended.ends.none {
        0 => "",
        _ => "; the last line had no end: compare the file with the device's, it may be cut off",
    };
    match changes.as_slice() {
        [] => "nothing was to be mended, every byte is the same".to_string(),
        changes => format!("{}; all else is the same{cut_off}", changes.join(", ")),
    }
}
