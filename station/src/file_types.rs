//! The files of a set, by number and by the ending of their names.

use crate::shown::listed;

/// The numbers of the files (01; 02, 2/14).
pub const AC2: u32 = 1;
pub const ACC: u32 = 2;
pub const DRIFT: u32 = 3;
pub const SUSPENSION: u32 = 4;
pub const GAS: u32 = 5;
pub const IDENTIFICATION: u32 = 6;
pub const OPACITY: u32 = 7;

/// One of the files.
#[derive(Debug, PartialEq, Eq)]
pub struct FileType {
    pub number: u32,
    /// The ending of its name, in capitals.
    pub ending: &'static str,
    /// What it is, in plain words.
    pub title: &'static str,
}

/// How many files a set has at most.
pub const COUNT: usize = 7;

/// In the order of their numbers, from 1 on: that of judging.
pub const FILE_TYPES: [FileType; COUNT] = [
    file_type(AC2, "AC2", "new booking"),
    file_type(ACC, "ACC", "old booking"),
    file_type(DRIFT, "DER", "drift"),
    file_type(SUSPENSION, "SOS", "suspension"),
    file_type(GAS, "GAS", "gas"),
    file_type(IDENTIFICATION, "ID", "identification"),
    file_type(OPACITY, "OPA", "opacity"),
];

const fn file_type(number: u32, ending: &'static str, title: &'static str) -> FileType {
    FileType {
        number,
        ending,
        title,
    }
}

impl FileType {
    /// Whether it has lines and entries, by the library; the identification answer has not.
    pub fn has_entries(&self) -> bool {
        mctc::entry_name(self.number, 0).is_ok()
    }
}

/// The place of a file among all.
pub fn place(number: u32) -> Option<usize> {
    FILE_TYPES.iter().position(|file| file.number == number)
}

/// The type with this number.
pub fn by_number(number: u32) -> Option<&'static FileType> {
    FILE_TYPES.get(place(number)?)
}

/// The stem of a file's name and the type that its ending says, in capitals or small letters.
pub fn split_name(name: &[u8]) -> Option<(&[u8], &'static FileType)> {
    let point = name.iter().rposition(|byte| *byte == b'.')?;
    let (stem, rest) = name.split_at(point);
    let ending = rest.get(1..)?;
    Some((stem, by_ending(ending)?))
}

/// The type with this ending, in capitals or small letters.
pub fn by_ending(ending: &[u8]) -> Option<&'static FileType> {
    let mut files = FILE_TYPES.iter();
    files.find(|file| ending.eq_ignore_ascii_case(file.ending.as_bytes()))
}

/// `.AC2, .ACC or ..`.
pub fn endings() -> String {
    let endings = FILE_TYPES.iter().map(|file| format!(".{}", file.ending));
    listed(&endings.collect::<Vec<_>>(), "or")
}

/// `1 new booking, 2 ..`.
pub fn numbers_and_titles(files: impl Iterator<Item = &'static FileType>) -> String {
    let words = files.map(|file| format!("{} {}", file.number, file.title));
    words.collect::<Vec<_>>().join(", ")
}
