//! The files of a set on disk.

use std::collections::BTreeMap;
use std::ffi::{OsStr, OsString};
use std::fs::{self, File};
use std::io::{self, ErrorKind, Read};
use std::os::unix::ffi::OsStrExt;
use std::path::{Path, PathBuf};

use crate::file_types::{by_ending, place, split_name, COUNT};
use crate::near;
use crate::output::Trouble;
use crate::shown;

/// What is read of a file at most: one byte more than a file may have (01, Lines).
///
/// The library answers for the bytes that are read as it would for the whole file. Past 16,384 bytes files with lines are
/// refused with 3, whatever they hold; an old booking with category L is not read, whatever its length; past 512 bytes
/// the identification answer is refused with 14; and 11 asks only whether a file is empty. No refusal of these has a line.
const MOST_READ: u64 = MOST as u64 + 1;

/// 01, Lines: the most bytes of a file.
pub const MOST: usize = 16_384;

/// A file that was read.
pub struct FileOnDisk {
    /// Its name as it is shown.
    pub name: String,
    pub text: Vec<u8>,
}

/// The files of one stem.
pub struct SetOnDisk {
    pub stem: Vec<u8>,
    /// The folder has another set whose stem is this one in capitals.
    pub twin: bool,
    files: [Option<FileOnDisk>; COUNT],
    /// Names in the folder that have the stem, but none of a set's endings.
    pub others: Vec<OsString>,
}

/// The names in a folder that have one of a set's endings.
pub struct Folder {
    path: PathBuf,
    names: BTreeMap<Vec<u8>, Names>,
    /// All other names, sorted.
    others: Vec<OsString>,
}

/// The names of one stem, by the places of their files.
type Names = [Vec<OsString>; COUNT];

impl Folder {
    pub fn list(path: &Path) -> Result<Folder, Trouble> {
        let trouble = |error: io::Error| {
            let (path, why) = (shown::name(path), why(&error));
            Trouble(format!("{path}: {why}; name the folder of the sets"))
        };
        let mut names: BTreeMap<Vec<u8>, Names> = BTreeMap::new();
        let mut others = Vec::new();
        for entry in fs::read_dir(path).map_err(trouble)? {
            let name = entry.map_err(trouble)?.file_name();
            if let Some((stem, file)) = split_name(name.as_bytes()) {
                let files = names.entry(stem.to_vec()).or_default();
                if let Some(names) = place(file.number).and_then(|at| files.get_mut(at)) {
                    names.push(name);
                }
            } else {
                others.push(name);
            }
        }
        others.sort();
        Ok(Folder {
            path: path.to_path_buf(),
            names,
            others,
        })
    }

    /// All stems, in the order of their bytes.
    pub fn stems(&self) -> impl ExactSizeIterator<Item = &[u8]> {
        self.names.keys().map(Vec::as_slice)
    }

    /// Reads the files of a stem. Absent is not given; what cannot be read is trouble.
    pub fn set(&self, stem: &[u8]) -> Result<SetOnDisk, Trouble> {
        let capitals = stem.to_ascii_uppercase();
        let mut set = SetOnDisk {
            stem: stem.to_vec(),
            twin: capitals != stem && self.names.contains_key(&capitals),
            files: Default::default(),
            others: self.others_of(stem),
        };
        if let Some(names) = self.names.get(stem) {
            for (file, names) in set.files.iter_mut().zip(names) {
                *file = self.read_one_of(names)?;
            }
        }
        Ok(set)
    }

    /// The names that begin with a stem and a point; of an empty stem none.
    fn others_of(&self, stem: &[u8]) -> Vec<OsString> {
        let start = [stem, b"."].concat();
        let from = self
            .others
            .partition_point(|name| name.as_bytes() < start.as_slice());
        let others = self.others.iter().skip(from);
        let others = others.take_while(|name| name.as_bytes().starts_with(&start));
        others.filter(|_| !stem.is_empty()).cloned().collect()
    }

    /// Reads the files of a stem that the command names. One that no file has is most likely not the one that was meant.
    pub fn named_set(&self, stem: &[u8]) -> Result<SetOnDisk, Trouble> {
        if self.names.contains_key(stem) {
            return self.set(stem);
        }
        let (folder, shown) = (shown::name(&self.path), stem_shown(stem));
        let hint = self.hint(stem);
        Err(Trouble(format!(
            "{folder}: no file here has the stem {shown}; {hint}"
        )))
    }

    /// What may have been meant by a stem that no file has.
    fn hint(&self, stem: &[u8]) -> String {
        if let Some((short, _)) =
            split_name(stem).filter(|(short, _)| self.names.contains_key(*short))
        {
            return format!("name the stem without the ending: {}", stem_shown(short));
        }
        let alike = self.stems().find(|other| other.eq_ignore_ascii_case(stem));
        match alike.or_else(|| near::nearest_stem(stem, self.stems())) {
            Some(other) => {
                let files = self.names.get(other).into_iter().flatten().flatten();
                let file = files.map(shown::name).next().unwrap_or_default();
                format!("{file} is here: its stem is {}", stem_shown(other))
            }
            None => self.stems_in_short(),
        }
    }

    fn stems_in_short(&self) -> String {
        let stems: Vec<String> = self.stems().take(3).map(stem_shown).collect();
        match self.stems().len() {
            0 => "it has no file of a set".to_string(),
            count if count > stems.len() => {
                format!("it has {} and more, {count} in all", stems.join(", "))
            }
            _ => format!("it has {}", stems.join(", ")),
        }
    }

    /// The file with one of these names, which differ only in the case of their endings.
    fn read_one_of(&self, names: &[OsString]) -> Result<Option<FileOnDisk>, Trouble> {
        match names {
            [] => Ok(None),
            [name] => match read_file(&self.path.join(name), name) {
                Ok(file) => Ok(Some(file)),
                Err(Trouble(why)) => Err(Trouble(format!(
                    "{why}; mend this, or take it out of the folder if it is no part of the set"
                ))),
            },
            [..] => {
                let mut names: Vec<String> = names.iter().map(shown::name).collect();
                names.sort();
                Err(Trouble(format!(
                    "{}: {} differ only in capitals and small letters; remove all but one",
                    shown::name(&self.path),
                    names.join(" and ")
                )))
            }
        }
    }
}

impl SetOnDisk {
    pub fn file(&self, number: u32) -> Option<&FileOnDisk> {
        self.files.get(place(number)?)?.as_ref()
    }

    /// The text of a file, empty where it is absent.
    pub fn text(&self, number: u32) -> &[u8] {
        self.file(number).map_or(&[], |file| &file.text)
    }

    pub fn is_given(&self, number: u32) -> bool {
        !self.text(number).is_empty()
    }

    /// The names of the files that are there and empty.
    pub fn empty_files(&self) -> impl Iterator<Item = &str> {
        let there = self.files.iter().flatten();
        let empty = there.filter(|file| file.text.is_empty());
        empty.map(|file| file.name.as_str())
    }

    /// Of each name with the stem and another ending: that it is not read, and what it may be.
    pub fn near_names(&self) -> impl Iterator<Item = String> + '_ {
        self.others.iter().map(|name| {
            let shown = shown::value(name.as_bytes());
            let rest = name.as_bytes().get(self.stem.len() + 1..);
            let mut parts = rest
                .unwrap_or_default()
                .split(|byte| !byte.is_ascii_alphanumeric());
            let ending = parts.next().unwrap_or_default();
            match by_ending(ending) {
                Some(file) => format!(
                    "{shown} is not read, as its name does not end in .{}",
                    file.ending
                ),
                None => format!("{shown} is not read: its ending is none of a set"),
            }
        })
    }

    /// The stem as it is shown.
    pub fn stem_shown(&self) -> String {
        stem_shown(&self.stem)
    }
}

/// A stem as it is shown.
pub fn stem_shown(stem: &[u8]) -> String {
    shown::name(OsStr::from_bytes(stem))
}

/// Reads a file under the name that it is shown by. Only a regular file is opened: another kind may block or have no
/// end.
pub fn read_file(path: &Path, name: &OsStr) -> Result<FileOnDisk, Trouble> {
    let trouble = |why: &str| Trouble(format!("{}: {why}", shown::name(path)));
    let kind = fs::metadata(path).map_err(|error| match error.kind() {
        ErrorKind::NotFound if path.is_symlink() => {
            trouble("is a link to a file that does not exist")
        }
        _ => trouble(&why(&error)),
    })?;
    if kind.is_dir() {
        return Err(trouble("is a folder, not a file"));
    }
    if !kind.is_file() {
        return Err(trouble("is a device, pipe or socket, not a file"));
    }
    let text = read_start(path).map_err(|error| trouble(&why(&error)))?;
    Ok(FileOnDisk {
        name: shown::name(name),
        text,
    })
}

fn read_start(path: &Path) -> io::Result<Vec<u8>> {
    let mut text = Vec::new();
    File::open(path)?.take(MOST_READ).read_to_end(&mut text)?;
    Ok(text)
}

/// Why something on disk cannot be used.
fn why(error: &io::Error) -> String {
    match error.kind() {
        ErrorKind::NotFound => "does not exist".to_string(),
        ErrorKind::PermissionDenied => "may not be used: permission denied".to_string(),
        ErrorKind::NotADirectory => "is not a folder".to_string(),
        _ => format!("cannot be used: {error}"),
    }
}
