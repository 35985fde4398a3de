//! The program run as a user would run it.

use std::env;
use std::ffi::OsStr;
use std::fs;
use std::ops::Deref;
use std::path::{Path, PathBuf};
use std::process::{self, Command, Output};
use std::thread;

/// The endings of a set's files, in the order of their numbers.
pub const ENDINGS: [&str; 7] = ["AC2", "ACC", "DER", "SOS", "GAS", "ID", "OPA"];

/// The repository's root, where the samples are.
pub fn repository() -> PathBuf {
    let root = Path::new(env!("CARGO_MANIFEST_DIR")).parent();
    root.expect("a folder above").to_path_buf()
}

/// The samples with two drift files to be joined; all others are sets.
const JOINING: &str = "joining";

fn folders(path: &Path) -> Vec<PathBuf> {
    let entries = fs::read_dir(path).expect("a folder");
    let paths = entries.map(|entry| entry.expect("an entry").path());
    paths.filter(|path| path.is_dir()).collect()
}

/// The folders of the samples, each with one set.
pub fn sample_sets() -> Vec<PathBuf> {
    let mut sets = folders(&repository().join("samples"));
    sets.retain(|folder| !folder.ends_with(JOINING));
    sets
}

/// The folders of the samples with two drift files, first and second.
pub fn sample_pairs() -> Vec<PathBuf> {
    folders(&repository().join("samples").join(JOINING))
}

/// The program, to be run in this folder.
pub fn program(folder: &Path) -> Command {
    let mut command = Command::new(env!("CARGO_BIN_EXE_mctc"));
    command.current_dir(folder);
    command
}

pub fn run(folder: &Path, words: &[impl AsRef<OsStr>]) -> Output {
    let output = program(folder).args(words).output();
    output.expect("the program runs")
}

/// A folder for a test's own files, which goes with the test unless that fails. It lies outside the repository, where
/// `rt ci` takes no links.
pub struct Folder(PathBuf);

impl Deref for Folder {
    type Target = Path;

    fn deref(&self) -> &Path {
        &self.0
    }
}

impl Drop for Folder {
    fn drop(&mut self) {
        if !thread::panicking() {
            fs::remove_dir_all(&self.0).expect("the folder is removed");
        }
    }
}

/// An empty folder of this name.
pub fn empty_folder(name: &str) -> Folder {
    let folder = env::temp_dir().join(format!("mctc-{}-{name}", process::id()));
    // A run that failed may have had the same number.
    if folder.exists() {
        fs::remove_dir_all(&folder).expect("the folder of an earlier run is removed");
    }
    fs::create_dir(&folder).expect("a folder");
    Folder(folder)
}

/// A change to a sample: in the file with this ending, what stands there, and what stands instead.
pub type Change = (&'static str, &'static str, &'static str);

/// The files of a sample with changes, each with its name.
pub fn changed(sample: &str, changes: &[Change]) -> Vec<(PathBuf, Vec<u8>)> {
    let files = fs::read_dir(repository().join("samples").join(sample)).expect("a sample");
    let changed = files.map(|file| {
        let path = file.expect("a file").path();
        let ending = path.extension().expect("an ending");
        let mut text = fs::read(&path).expect("a file");
        for (_, old, new) in changes.iter().filter(|(file, ..)| ending == *file) {
            let before = String::from_utf8(text).expect("a text");
            assert!(before.contains(old), "{}: {old}", path.display());
            text = before.replace(old, new).into_bytes();
        }
        (PathBuf::from(path.file_name().expect("a name")), text)
    });
    changed.collect()
}

/// Writes a sample with changes into a folder, under another stem.
pub fn put_set(folder: &Path, stem: &str, sample: &str, changes: &[Change]) {
    for (name, text) in changed(sample, changes) {
        let ending = name.extension().expect("an ending");
        put(folder.join(stem).with_extension(ending), text);
    }
}

/// Writes a file, and the folders above it.
pub fn put(path: impl AsRef<Path>, bytes: impl AsRef<[u8]>) {
    let path = path.as_ref();
    fs::create_dir_all(path.parent().expect("a folder above")).expect("a folder");
    fs::write(path, bytes).expect("a file is written");
}
