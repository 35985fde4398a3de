//! A new file on disk, whole or not at all.
//!
//! A set may pass without a file that is empty. So nothing has the name of the new file before all its bytes are on the
//! disk: they come to a part beside it, whose name is that of no set's file, and then the part gets the name.
//!
//! On a disk without links (FAT, some network shares) an empty file claims the name, and then the part is renamed over it.
//! Where the program is killed or the power is cut between these two, the empty file may stay.

use std::fs::{self, File, OpenOptions};
use std::io::{self, ErrorKind};
use std::mem;
use std::os::unix::fs::FileExt;
use std::path::{Path, PathBuf};
use std::process;

use crate::output::{say, Trouble};
use crate::shown::{self, counted, listed};

/// Writes a file that does not exist yet, with these bytes.
pub fn write_new(path: &Path, bytes: &[u8]) -> Result<(), Trouble> {
    NewFile::reserved(path, bytes.len())?.write(bytes)
}

/// A file that does not exist yet, with room on the disk for all its bytes. What was made for it goes with this.
pub struct NewFile<'a> {
    path: &'a Path,
    length: usize,
    part: PathBuf,
    /// The part, open.
    file: File,
    /// What was made and is to be taken away again.
    made: Vec<PathBuf>,
}

impl<'a> NewFile<'a> {
    /// Reserves so many bytes. A file of that name stays as it is, and then nothing is made.
    pub fn reserved(path: &'a Path, length: usize) -> Result<NewFile<'a>, Trouble> {
        // Also a link that leads to no file.
        if path.symlink_metadata().is_ok() {
            return Err(Trouble(exists(path)));
        }
        let part = make_part(path);
        let (part, file) = part.map_err(|error| {
            let name = shown::name(path);
            Trouble(format!("{name} cannot be made there: {error}"))
        })?;
        let mut new = NewFile {
            path,
            length,
            made: vec![part.clone()],
            part,
            file,
        };
        // Zeros take up room on the disk; `set_len` makes a hole, which takes up none. Where a disk puts each change in a
        // new place, the bytes need room once more, and may still find none.
        let reserved = new.put(&vec![0; length]);
        reserved.map_err(|error| new.not_written(&error))?;
        Ok(new)
    }

    /// Writes the bytes over those that were reserved, which are as many, and only then gives the file its name.
    pub fn write(mut self, bytes: &[u8]) -> Result<(), Trouble> {
        assert_eq!(bytes.len(), self.length, "what was reserved");
        let written = self.put(bytes).and_then(|()| self.give_name());
        written.map_err(|error| self.not_written(&error))?;
        if let Some(left) = self.take_away() {
            let name = shown::name(self.path);
            say(&format!("mctc: note: {name} is written; {left}\n"));
        }
        // The bytes are on the disk, and now the name in its folder, too. Not every disk can be asked for that: on another
        // a power cut may still take the name, and the file is absent then, never a part; without links it may be the
        // empty one that claimed the name.
        let _ = File::open(folder(self.path)).and_then(|folder| folder.sync_all());
        Ok(())
    }

    /// Puts bytes on the disk, from the start of the part on.
    fn put(&self, bytes: &[u8]) -> io::Result<()> {
        self.file.write_all_at(bytes, 0)?;
        self.file.sync_all()
    }

    /// Gives the part its name as a second one: a link never takes the place of another file.
    fn give_name(&mut self) -> io::Result<()> {
        match fs::hard_link(&self.part, self.path) {
            Err(error) if is_of_no_links(&error) => self.rename(),
            linked => linked,
        }
    }

    /// Gives the part its name where a disk has no links. Renaming takes the place of another file, so an empty one claims
    /// the name first; it may stay where the program is killed or the power is cut between these two calls of the system.
    fn rename(&mut self) -> io::Result<()> {
        create(self.path)?;
        self.made.push(self.path.to_path_buf());
        fs::rename(&self.part, self.path)?;
        self.made.clear();
        Ok(())
    }

    /// Takes away what was made, and says why.
    fn not_written(&mut self, error: &io::Error) -> Trouble {
        let (name, length) = (shown::name(self.path), counted(self.length, "byte"));
        let why = match error.kind() {
            ErrorKind::StorageFull | ErrorKind::QuotaExceeded | ErrorKind::FileTooLarge => {
                format!("there is no room for its {length}")
            }
            _ => format!("its {length} cannot be put there"),
        };
        Trouble(match (error.kind(), self.take_away()) {
            (ErrorKind::AlreadyExists, None) => exists(self.path),
            (ErrorKind::AlreadyExists, Some(left)) => format!("{}; {left}", exists(self.path)),
            (_, None) => {
                format!("{name}: not written, {why} ({error}); nothing of it was left there")
            }
            (_, Some(left)) => format!("{name}: not written, {why} ({error}); {left}"),
        })
    }

    /// Takes away what was made. Where something stays, what is to be done.
    fn take_away(&mut self) -> Option<String> {
        let made = mem::take(&mut self.made).into_iter();
        let left: Vec<String> = made.filter_map(|path| not_removed(&path)).collect();
        (!left.is_empty()).then(|| format!("remove what is left, {}", listed(&left, "and")))
    }
}

impl Drop for NewFile<'_> {
    fn drop(&mut self) {
        let _ = self.take_away();
    }
}

/// Whether a link was refused as a disk without links does, FAT by the second of these, which is any want of
/// permission.
fn is_of_no_links(error: &io::Error) -> bool {
    matches!(
        error.kind(),
        ErrorKind::Unsupported | ErrorKind::PermissionDenied
    )
}

/// That there is such a file, and what to do.
fn exists(path: &Path) -> String {
    let name = shown::name(path);
    format!("{name} exists already and stays as it is; name a file that does not exist")
}

/// The folder in which a file stands.
fn folder(path: &Path) -> &Path {
    let folder = path.parent().filter(|folder| *folder != Path::new(""));
    folder.unwrap_or(Path::new("."))
}

/// Makes the part of a file. Its name is not made from the file's, which may be as long as a name can be.
fn make_part(path: &Path) -> io::Result<(PathBuf, File)> {
    let mut number = process::id();
    loop {
        let part = folder(path).join(format!(".mctc-{number}.part"));
        number = number.wrapping_add(1);
        // The name is that of the file itself.
        if part.file_name() == path.file_name() {
            continue;
        }
        match create(&part) {
            // A killed program of the same number left it, or one on another computer is at work.
            Err(error) if error.kind() == ErrorKind::AlreadyExists => {}
            made => return Ok((part, made?)),
        }
    }
}

/// Never a file that exists already.
fn create(path: &Path) -> io::Result<File> {
    OpenOptions::new().write(true).create_new(true).open(path)
}

/// Removes a file, which may be gone already. Where it stays, its name and why.
fn not_removed(path: &Path) -> Option<String> {
    let error = fs::remove_file(path).err()?;
    let name = shown::name(path);
    (error.kind() != ErrorKind::NotFound).then(|| format!("{name} ({error})"))
}

#[cfg(test)]
mod tests {
    use std::env;
    use std::os::unix::fs::{symlink, MetadataExt};

    use super::*;

    const BYTES: &[u8] = &[b'x'; 10_000];

    /// The path of a file that does not exist, in a folder of its own.
    fn absent(name: &str) -> PathBuf {
        let folder = env::temp_dir().join(format!("mctc-new-{}-{name}", process::id()));
        // A run that failed may have had the same number.
        let _ = fs::remove_dir_all(&folder);
        fs::create_dir(&folder).expect("a folder");
        folder.join("new")
    }

    /// The file has these bytes, and nothing else is left beside it.
    fn stands_alone(path: &Path, bytes: &[u8]) {
        assert_eq!(fs::read(path).expect("the file"), bytes);
        fs::remove_file(path).expect("it is removed");
        nothing_is_left(path);
    }

    /// Removes the folder, which must be empty.
    fn nothing_is_left(path: &Path) {
        fs::remove_dir(folder(path)).expect("nothing else is there");
    }

    /// A part that can only be read.
    fn read_only(path: &Path) -> NewFile<'_> {
        let mut new = NewFile::reserved(path, BYTES.len()).expect("room");
        new.file = File::open(&new.part).expect("the part");
        new
    }

    /// Whether a file takes up as much room as it has bytes. `blocks` counts by 512 bytes, whatever the disk's own.
    fn is_filled(path: &Path) -> bool {
        let found = fs::metadata(path).expect("the file");
        found.blocks() * 512 >= found.len()
    }

    #[test]
    fn room_is_made_before_the_bytes_come() {
        let path = absent("room");
        let new = NewFile::reserved(&path, BYTES.len()).expect("room");
        let found = fs::metadata(&new.part).expect("the part");
        assert_eq!(found.len(), BYTES.len() as u64);
        // Some disks keep zeros in less room.
        let zeros = path.with_extension("zeros");
        let file = File::create(&zeros).expect("a file");
        file.write_all_at(&vec![0; BYTES.len()], 0).expect("zeros");
        file.sync_all().expect("they are on the disk");
        assert!(is_filled(&new.part) || !is_filled(&zeros), "it is a hole");
        fs::remove_file(zeros).expect("it is removed");
        assert!(!path.exists(), "it has its name before its bytes");
        new.write(BYTES).expect("it is written");
        stands_alone(&path, BYTES);
    }

    #[test]
    fn a_file_that_is_not_written_is_taken_away() {
        let path = absent("given-up");
        let new = NewFile::reserved(&path, BYTES.len()).expect("room");
        assert!(new.part.exists());
        drop(new);
        nothing_is_left(&path);
    }

    #[test]
    fn a_file_that_cannot_be_written_is_taken_away() {
        let path = absent("read-only");
        let Trouble(why) = read_only(&path).write(BYTES).expect_err("no writing");
        assert!(why.contains(": not written, its 10000 bytes cannot be put there ("));
        assert!(why.ends_with("; nothing of it was left there"), "{why}");
        nothing_is_left(&path);
    }

    #[test]
    fn a_part_that_is_gone_is_not_left() {
        let path = absent("gone");
        let new = read_only(&path);
        fs::remove_file(&new.part).expect("another takes it away");
        let Trouble(why) = new.write(BYTES).expect_err("no writing");
        assert!(why.ends_with("; nothing of it was left there"), "{why}");
        nothing_is_left(&path);
    }

    #[test]
    fn what_cannot_be_taken_away_is_told() {
        let path = absent("stays");
        let new = read_only(&path);
        let part = new.part.clone();
        fs::remove_file(&part).expect("another takes it away");
        fs::create_dir(&part).expect("a folder in its place");
        let Trouble(why) = new.write(BYTES).expect_err("no writing");
        let left = format!("; remove what is left, {} (", shown::name(&part));
        assert!(why.contains(&left), "{why}");
        fs::remove_dir(part).expect("it is removed");
        nothing_is_left(&path);
    }

    /// Also a link that leads to no file.
    #[test]
    fn a_file_that_exists_stays() {
        let path = absent("there");
        fs::write(&path, "stays").expect("a file");
        let Trouble(why) = write_new(&path, BYTES).expect_err("it exists");
        assert_eq!(why, exists(&path));
        stands_alone(&path, b"stays");
        let path = absent("link");
        symlink("nothing", &path).expect("a link");
        let Trouble(why) = write_new(&path, BYTES).expect_err("it exists");
        assert_eq!(why, exists(&path));
        fs::remove_file(&path).expect("the link");
        nothing_is_left(&path);
    }

    #[test]
    fn a_file_that_another_made_meanwhile_stays() {
        let path = absent("meanwhile");
        let new = NewFile::reserved(&path, BYTES.len()).expect("room");
        fs::write(&path, "stays").expect("a file");
        let Trouble(why) = new.write(BYTES).expect_err("it exists");
        assert_eq!(why, exists(&path));
        stands_alone(&path, b"stays");
    }

    #[test]
    fn a_part_that_was_left_is_not_taken() {
        let path = absent("left");
        let first = NewFile::reserved(&path, BYTES.len()).expect("room");
        let second = NewFile::reserved(&path, BYTES.len()).expect("room");
        assert_ne!(first.part, second.part);
        second.write(BYTES).expect("it is written");
        first.write(BYTES).expect_err("it exists");
        stands_alone(&path, BYTES);
    }

    #[test]
    fn a_part_never_has_the_name_of_the_file() {
        let path = absent("own").with_file_name(format!(".mctc-{}.part", process::id()));
        write_new(&path, BYTES).expect("it is written");
        stands_alone(&path, BYTES);
    }

    /// By the system's numbers: EPERM of FAT, ENOSYS and EOPNOTSUPP; but not ENOENT, EIO, EEXIST, EXDEV, ENOSPC, EROFS,
    /// EMLINK and EDQUOT.
    #[test]
    fn a_disk_without_links_is_known_by_its_error() {
        let is_of_no_links = |number| super::is_of_no_links(&io::Error::from_raw_os_error(number));
        for number in [1, 38, 95] {
            assert!(is_of_no_links(number), "{number}");
        }
        for number in [2, 5, 17, 18, 28, 30, 31, 122] {
            assert!(!is_of_no_links(number), "{number}");
        }
    }

    #[test]
    fn a_link_that_fails_otherwise_claims_no_name() {
        let path = absent("no-claim");
        let mut new = NewFile::reserved(&path, BYTES.len()).expect("room");
        fs::remove_file(&new.part).expect("another takes it away");
        new.give_name().expect_err("there is nothing to be named");
        assert!(!path.exists(), "an empty file has the name");
        drop(new);
        nothing_is_left(&path);
    }

    #[test]
    fn without_links_the_name_is_claimed() {
        let path = absent("no-links");
        let mut new = NewFile::reserved(&path, BYTES.len()).expect("room");
        new.put(BYTES).expect("the bytes");
        new.rename().expect("it has its name");
        drop(new);
        stands_alone(&path, BYTES);
    }

    #[test]
    fn without_links_a_file_that_exists_stays() {
        let path = absent("no-links-there");
        let mut new = NewFile::reserved(&path, BYTES.len()).expect("room");
        fs::write(&path, "stays").expect("a file");
        let error = new.rename().expect_err("it exists");
        let Trouble(why) = new.not_written(&error);
        assert_eq!(why, exists(&path));
        drop(new);
        stands_alone(&path, b"stays");
    }

    #[test]
    fn without_links_a_claim_is_taken_away() {
        let path = absent("claim");
        let mut new = NewFile::reserved(&path, BYTES.len()).expect("room");
        fs::remove_file(&new.part).expect("another takes it away");
        let error = new.rename().expect_err("there is nothing to be named");
        let Trouble(why) = new.not_written(&error);
        assert!(why.ends_with("; nothing of it was left there"), "{why}");
        nothing_is_left(&path);
    }
}
