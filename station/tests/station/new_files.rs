//! New files (02, 9/14): the length that is quoted for one, and what is left of one that cannot be written whole.

use std::fs;
use std::path::{Path, PathBuf};
use std::process::{Command, ExitStatus, Output};

use crate::common::{empty_folder, put_set, repository, run, sample_sets};

const DRIFT: &str = "samples/accepted-car/AA123456.DER";
const GAS: &str = "samples/accepted-car/AA123456.GAS";
const PAIR: [&str; 2] = [
    "samples/joining/accepted/first.DER",
    "samples/joining/accepted/second.DER",
];

/// The commands that write a new file, without its name.
fn writing() -> [Vec<&'static str>; 4] {
    let [first, second] = PAIR;
    [
        vec!["format", GAS],
        vec!["format", DRIFT],
        vec!["format", "--mend", GAS],
        vec!["join", first, second],
    ]
}

/// The command with a new file.
fn to_new(words: &[&str], new: &Path) -> Vec<PathBuf> {
    let words = words.iter().chain(&["--output"]).map(PathBuf::from);
    words.chain([new.to_path_buf()]).collect()
}

fn said(output: &Output) -> String {
    String::from_utf8_lossy(&output.stderr).into_owned()
}

/// The names in a folder.
fn names(folder: &Path) -> Vec<String> {
    let files = fs::read_dir(folder).expect("a folder");
    let names = files.map(|file| file.expect("a file").file_name());
    names.map(|name| name.display().to_string()).collect()
}

/// The files of all sample sets.
fn sample_files() -> Vec<PathBuf> {
    let sets = sample_sets().into_iter();
    let files = sets.flat_map(|set| fs::read_dir(set).expect("a sample"));
    files.map(|file| file.expect("a file").path()).collect()
}

/// `--length` says how long the file is that `format` prints, and that it writes; or refuses as they do.
#[test]
fn the_length_is_that_of_the_file() {
    let folder = empty_folder("lengths");
    let mut written = 0;
    for file in sample_files() {
        let formatted = |more: &[&Path]| {
            let words = [Path::new("format"), &file];
            run(&folder, &[&words, more].concat())
        };
        let new = folder.join("new");
        let printed = formatted(&[]);
        let length = formatted(&["--length".as_ref()]);
        let output = formatted(&["--output".as_ref(), &new]);
        let name = file.display();
        assert_eq!(length.status, printed.status, "{name}");
        assert_eq!(output.status, printed.status, "{name}");
        assert_eq!(said(&length), said(&printed), "{name}");
        assert_eq!(said(&output), said(&printed), "{name}");
        if printed.status.success() {
            let right = format!("{}\n", printed.stdout.len());
            assert_eq!(String::from_utf8_lossy(&length.stdout), right, "{name}");
            assert_eq!(fs::read(&new).expect("the file"), printed.stdout, "{name}");
            fs::remove_file(new).expect("it is removed");
            written += 1;
        } else {
            assert!(length.stdout.is_empty(), "{name}");
            assert!(!new.exists(), "{name}: a file was made");
        }
    }
    assert!(written > 40, "{written} files were written");
}

/// What a command says of a file for programs, and its exit status. It says nothing else.
fn told(command: &str, file: &Path, more: &[&Path]) -> (ExitStatus, String) {
    let words = [Path::new(command), file, Path::new("--json")];
    let output = run(&repository(), &[&words, more].concat());
    assert!(output.stderr.is_empty(), "{}", said(&output));
    let object = String::from_utf8_lossy(&output.stdout).into_owned();
    (output.status, object)
}

/// The bytes of a file, which is removed; None where there is none.
fn taken(path: &Path) -> Option<Vec<u8>> {
    let bytes = fs::read(path).ok()?;
    fs::remove_file(path).expect("it is removed");
    Some(bytes)
}

/// With `--json` the exit status stays, and one object says of the file what that of `mctc read` does, then its length and
/// the new file.
#[test]
fn programs_are_told_the_same() {
    let folder = empty_folder("told");
    let new = folder.join("new");
    let (length, output) = ([Path::new("--length")], [Path::new("--output"), &new]);
    for file in sample_files() {
        let printed = run(&repository(), &[Path::new("format"), &file]);
        let (_, read) = told("read", &file, &[]);
        for more in [&length[..], &output] {
            let (status, object) = told("format", &file, more);
            assert_eq!(status, printed.status, "{object}");
            let written = taken(&new);
            let is_due = more.len() == output.len() && status.success();
            assert_eq!(
                written,
                is_due.then_some(printed.stdout.clone()),
                "{object}"
            );
            let name = written.map(|_| format!("\"{}\"", new.display()));
            let name = name.unwrap_or("null".to_string());
            let (about, rest) = object.split_once(",\"length\":").expect("a length");
            let right = format!("{},\"new\":{name}}}\n", printed.stdout.len());
            assert_eq!(rest, right, "{object}");
            // An identification answer can be read, but has no table.
            let is_answer = file
                .extension()
                .is_some_and(|ending| ending.eq_ignore_ascii_case("ID"));
            assert!(is_answer || read.starts_with(about), "{object}");
        }
    }
}

/// Runs the program where no file may have more than so many blocks of 512 bytes. It is told when one would have more.
fn with_room(blocks: u32, words: &[PathBuf]) -> Output {
    after(&format!("trap '' XFSZ; ulimit -f {blocks}"), words)
}

/// The same, but it is killed then.
fn killed(blocks: u32, words: &[PathBuf]) -> Output {
    after(&format!("ulimit -c 0; ulimit -f {blocks}"), words)
}

/// Runs the program in a shell's stead, after these commands.
fn after(commands: &str, words: &[PathBuf]) -> Output {
    let output = Command::new("sh")
        .args(["-c", &format!("{commands}; exec \"$@\""), "sh"])
        .arg(env!("CARGO_BIN_EXE_mctc"))
        .args(words)
        .current_dir(repository())
        .output();
    output.expect("sh runs")
}

/// Where there is room for none of a file, or only for a part, nothing is left of it, and the next block is enough.
#[test]
fn a_file_without_room_is_taken_away() {
    let folder = empty_folder("no-room");
    for words in writing() {
        let new = folder.join("new");
        let words = to_new(&words, &new);
        let written = run(&repository(), &words);
        assert!(written.status.success(), "{words:?}: {}", said(&written));
        let right = fs::read(&new).expect("the file");
        fs::remove_file(&new).expect("it is removed");
        let length = right.len();
        let enough = length.div_ceil(512) as u32;
        for blocks in 0..enough {
            let refused = with_room(blocks, &words);
            let why = said(&refused);
            assert_eq!(refused.status.code(), Some(2), "{why}");
            assert!(refused.stdout.is_empty(), "{words:?}");
            let start = format!(
                "mctc: {}: not written, there is no room for its {length} bytes (",
                new.display()
            );
            assert!(why.starts_with(&start), "{why}");
            assert!(why.ends_with("; nothing of it was left there\n"), "{why}");
            assert!(names(&folder).is_empty(), "{words:?}: a part was left");
        }
        let written = with_room(enough, &words);
        assert!(written.status.success(), "{words:?}: {}", said(&written));
        assert_eq!(fs::read(&new).expect("the file"), right, "{words:?}");
        assert_eq!(names(&folder), ["new"], "{words:?}: a part was left");
        fs::remove_file(&new).expect("it is removed");
    }
}

/// A set may pass without a file that is empty. So a killed program leaves nothing that is taken for the file.
#[test]
fn a_program_that_is_killed_leaves_no_file_of_a_set() {
    let folder = empty_folder("killed");
    put_set(&folder, "AA123456", "accepted-car", &[]);
    let new = folder.join("AA123456.DER");
    fs::remove_file(&new).expect("it is removed");
    let judged = || {
        let folder = folder.as_os_str();
        let set = run(&repository(), &["judge".as_ref(), folder]);
        let stem = ["judge".as_ref(), folder, "AA123456".as_ref()];
        [set, run(&repository(), &stem)]
    };
    let (before, without) = (names(&folder), judged());
    for words in writing() {
        // Before the first zero, and of gas, which has more than a block of them, after some.
        for blocks in 0..=u32::from(words.contains(&GAS)) {
            let output = killed(blocks, &to_new(&words, &new));
            assert_eq!(output.status.code(), None, "{words:?}: {}", said(&output));
            assert!(!new.exists(), "{words:?}: a part has its name");
            let mut left = names(&folder);
            left.retain(|name| !before.contains(name));
            let [part] = left.as_slice() else {
                panic!("{words:?}: {left:?} was left");
            };
            assert!(part.ends_with(".part"), "{words:?}: {part}");
            assert_eq!(judged(), without, "{words:?}");
            fs::remove_file(folder.join(part)).expect("it is removed");
        }
    }
}

/// For programs, too.
#[test]
fn a_file_without_room_is_told_as_an_error() {
    let folder = empty_folder("no-room-json");
    let new = folder.join("new");
    let [first, second] = PAIR;
    for (words, start, length) in [
        (
            vec!["format", DRIFT, "--json"],
            format!("{{\"name\":\"{DRIFT}\""),
            416,
        ),
        (
            vec!["join", first, second, "--json"],
            format!("{{\"first\":\"{first}\",\"second\":\"{second}\""),
            508,
        ),
    ] {
        let output = with_room(0, &to_new(&words, &new));
        let object = String::from_utf8_lossy(&output.stdout).into_owned();
        assert_eq!(output.status.code(), Some(2), "{object}");
        let start = format!(
            "{start},\"error\":\"{}: not written, there is no room for its {length} bytes (",
            new.display()
        );
        assert!(object.starts_with(&start), "{object}");
        assert!(
            object.ends_with("; nothing of it was left there\"}\n"),
            "{object}"
        );
        assert!(names(&folder).is_empty(), "a part was left");
    }
}

#[test]
fn a_file_that_exists_is_left_alone() {
    let folder = empty_folder("exists");
    let there = folder.join("there");
    fs::write(&there, "stays\n").expect("a file");
    for words in writing() {
        for output in [
            run(&repository(), &to_new(&words, &there)),
            with_room(0, &to_new(&words, &there)),
        ] {
            let why = said(&output);
            assert_eq!(output.status.code(), Some(2), "{why}");
            assert!(why.contains("exists already and stays as it is"), "{why}");
            assert_eq!(fs::read(&there).expect("the file"), b"stays\n");
            assert_eq!(names(&folder), ["there"], "{words:?}: a part was left");
        }
    }
}

/// Whether there is a folder of that name or not. An empty name is that of a variable which the shell does not know.
#[test]
fn a_name_that_no_file_can_have_is_told_at_once() {
    let folder = empty_folder("no-name");
    let start = folder.display();
    for words in writing() {
        for ending in ["/", "/.", "/..", "/new/", "/new//", "/new/.", "/new/.."] {
            let new = format!("{start}{ending}");
            let output = run(&repository(), &to_new(&words, Path::new(&new)));
            let why = said(&output);
            assert_eq!(output.status.code(), Some(2), "{why}");
            let right = format!(": name a file behind --output, and not the folder {new}; see ");
            assert!(why.contains(&right), "{why}");
        }
        let output = run(&repository(), &to_new(&words, Path::new("")));
        let why = said(&output);
        assert_eq!(output.status.code(), Some(2), "{why}");
        assert!(why.contains(": an empty word behind --output; "), "{why}");
        assert!(names(&folder).is_empty(), "{words:?}: a file was made");
    }
}

/// A folder of the system's, in which nobody can make a file.
#[test]
fn a_folder_that_takes_no_file_is_told() {
    let new = Path::new("/proc/new");
    for words in writing() {
        let output = run(&repository(), &to_new(&words, new));
        let why = said(&output);
        assert_eq!(output.status.code(), Some(2), "{why}");
        assert!(output.stdout.is_empty(), "{words:?}");
        let start = "mctc: /proc/new cannot be made there: ";
        assert!(why.starts_with(start), "{why}");
    }
}
