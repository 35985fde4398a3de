//! The program against the implementation in `tests/outside`, which shares nothing with the library: number, file and
//! line, or what acceptance carries, of the samples and of generated sets on disk.

use std::fs;
use std::path::Path;

use crate::common::{empty_folder, put, run, sample_sets, ENDINGS};
use crate::lines::check_lines;
use outside::comparison::set_case;
use outside::judge::{Call, Reference, Set};

/// Generated sets; seeds apart from those of the library's own comparison.
const GENERATED: u64 = 1000;
const FIRST_SEED: u64 = 9 << 40;

/// The members of the JSON that are numbers of the answer, and which.
const MEMBERS: [(&str, usize); 15] = [
    ("number", 0),
    ("file", 1),
    ("line", 2),
    ("drift_axles", 3),
    ("suspension_axles", 4),
    ("drift_mark", 5),
    ("suspension_mark", 6),
    ("gas_mark", 7),
    ("opacity_mark", 8),
    ("idle_by_hand", 9),
    ("names_compared", 10),
    ("drift_seconds", 11),
    ("suspension_seconds", 12),
    ("gas_seconds", 13),
    ("opacity_seconds", 14),
];

/// Those numbers, in this order.
type Answer = [u32; MEMBERS.len()];

/// Its place in both.
const NAMES_COMPARED: usize = 10;

fn right(set: &Set) -> Answer {
    let answer = Reference.judge(set).answer;
    MEMBERS.map(|(_, at)| answer[at])
}

/// What `mctc judge FOLDER --json` prints.
fn judged(folder: &Path) -> String {
    let output = run(folder, &["judge", ".", "--json"]);
    String::from_utf8(output.stdout).expect("JSON is UTF-8")
}

/// The answers in it, with their stems.
fn found(text: &str) -> Vec<(String, Answer)> {
    let sets = text.split("{\"stem\":\"").skip(1);
    sets.map(|set| {
        let (stem, rest) = set.split_once('"').expect("a stem");
        (stem.to_string(), answer_in(rest))
    })
    .collect()
}

fn answer_in(object: &str) -> Answer {
    MEMBERS.map(|(key, _)| {
        let (_, value) = object.split_once(&format!("\"{key}\":")).expect(key);
        let value = value.split([',', '}']).next().expect("a value");
        match value {
            "true" => 1,
            "false" => 0,
            number => number.parse().expect("a number"),
        }
    })
}

/// The folder's own `names_compared`, which stands behind the sets.
fn sum_found(text: &str) -> u64 {
    let (_, sum) = text.rsplit_once("\"names_compared\":").expect("a sum");
    let (sum, _) = sum.split_once('}').expect("its end");
    sum.parse().expect("a number")
}

/// The set whose files stand in a folder, with any case of their endings.
fn load(folder: &Path) -> Set {
    let mut set = Set::default();
    for entry in fs::read_dir(folder).expect("a folder") {
        let path = entry.expect("a file").path();
        let ending = path.extension().expect("an ending").to_string_lossy();
        let ending = ending.to_uppercase();
        let at = ENDINGS.iter().position(|other| *other == ending);
        set.slices[at.expect("an ending of a set")] = fs::read(&path).expect("a file");
        set.stem = path
            .file_stem()
            .expect("a stem")
            .as_encoded_bytes()
            .to_vec();
    }
    set
}

#[test]
fn samples() {
    let mut numbers = Vec::new();
    for folder in sample_sets() {
        let set = load(&folder);
        let stem = String::from_utf8_lossy(&set.stem).into_owned();
        let right = right(&set);
        let found = found(&judged(&folder));
        assert_eq!(found, [(stem, right)], "{}", folder.display());
        numbers.push(right[0]);
    }
    for number in [0].into_iter().chain(2..=15).chain([19]) {
        assert!(numbers.contains(&number), "no sample for number {number}");
    }
}

/// Generated sets on disk, with the reference's answers by stem.
fn generate(folder: &Path) -> Vec<(String, Answer)> {
    let mut answers = Vec::new();
    for at in 0..GENERATED {
        let Call::Judge { mut set, .. } = set_case(FIRST_SEED + at).call else {
            continue;
        };
        // A stem of its own for each, as the files stand in one folder; its first digit is 9 for every second set.
        let first = 9 * (at % 2);
        let stem = format!("AA{first}{at:05}");
        set.stem = stem.clone().into_bytes();
        for (ending, slice) in ENDINGS.iter().zip(&set.slices) {
            if !slice.is_empty() {
                put(folder.join(format!("{stem}.{ending}")), slice);
            }
        }
        if set.slices.iter().any(|slice| !slice.is_empty()) {
            answers.push((stem, right(&set)));
        }
    }
    answers.sort();
    answers
}

#[test]
fn generated_sets() {
    let folder = empty_folder("generated");
    let answers = generate(&folder);
    let text = judged(&folder);
    assert_eq!(found(&text), answers);
    let compared = answers
        .iter()
        .map(|(_, answer)| u64::from(answer[NAMES_COMPARED]));
    assert_eq!(sum_found(&text), compared.sum::<u64>());
    for number in [0].into_iter().chain(3..=15).chain([19]) {
        let mut numbers = answers.iter().map(|(_, answer)| answer[0]);
        assert!(
            numbers.any(|other| other == number),
            "number {number} was never reached"
        );
    }
    for (at, (key, _)) in MEMBERS.into_iter().enumerate() {
        let mut numbers = answers.iter().map(|(_, answer)| answer[at]);
        assert!(numbers.any(|number| number > 0), "{key} was always 0");
    }
    for file in (1..).take(ENDINGS.len()) {
        let mut files = answers.iter().map(|(_, answer)| answer[1]);
        assert!(
            files.any(|other| other == file),
            "file {file} was never refused"
        );
    }
    let tried = answers
        .iter()
        .filter(|(_, answer)| matches!(answer[0], 0 | 10));
    let mut told = 0;
    for (stem, answer) in tried.take(200) {
        check_columns(&folder, stem, answer);
        told += check_lines(&folder, stem);
    }
    assert!(told > 0, "no entry was told with its line");
}

/// `mctc due`: nothing disagrees in an accepted set, and the file of a refusal with 10 has an entry that is marked.
fn check_columns(folder: &Path, stem: &str, answer: &Answer) {
    let output = run(folder, &["due", ".", stem]);
    let text = String::from_utf8(output.stdout).expect("a text");
    let [number, file, ..] = *answer;
    let part = text
        .split("\nFile ")
        .nth(file as usize)
        .expect("the file's part");
    assert_eq!(
        output.status.code(),
        Some(i32::from(number == 10)),
        "{stem}\n{text}"
    );
    assert_eq!(part.contains("<-- "), number == 10, "{stem}\n{text}");
}
