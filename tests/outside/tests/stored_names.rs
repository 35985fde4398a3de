//! The names that the stored program `lines_main` compares (02, 6/14): its input ends with the cases made
//! here, and its output with what the reference says of them. That the program prints this, `rt ci` tries.
//!
//! Where the stored files end otherwise, the right ends are left in cargo's folder for tests.

use std::collections::HashSet;
use std::fs;
use std::path::Path;

use outside::reference::names::{compare, Comparison};
use outside::reference::tables::{table, Section, FILES};

/// Chosen by hand: two names, whether they are equal, and the steps.
const SAMPLES: [(&str, &str, bool, usize); 8] = [
    ("Note", "Note", true, 4),
    ("NumOmologa", "NumOmologa", true, 3),
    ("NumVersioneProtocollo", "NumVersioneProtocollo", true, 7),
    ("DataVersioneProtocollo", "DataVersioneProtocollo", true, 8),
    ("Aderenza%Sx", "Aderenza%Dx", false, 3),
    ("Note", "Tipo", false, 1),
    ("Marca", "Note", false, 0),
    ("", "", true, 0),
];

/// Twice eight bytes and two more: eight bytes stand behind eight, a byte behind eight bytes, a byte behind a byte.
const LETTERS: &[u8] = b"abcdefghijklmnopqr";

struct Case {
    title: String,
    one: Vec<u8>,
    other: Vec<u8>,
}

impl Case {
    fn new(title: String, one: &[u8], other: &[u8]) -> Case {
        Case {
            title: format!("names: {title}"),
            one: one.to_vec(),
            other: other.to_vec(),
        }
    }

    fn of_names(one: &str, other: &str) -> Case {
        let title = format!("{one} with {other}");
        Case::new(title, one.as_bytes(), other.as_bytes())
    }
}

/// The name with capitals at these places.
fn with_capitals(name: &[u8], places: &[usize]) -> Vec<u8> {
    let mut other = name.to_vec();
    for place in places {
        other[*place] = other[*place].to_ascii_uppercase();
    }
    other
}

/// Each length, with no difference, one difference at each place, and another at the end behind it.
fn of_one_length() -> Vec<Case> {
    let mut cases = Vec::new();
    for length in 0..=LETTERS.len() {
        let name = &LETTERS[..length];
        cases.push(Case::new(format!("{length} bytes"), name, name));
        for place in 0..length {
            let title = format!("{length} bytes, another at {place}");
            let other = with_capitals(name, &[place]);
            cases.push(Case::new(title, name, &other));
        }
        for place in 0..length.saturating_sub(1) {
            let title = format!("{length} bytes, another at {place} and at the end");
            let other = with_capitals(name, &[place, length - 1]);
            cases.push(Case::new(title, name, &other));
        }
    }
    cases
}

/// Two lengths, both ways: the one name is the beginning of the other. Each length with the next, and lengths of which
/// the bytes left over are as many, or of which the eights are.
fn of_two_lengths() -> Vec<Case> {
    let next = (0..LETTERS.len()).map(|length| (length, length + 1));
    let mut cases = Vec::new();
    for (less, more) in next.chain([(0, 8), (8, 16), (1, 9), (9, 17), (8, 15)]) {
        for (one, other) in [(less, more), (more, less)] {
            let title = format!("{one} and {other} bytes");
            cases.push(Case::new(title, &LETTERS[..one], &LETTERS[..other]));
        }
    }
    cases
}

/// Bytes that no name has; the numbers of the first eight differ in their highest bit alone.
fn of_other_bytes() -> Vec<Case> {
    let one: Vec<u8> = (0xF7..=0xFF).collect();
    let mut other = one.clone();
    other[7] = 0x7E;
    vec![
        Case::new("bytes F7 to FF".to_string(), &one, &one),
        Case::new("bytes F7 to FF, 7E for FE".to_string(), &one, &other),
    ]
}

/// Each name of a section with itself, and with each later one of its length.
fn names_of(section: &Section) -> Vec<Case> {
    let names: Vec<&str> = section.entries.iter().map(|e| e.name.as_str()).collect();
    let mut cases = Vec::new();
    for (at, one) in names.iter().enumerate() {
        let others = names[at..].iter().filter(|other| other.len() == one.len());
        cases.extend(others.map(|other| Case::of_names(one, other)));
    }
    cases
}

/// Those of all sections.
fn names_of_tables() -> Vec<Case> {
    let axles = |file| usize::from(table(file).has_axles());
    let sections = FILES
        .iter()
        .flat_map(|file| table(*file).sections(axles(*file)));
    sections.flat_map(names_of).collect()
}

/// All, each once.
fn cases() -> Vec<Case> {
    let samples = SAMPLES
        .iter()
        .map(|(one, other, ..)| Case::of_names(one, other));
    let mut met = HashSet::new();
    samples
        .chain(of_one_length())
        .chain(of_two_lengths())
        .chain(of_other_bytes())
        .chain(names_of_tables())
        .filter(|case| met.insert((case.one.clone(), case.other.clone())))
        .collect()
}

fn input(cases: &[Case]) -> Vec<u8> {
    let mut bytes = Vec::new();
    for case in cases {
        for part in [case.title.as_bytes(), &case.one, &case.other] {
            bytes.extend_from_slice(part);
            bytes.push(0);
        }
    }
    bytes
}

fn output(cases: &[Case]) -> Vec<u8> {
    let mut text = String::new();
    for case in cases {
        let Comparison { equal, steps } = compare(&case.one, &case.other);
        let answer = if equal { "equal" } else { "not equal" };
        text += &format!("-- {}\n{answer}, steps: {steps}\n", case.title);
    }
    text.into_bytes()
}

/// What stands in a stored file from its first comparison of names on.
fn stored_end(name: &str, first: &[u8]) -> Vec<u8> {
    let crates = Path::new(env!("CARGO_MANIFEST_DIR")).join("../../crates");
    let path = crates.join("lines_main").join(name);
    let bytes = fs::read(&path).unwrap_or_else(|error| panic!("{}: {error}", path.display()));
    let start = bytes.windows(first.len()).position(|part| part == first);
    bytes[start.unwrap_or(bytes.len())..].to_vec()
}

fn assert_stored(name: &str, first: &[u8], right: &[u8]) {
    if stored_end(name, first) == right {
        return;
    }
    let found = Path::new(env!("CARGO_TARGET_TMPDIR")).join(format!("lines_main-{name}"));
    fs::write(&found, right).unwrap_or_else(|error| panic!("{}: {error}", found.display()));
    panic!(
        "crates/lines_main/{name} ends otherwise than {}",
        found.display()
    );
}

#[test]
fn the_reference_answers_the_samples() {
    for (one, other, equal, steps) in SAMPLES {
        let found = compare(one.as_bytes(), other.as_bytes());
        assert_eq!(found, Comparison { equal, steps }, "{one} with {other}");
    }
}

#[test]
fn the_stored_input_has_all_cases() {
    assert_stored("stdin", b"names: ", &input(&cases()));
}

#[test]
fn the_stored_output_is_what_the_reference_says() {
    assert_stored("stdout", b"-- names: ", &output(&cases()));
}
