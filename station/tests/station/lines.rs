//! The line beside each value (02, 7/14): what `mctc due` and `mctc read` say of it, held to the files as they stand on
//! disk.

use std::fs;
use std::path::Path;

use crate::common::{empty_folder, put_set, repository, run};
use crate::transcripts::check;

/// An entry as the JSON has it.
#[derive(Debug, PartialEq, Eq)]
struct Entry {
    heading: String,
    name: String,
    line: usize,
    value: String,
}

/// A string of JSON behind its first quote, and what stands behind it.
fn string(text: &str) -> (String, &str) {
    let mut value = String::new();
    let mut characters = text.char_indices();
    while let Some((at, character)) = characters.next() {
        match character {
            '"' => return (value, &text[at + 1..]),
            '\\' => value.push(characters.next().expect("a character").1),
            other => value.push(other),
        }
    }
    panic!("a string has no end: {text}")
}

/// The entries in an object, each from its heading to its value.
fn entries(object: &str) -> Vec<Entry> {
    let entries = object.split("{\"heading\":\"").skip(1).map(|entry| {
        let (heading, rest) = string(entry);
        let rest = rest.strip_prefix(",\"entry\":\"").expect("a name");
        let (name, rest) = string(rest);
        let rest = rest.strip_prefix(",\"line\":").expect("a line");
        let (line, rest) = rest.split_once(",\"value\":\"").expect("a value");
        let (value, _) = string(rest);
        Entry {
            heading,
            name,
            line: line.parse().expect("a number"),
            value,
        }
    });
    entries.collect()
}

/// The entries of the rows of a page, without their values: the heading above, the name and the line.
fn rows(page: &str, split: impl Fn(&str) -> Option<(&str, &str)>) -> Vec<(String, String, usize)> {
    let mut heading = String::new();
    let mut rows = Vec::new();
    for line in page.lines() {
        if line.starts_with('[') {
            heading = line.to_string();
        } else if let Some((name, number)) = split(line).filter(|_| !heading.is_empty()) {
            let number = number.parse().expect("a line");
            rows.push((heading.clone(), name.to_string(), number));
        }
    }
    rows
}

/// Name and line of a row of `mctc due`, which says `filled` or `empty` before the line.
fn due_row(row: &str) -> Option<(&str, &str)> {
    let row = row.split(" <-- ").next()?.strip_prefix("  ")?;
    let mut words = row.split(' ').filter(|word| !word.is_empty());
    let is_row = !row.starts_with(' ')
        && words
            .clone()
            .any(|word| ["filled", "empty"].contains(&word));
    is_row.then_some((words.next()?, words.next_back()?))
}

/// Name and line of a row of `mctc read`.
fn read_row(row: &str) -> Option<(&str, &str)> {
    let (line, rest) = row.strip_prefix("  ")?.trim_start().split_once("  ")?;
    Some((rest.split(' ').next()?, line))
}

fn without_values(entries: &[Entry]) -> Vec<(String, String, usize)> {
    let rows = entries.iter();
    rows.map(|entry| (entry.heading.clone(), entry.name.clone(), entry.line))
        .collect()
}

fn printed(folder: &Path, words: &[&str]) -> String {
    String::from_utf8(run(folder, words).stdout).expect("a text")
}

/// Holds all lines that are told of a set to its files. How many entries were told.
pub fn check_lines(folder: &Path, stem: &str) -> usize {
    let object = printed(folder, &["due", ".", stem, "--json"]);
    let page = printed(folder, &["due", ".", stem]);
    let objects = object.split(",\"title\":").skip(1);
    let parts = page.split("\nFile ").skip(1);
    let mut count = 0;
    for (object, part) in objects.zip(parts) {
        let told = entries(object);
        assert_eq!(rows(part, due_row), without_values(&told), "{stem}\n{part}");
        if !told.is_empty() {
            let (_, name) = object.split_once("\"name\":\"").expect("a name");
            let (name, _) = string(name);
            check_file(folder, &name, &told);
        }
        count += told.len();
    }
    count
}

/// Of a file that was read: each entry stands on its line, below its heading, and `mctc read` says the same.
fn check_file(folder: &Path, name: &str, told: &[Entry]) {
    let text = fs::read_to_string(folder.join(name)).expect("a text");
    let lines: Vec<&str> = text.split_terminator("\r\n").collect();
    for entry in told {
        let line = lines[entry.line - 1];
        assert_eq!(line, format!("{}={}", entry.name, entry.value), "{name}");
        let mut above = lines[..entry.line].iter().rev();
        let heading = above.find(|line| line.starts_with('['));
        assert_eq!(heading, Some(&entry.heading.as_str()), "{name}");
    }
    let headings = lines.iter().filter(|line| line.starts_with('[')).count();
    assert_eq!(told.len() + headings, lines.len(), "{name}: each line");

    let read = printed(folder, &["read", name, "--json"]);
    assert_eq!(entries(&read), told, "{name}");
    let page = printed(folder, &["read", name]);
    let (_, below) = page.split_once("\n  line\n").expect("a head row");
    assert_eq!(rows(below, read_row), without_values(told), "{name}");
}

#[test]
fn samples_have_their_lines() {
    for (sample, stem, count) in [
        ("accepted-car", "AA123456", 111),
        ("accepted-diesel", "AE305518", 113),
        ("accepted-unknown-day", "AF410986", 111),
        ("accepted-midnight", "AG280227", 12 + 6 + 19 + 55),
        ("accepted-trailer", "AC204711", 12 + 6 + 19),
        ("accepted-joined", "AH117044", 12 + 6 + 20),
        // Its old booking is not read.
        ("accepted-moped", "AD900123", 12 + 53),
        // Refused, but read by itself.
        ("refused-10-filled", "AB121010", 12),
        ("refused-13", "AB120013", 12 + 22),
        ("refused-19-midnight", "AB121919", 12 + 6 + 19 + 55),
        // Its drift is not read.
        ("refused-09", "AB120009", 12),
    ] {
        let folder = repository().join("samples").join(sample);
        assert_eq!(check_lines(&folder, stem), count, "{sample}");
    }
}

/// What stands in a value is no line end, heading or sign of JSON.
#[test]
fn values_of_signs_have_their_lines() {
    let folder = empty_folder("lines");
    let changes = [
        ("DER", "Note=", "Note=[Deriva]=\\\"<-- due, empty  7"),
        ("DER", "Marca=OFFICINE VERDI", "Marca= = "),
        (
            "GAS",
            "Note=Motore caldo",
            "Note=\"line\":12,\\u0020 filled ",
        ),
    ];
    put_set(&folder, "BL000001", "accepted-car", &changes);
    assert_eq!(check_lines(&folder, "BL000001"), 111);
}

/// For programs: accepted and refused, with all entries and only those that disagree, and what cannot be read.
#[test]
fn lines_are_told_to_programs() {
    check("lines.txt", &repository());
}
