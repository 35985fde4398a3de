//! The look-ups of entry names that a run must meet (02, 4/14), by call, and what their number must be.

use crate::judge::{Outcome, Set, NAMES_COMPARED};
use crate::met::{Met, Wanted, JUDGED, JUDGED_AGAIN, REWRITTEN};
use crate::reference::places::is_read;
use crate::reference::tables::{table, Section, AC2, ACC, DRIFT, FILES, MOST_AXLES, SUSPENSION};

/// 02, 4/14: "twice the sum is at most 47 times the number of entry lines, with the entry count of opacity's largest section plus 1
/// in place of 47 if that is larger".
const BOUND: u32 = 55 + 1;

/// The least that a set adds, AC2 alone, and the most: a diesel with all that it may have, of 9 axles.
const LEAST: u32 = 78;
const MOST: u32 = LEAST + 21 + (136 + 9) + (136 + 9 * 6) + 1_540;

/// The order of a section's entry lines.
const IN_TABLE_ORDER: &str = "in table order";
const LAST_FIRST: &str = "last entry first";

/// Whether a file of a set was read; an old booking with category L is not.
const READ: &str = "read";
const NOT_GIVEN: &str = "not given";
const GIVEN: &str = "given and not read";

fn order(file: u32, heading: &str, order: &str) -> String {
    format!("file {file}, {heading} {order}")
}

fn file(file: u32, how: &str) -> String {
    format!("file {file} {how}")
}

fn axles(file: u32, count: usize) -> String {
    format!("file {file} of {count} axles")
}

fn names_compared(sum: u32) -> String {
    format!("{sum} names compared")
}

/// What a run must meet.
pub fn wanted() -> Vec<Wanted> {
    let mut wanted = Vec::new();
    for what in orders() {
        wanted.extend([(JUDGED, what.clone()), (REWRITTEN, what)]);
    }
    for what in files_and_axles() {
        wanted.extend([(JUDGED, what.clone()), (JUDGED_AGAIN, what)]);
    }
    wanted
}

/// Each section in both orders; a section of one entry has but one.
fn orders() -> Vec<String> {
    let mut orders = Vec::new();
    for file in FILES {
        for Section { heading, entries } in &table(file).sections {
            orders.push(order(file, heading, IN_TABLE_ORDER));
            if entries.len() > 1 {
                orders.push(order(file, heading, LAST_FIRST));
            }
        }
    }
    orders
}

fn files_and_axles() -> Vec<String> {
    let mut wanted = vec![file(AC2, READ), file(ACC, GIVEN)];
    for other in FILES.into_iter().filter(|other| *other != AC2) {
        wanted.extend([READ, NOT_GIVEN].map(|how| file(other, how)));
    }
    for measured in [DRIFT, SUSPENSION] {
        wanted.extend((1..=MOST_AXLES).map(|count| axles(measured, count)));
    }
    wanted.extend([LEAST, MOST].map(names_compared));
    wanted
}

/// The files of an accepted set that were read, each with its text.
pub fn files_read<'a>(set: &'a Set, places: &[u32]) -> Vec<(u32, &'a str)> {
    let text = |file| std::str::from_utf8(set.slice(file)).expect("bytes of 20 to 7E hex");
    let files = FILES.into_iter().filter(|file| is_read(*file, places));
    files.map(|file| (file, text(file))).collect()
}

/// The sections of a text that passed 3 to 8: their headings, each with the names of its entry lines.
pub fn sections_in(text: &str) -> Vec<(&str, Vec<&str>)> {
    let mut sections: Vec<(&str, Vec<&str>)> = Vec::new();
    for line in text.lines() {
        match (line.split_once('='), sections.last_mut()) {
            _ if line.starts_with('[') => sections.push((line, Vec::new())),
            (Some((name, _)), Some((_, names))) => names.push(name),
            _ => panic!("no line of such a text: {line}"),
        }
    }
    sections
}

/// Whether the names compared in an accepted set are the numbers 1 to n of each section of n lines, "in any line order",
/// and within the bound.
pub fn is_right(set: &Set, outcome: &Outcome) -> bool {
    let files = files_read(set, &outcome.places);
    let sections = files.iter().flat_map(|(_, text)| sections_in(text));
    let counts: Vec<u32> = sections.map(|(_, names)| names.len() as u32).collect();
    let sum: u32 = counts.iter().map(|count| (1..=*count).sum::<u32>()).sum();
    let lines: u32 = counts.iter().sum();
    let found = outcome.answer[NAMES_COMPARED];
    found == sum && 2 * found <= BOUND * lines
}

/// Notes what was looked up in an accepted set.
pub fn note(met: &mut Met, what: &'static str, set: &Set, outcome: &Outcome) {
    note_orders(met, what, set, outcome);
    note_files(met, what, set, outcome);
    for measured in [DRIFT, SUSPENSION] {
        met.count(what, axles(measured, outcome.axles(measured) as usize));
    }
    met.count(what, names_compared(outcome.answer[NAMES_COMPARED]));
}

/// Notes in which order the entry lines of its sections stand.
pub fn note_orders(met: &mut Met, what: &'static str, set: &Set, outcome: &Outcome) {
    for (file, text) in files_read(set, &outcome.places) {
        for (heading, names) in sections_in(text) {
            if let Some(found) = order_of(file, heading, &names) {
                met.count(what, order(file, heading, found));
            }
        }
    }
}

fn order_of(file: u32, heading: &str, names: &[&str]) -> Option<&'static str> {
    let mut sections = table(file).sections.iter();
    let section = sections.find(|section| section.heading == heading)?;
    let in_table: Vec<&str> = section.entries.iter().map(|e| e.name.as_str()).collect();
    if in_table == names {
        Some(IN_TABLE_ORDER)
    } else if in_table.last() == names.first() {
        Some(LAST_FIRST)
    } else {
        None
    }
}

fn note_files(met: &mut Met, what: &'static str, set: &Set, outcome: &Outcome) {
    let read = files_read(set, &outcome.places);
    for number in FILES {
        let how = if read.iter().any(|(other, _)| *other == number) {
            READ
        } else if set.slice(number).is_empty() {
            NOT_GIVEN
        } else {
            GIVEN
        };
        met.count(what, file(number, how));
    }
}
