//! How often a name was tried to read a set, and the sum over a folder: it hangs on which files were read and how many
//! axles they have, and not on the order of their lines.

use std::fs;
use std::path::Path;

use crate::common::{empty_folder, put_set, Change};
use crate::transcripts::check;

/// Due, so that the set is refused.
const NO_ANALYSER: Change = ("GAS", "=TECNOGAS", "=");

/// The sets of a folder: the stem of each, and the sample that it is made from. The moped's stem lets its old booking
/// stand there unread.
const SETS: [(&str, &str, &[Change]); 7] = [
    ("BA000001", "accepted-car", &[]),
    ("BA000002", "accepted-car", &[]),
    ("BA000003", "accepted-car", &[]),
    ("BA000004", "accepted-car", &[NO_ANALYSER]),
    ("BA000005", "accepted-diesel", &[]),
    ("BA000006", "accepted-trailer", &[]),
    ("BA900007", "accepted-moped", &[]),
];

/// The set whose lines stand the other way round.
const ROUND: &str = "BA000002";

/// Those with as many axles as may be.
const NINE_AXLES: [&str; 2] = ["BA000003", "BA000005"];

/// The endings of the car's files that have lines.
const LINED: [&str; 5] = ["AC2", "ACC", "DER", "SOS", "GAS"];

fn change_file(folder: &Path, stem: &str, ending: &str, change: impl FnOnce(String) -> String) {
    let path = folder.join(stem).with_extension(ending);
    let text = fs::read_to_string(&path).expect("a text");
    fs::write(path, change(text)).expect("a file is written");
}

/// The sections, and the entries of each, in the order that is the other way round.
fn turned_round(text: &str) -> String {
    let mut sections: Vec<Vec<&str>> = Vec::new();
    for line in text.split_inclusive("\r\n") {
        if line.starts_with('[') {
            sections.push(Vec::new());
        }
        sections.last_mut().expect("a heading").push(line);
    }
    for section in &mut sections {
        section[1..].reverse();
    }
    sections.reverse();
    sections.concat().concat()
}

/// A drift or suspension file of two axles with seven more, all with these lines.
fn with_nine_axles(text: String, heading: &str, entries: &str) -> String {
    let more = (3..=9).map(|axle| format!("[{heading}_{axle}]\r\n{entries}"));
    text + &more.collect::<String>()
}

#[test]
fn names_compared_are_told_and_summed() {
    let root = empty_folder("look-up");
    let folder = root.join("sets");
    for (stem, sample, changes) in SETS {
        put_set(&folder, stem, sample, changes);
    }
    for ending in LINED {
        change_file(&folder, ROUND, ending, |text| turned_round(&text));
    }
    for stem in NINE_AXLES {
        change_file(&folder, stem, "DER", |text| {
            with_nine_axles(text, "DerivaAsse", "Deriva=0.10\r\n")
        });
        change_file(&folder, stem, "SOS", |text| {
            let entries = "Aderenza%Sx=70\r\nAderenza%Dx=68\r\nDifferenza%=2\r\n";
            with_nine_axles(text, "SospensioniAsse", entries)
        });
    }
    check("look-up.txt", &root);
}
