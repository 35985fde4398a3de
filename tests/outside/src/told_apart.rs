//! Of the names that look-ups try (02, 4/14), how many are told apart from the one looked up by length and first byte.

use std::ops::Add;

use crate::reference::tables::{table, Section, AC2, ACC, DRIFT, FILES, GAS, OPACITY, SUSPENSION};

/// The names tried where each entry of a section, or of more than one, is looked up once.
#[derive(Clone, Copy, Debug, Default, PartialEq, Eq)]
pub struct Tried {
    /// Up to and with the entry's own, as 02, 4/14 counts them.
    pub names: usize,
    /// Those of other entries.
    pub others: usize,
    /// Of these, those of another length or with another first byte.
    pub told_apart: usize,
}

impl Add for Tried {
    type Output = Tried;

    fn add(self, other: Tried) -> Tried {
        Tried {
            names: self.names + other.names,
            others: self.others + other.others,
            told_apart: self.told_apart + other.told_apart,
        }
    }
}

/// Names that differ in this from the one looked up are counted as told apart. They are tried like all others, and count
/// among the names compared.
fn length_and_first(name: &str) -> (usize, Option<u8>) {
    (name.len(), name.bytes().next())
}

pub fn tried_in(section: &Section) -> Tried {
    let names = section.entries.iter().map(|e| e.name.as_str());
    let keys: Vec<_> = names.map(length_and_first).collect();
    let look_up = |at: usize| Tried {
        names: at + 1,
        others: at,
        told_apart: keys[..at].iter().filter(|key| **key != keys[at]).count(),
    };
    (0..keys.len())
        .map(look_up)
        .fold(Tried::default(), Tried::add)
}

/// All sections of these files, those that have axles with so many.
fn tried_in_files(files: &[u32], axles: usize) -> Tried {
    let sections = files.iter().flat_map(|file| sections_of(*file, axles));
    sections.map(tried_in).fold(Tried::default(), Tried::add)
}

fn sections_of(file: u32, axles: usize) -> &'static [Section] {
    let table = table(file);
    table.sections(if table.has_axles() { axles } else { 0 })
}

fn print_line(what: &str, tried: Tried) {
    let Tried {
        names,
        others,
        told_apart,
    } = tried;
    println!("{what:<40} {names:>11} {others:>11} {told_apart:>11}");
}

/// Prints the names tried for each section, the first axle's for all, and for whole sets.
pub fn print() {
    let [names, others, told_apart] = ["names tried", "other names", "told apart"];
    println!("{:<40} {names:>11} {others:>11} {told_apart:>11}", "");
    for file in FILES {
        for section in sections_of(file, 1) {
            let what = format!("file {file}, {}", section.heading);
            print_line(&what, tried_in(section));
        }
    }
    let petrol = [AC2, ACC, DRIFT, SUSPENSION, GAS];
    let diesel = [AC2, ACC, DRIFT, SUSPENSION, OPACITY];
    for axles in [2, 9] {
        let set = |fuel| format!("{fuel} set of {axles} axles");
        print_line(&set("petrol"), tried_in_files(&petrol, axles));
        print_line(&set("diesel"), tried_in_files(&diesel, axles));
    }
    print_line("all files of 9 axles", tried_in_files(&FILES, 9));
}
