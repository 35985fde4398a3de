//! Calls for the due column of one file: lawful sets, changed ones, and files beside an AC2 of other values.

use super::sets::change_set;
use super::WRONG_FILES;
use crate::generator::{self, Record, Values};
use crate::judge::Set;
use crate::random::Random;
use crate::reference::tables::{table, AC2, FILES, GAS, OPACITY};

pub struct Column {
    pub file: u32,
    pub ac2: Vec<u8>,
    pub text: Vec<u8>,
    /// The length of the lent column.
    pub length: usize,
    /// Empty for a lawful set.
    pub changes: Vec<&'static str>,
}

/// The column of a file of a set, with its AC2; for file 1 AC2 is the file.
pub fn column(random: &mut Random) -> Column {
    let record = generator::record(random);
    let mut set = record.set.clone();
    let mut changes = Vec::new();
    match random.below(100) {
        0..=34 => {}
        35..=59 => changes = change_set(random, &record, &mut set),
        60..=84 => {
            *set.slice_mut(AC2) = generator::record(random).set.slice(AC2).to_vec();
            changes.push("another AC2");
        }
        _ => {
            *set.slice_mut(AC2) = Values::by_kinds(random, AC2, 0).text(random);
            changes.push("AC2 right by its kinds");
        }
    }
    let mut file = pick_given(random, &set);
    let text = set.slice(file).to_vec();
    let length = length(random, &record, file);
    if random.chance(3) {
        file = random.pick(WRONG_FILES);
        changes.push("wrong file number");
    }
    Column {
        file,
        ac2: set.slice(AC2).to_vec(),
        text,
        length,
        changes,
    }
}

/// One of the given files, gas or opacity most often; seldom one that is not given.
fn pick_given(random: &mut Random, set: &Set) -> u32 {
    if random.chance(5) {
        return random.pick(&FILES);
    }
    let is_given = |file: &u32| !set.slice(*file).is_empty();
    match [GAS, OPACITY].into_iter().find(is_given) {
        Some(file) if random.chance(40) => return file,
        _ => {}
    }
    let given: Vec<u32> = FILES.into_iter().filter(is_given).collect();
    match given.as_slice() {
        [] => AC2,
        given => random.pick(given),
    }
}

/// A column's length: enough for every file, just enough for this one, one too few, or any.
fn length(random: &mut Random, record: &Record, file: u32) -> usize {
    let entries = table(file).entry_count(record.axles(file) as usize);
    match random.below(20) {
        // Opacity has the most.
        0..=9 => table(OPACITY).most_entries(),
        10..=15 => entries,
        16 => entries - 1,
        17 => random.below(60),
        _ => 64,
    }
}
