//! Changes to lawful sets, files and writings, most of them unlawful.
//!
//! - `values`: values at the boundaries of their kinds. - `files`: changes to one file.
//! - `sets`: changes to a set. - `writings`: changes to a writing. - `columns`: due columns.
//! - `commits`: lengths and outputs of commits. - `joinings`: two drift files to be joined.

pub mod columns;
pub mod commits;
pub mod files;
pub mod joinings;
pub mod sets;
pub mod values;
pub mod writings;

use crate::random::Random;
use crate::reference::places::ENTRIES;
use crate::reference::tables::{AC2, ACC, DRIFT, GAS, OPACITY, SUSPENSION};
use crate::reference::PLACES;

/// Numbers that are no file's, or the identification answer's, which has no table.
const WRONG_FILES: &[u32] = &[0, 6, 8, 9, 200, 256, 65_537, u32::MAX - 1, u32::MAX];

/// Files to be read alone and written: those with many entries more often.
const PICKED_FILES: &[u32] = &[
    AC2, ACC, DRIFT, SUSPENSION, SUSPENSION, GAS, GAS, GAS, OPACITY, OPACITY, OPACITY,
];

/// One of the texts that `|` separates.
fn one_of(random: &mut Random, texts: &str) -> Vec<u8> {
    let texts: Vec<&str> = texts.split('|').collect();
    random.pick(&texts).as_bytes().to_vec()
}

/// The least number of places before 02, 7/14: two for each entry.
pub const PLACES_BEFORE: usize = 2 * ENTRIES;

/// A length of places: right, too short, or longer.
pub fn places_length(random: &mut Random) -> usize {
    match random.below(100) {
        0 => random.pick(&[0, PLACES_BEFORE]),
        1 => random.below(PLACES - 1),
        2..=3 => PLACES - 1,
        4..=6 => PLACES + 1,
        7..=15 => PLACES + 22,
        16 => 1000,
        _ => PLACES,
    }
}
