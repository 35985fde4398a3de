//! Faults in what 02, 4/14 asks.

use outside::judge::{Call, Set, BY_HAND, NAMES_COMPARED};
use outside::look_ups::{files_read, sections_in};
use outside::reference::tables::{
    table, AC2, ACC, DRIFT, GAS, IDENTIFICATION, OPACITY, SUSPENSION,
};

#[derive(Clone, Copy, Debug)]
pub enum LookUp {
    NotCounted,
    /// Places from 0: the row that is found is not counted.
    FromZero,
    EntryLines,
    HeadingsToo,
    /// Each look-up begins behind the row found last.
    FromLastFound,
    /// A look-up counts no more than so many rows.
    AtMost(usize),
    /// So many bits of the number.
    InBits(u32),
    WithoutFile(u32),
    /// The sections of a file from this one on, from 0, add nothing.
    WithoutSections(u32, usize),
    /// A file that is not given adds what its main section would.
    NotGivenToo(u32),
    /// An old booking with category L.
    UnreadToo,
    IdentificationToo,
    OfRefusal,
    OfReading,
    OfWriting,
    OfColumn,
    InNumber(usize),
}

pub const FAULTS: [LookUp; 36] = [
    LookUp::NotCounted,
    LookUp::FromZero,
    LookUp::EntryLines,
    LookUp::HeadingsToo,
    LookUp::FromLastFound,
    LookUp::AtMost(1),
    // The last row of gas, and of opacity alone.
    LookUp::AtMost(45),
    LookUp::AtMost(54),
    LookUp::InBits(8),
    LookUp::InBits(10),
    LookUp::WithoutFile(AC2),
    LookUp::WithoutFile(ACC),
    LookUp::WithoutFile(DRIFT),
    LookUp::WithoutFile(SUSPENSION),
    LookUp::WithoutFile(GAS),
    LookUp::WithoutFile(OPACITY),
    LookUp::WithoutSections(GAS, 1),
    // All axles, those behind the first, and the ninth.
    LookUp::WithoutSections(DRIFT, 1),
    LookUp::WithoutSections(DRIFT, 2),
    LookUp::WithoutSections(DRIFT, 9),
    LookUp::WithoutSections(SUSPENSION, 1),
    LookUp::WithoutSections(SUSPENSION, 2),
    LookUp::WithoutSections(SUSPENSION, 9),
    LookUp::NotGivenToo(ACC),
    LookUp::NotGivenToo(DRIFT),
    LookUp::NotGivenToo(SUSPENSION),
    LookUp::NotGivenToo(GAS),
    LookUp::NotGivenToo(OPACITY),
    LookUp::UnreadToo,
    LookUp::IdentificationToo,
    LookUp::OfRefusal,
    LookUp::OfReading,
    LookUp::OfWriting,
    LookUp::OfColumn,
    LookUp::InNumber(BY_HAND),
    LookUp::InNumber(NAMES_COMPARED + 1),
];

/// What a section of so many entries adds.
fn added(entries: usize) -> u32 {
    (1..=entries as u32).sum()
}

/// What a file's main section adds.
fn added_by(file: u32) -> u32 {
    added(table(file).sections[0].entries.len())
}

impl LookUp {
    /// Spoils the answer to a call.
    pub fn spoil(self, call: &Call, places: &[u32], answer: &mut [u32]) {
        let accepted = answer[0] == 0;
        match (self, call) {
            (LookUp::OfRefusal, Call::Judge { .. }) if answer[1] > AC2 => {
                answer[NAMES_COMPARED] = added_by(AC2);
            }
            (LookUp::OfReading, Call::Read { file, .. })
            | (LookUp::OfWriting, Call::Write { file, .. })
            | (LookUp::OfColumn, Call::Due { file, .. })
                if accepted =>
            {
                answer[NAMES_COMPARED] = added_by(*file);
            }
            (_, Call::Judge { set, .. }) if accepted => self.spoil_accepted(set, places, answer),
            _ => {}
        }
    }

    fn spoil_accepted(self, set: &Set, places: &[u32], answer: &mut [u32]) {
        let read = files_read(set, places);
        let is_read = |file: u32| read.iter().any(|(other, _)| *other == file);
        let is_given = |file: u32| !set.slice(file).is_empty();
        let right = answer[NAMES_COMPARED];
        answer[NAMES_COMPARED] = match self {
            LookUp::InNumber(number) => return answer.swap(number, NAMES_COMPARED),
            LookUp::InBits(bits) => right & ((1 << bits) - 1),
            LookUp::NotGivenToo(file) if !is_given(file) => right + added_by(file),
            LookUp::UnreadToo if is_given(ACC) && !is_read(ACC) => right + added_by(ACC),
            LookUp::IdentificationToo if is_given(IDENTIFICATION) => right + 1,
            _ => read.iter().map(|(file, text)| self.sum(*file, text)).sum(),
        };
    }

    /// What a file adds by this fault.
    fn sum(self, file: u32, text: &str) -> u32 {
        if matches!(self, LookUp::WithoutFile(other) if other == file) {
            return 0;
        }
        let sections = sections_in(text).into_iter();
        sections
            .map(|(heading, names)| self.sum_of_section(file, heading, &names))
            .sum()
    }

    fn sum_of_section(self, file: u32, heading: &str, names: &[&str]) -> u32 {
        let mut sections = table(file).sections.iter();
        let at = sections.position(|section| section.heading == heading);
        let at = at.expect("a section of the file");
        let left_out = |other, from| other == file && at >= from;
        let (mut behind, mut sum) = match self {
            LookUp::WithoutSections(other, from) if left_out(other, from) => return 0,
            LookUp::HeadingsToo => (0, at as u32 + 1),
            _ => (0, 0),
        };
        let entries = &table(file).sections[at].entries;
        for name in names {
            let row = entries.iter().position(|entry| entry.name == *name);
            let row = row.expect("an entry of the section");
            sum += self.rows_tried(row, behind, entries.len()) as u32;
            behind = row + 1;
        }
        sum
    }

    /// The rows that the look-up of a row, from 0, counts; `behind` is the one behind that found last.
    fn rows_tried(self, row: usize, behind: usize, rows: usize) -> usize {
        match self {
            LookUp::NotCounted => 0,
            LookUp::FromZero => row,
            LookUp::EntryLines => 1,
            LookUp::AtMost(most) => most.min(row + 1),
            LookUp::FromLastFound => (row + rows - behind) % rows + 1,
            _ => row + 1,
        }
    }
}
