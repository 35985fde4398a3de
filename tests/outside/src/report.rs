//! What a run reached: refusal numbers by call and by file, entries at which they were reached, and what it must meet besides.

use std::collections::BTreeMap;

use crate::commits;
use crate::dates::Date;
use crate::devices;
use crate::entries::{due_dates, free_entries, is_conditional};
use crate::joinings::{self, Inputs};
use crate::judge::{Call, Outcome, Set, BY_HAND};
use crate::lines_beside::{self, Made};
use crate::look_ups;
use crate::measures::Measure;
use crate::met::{
    summary, Met, Wanted, COLUMN, JUDGED, JUDGE_12, JUDGE_13, JUDGE_19, JUDGE_9, READ, READ_9,
    REWRITTEN,
};
use crate::mutator::commits::Output;
use crate::mutator::writings::OtherLines;
use crate::old_fuels;
use crate::opacities;
use crate::reference::kinds::Kind;
use crate::reference::places::{triples_of, Triple};
use crate::reference::tables::{
    table, Entry, Section, AC2, ACC, DRIFT, FILES, GAS, IDENTIFICATION, SUSPENSION,
};
use crate::reference::Refusal;
use crate::speeds;

/// Numbers 0 (acceptance) to 22.
const NUMBERS: usize = 23;

/// File, heading and name of an entry.
pub type EntryOf = (u32, String, String);

/// Refusals for which the entries are noted, besides judge 9, judge 12, judge 13, judge 19 and read 9.
const JUDGE_8: &str = "judge 8";
const JUDGE_10_EMPTY: &str = "judge 10, due and empty";
const JUDGE_10_FILLED: &str = "judge 10, filled and not due";
const WRITE_9: &str = "write 9";
const WRITE_17: &str = "write 17";
const COLUMN_DUE: &str = "column, due";
const COLUMN_NOT_DUE: &str = "column, not due";
const COLUMN_FREE: &str = "column, free";
const JUDGE_FREE_FILLED: &str = "judge 0, free and filled";
const JUDGE_FREE_EMPTY: &str = "judge 0, free and empty";
/// Accepted without the mark of 02, 1/14, although a value other than the idle speed begins with `#`.
const JUDGE_HASH: &str = "judge 0, `#` first and no mark";
const READ_HASH: &str = "read 0, `#` first and no mark";

/// The calls and the numbers that each must reach.
const CALLS: [(&str, &[usize]); 11] = [
    (
        "judge",
        &[0, 1, 2, 3, 4, 5, 6, 7, 8, 9, 10, 11, 12, 13, 14, 15, 19],
    ),
    ("read", &[0, 1, 3, 4, 5, 6, 7, 8, 9, 11, 16]),
    ("write", &[0, 1, 9, 16, 17, 18]),
    ("due", &[0, 1, 3, 4, 5, 6, 7, 8, 9, 11, 16, 18]),
    ("entry name", &[0, 16, 18]),
    ("heading", &[0, 16, 18]),
    ("kind", &[0, 16]),
    ("word", &[0, 16, 18]),
    ("join", &[0, 3, 4, 5, 6, 7, 8, 9, 10, 11, 18, 20, 21]),
    ("quote", &[0, 1, 9, 16, 17]),
    ("commit", &[0, 1, 9, 16, 17, 18, 22]),
];

/// The place of a call in `CALLS`.
fn place_of(call: &Call) -> usize {
    match call {
        Call::Judge { .. } => 0,
        Call::Read { .. } => 1,
        Call::Write { .. } => 2,
        Call::Due { .. } => 3,
        Call::EntryName { .. } => 4,
        Call::HeadingName { .. } => 5,
        Call::Kind { .. } => 6,
        Call::Word { .. } => 7,
        Call::Join { .. } => 8,
        Call::Quote { .. } => 9,
        Call::Commit { .. } => 10,
    }
}

/// The numbers by which judging, reading alone, writing and due columns must refuse a file, in the order of `CALLS`.
fn numbers_of(file: u32) -> [Vec<u32>; 4] {
    if file == IDENTIFICATION {
        return [vec![11, 14, 15], vec![16], vec![16], vec![16]];
    }
    // A text that is not empty has its only heading, or 4 or 5 comes before 7.
    let can_lack_section = table(file).sections.len() > 1;
    let reading = (3..=9).filter(|number| *number != 7 || can_lack_section);
    let reading: Vec<u32> = reading.collect();
    let in_a_set: &[u32] = match file {
        AC2 | ACC => &[10, 11, 12],
        DRIFT => &[10, 19],
        SUSPENSION => &[10, 13, 19],
        _ => &[10, 11, 19],
    };
    [
        [&reading, in_a_set].concat(),
        [&reading, &[11][..]].concat(),
        vec![9, 16, 17, 18],
        [&reading, &[11, 18][..]].concat(),
    ]
}

fn refused(file: u32, number: u32) -> String {
    format!("file {file} refused by {number}")
}

fn refused_files() -> Vec<Wanted> {
    let mut wanted = Vec::new();
    for file in FILES.into_iter().chain([IDENTIFICATION]) {
        for ((call, _), numbers) in CALLS.iter().zip(numbers_of(file)) {
            wanted.extend(numbers.iter().map(|number| (*call, refused(file, *number))));
        }
    }
    wanted
}

#[derive(Default)]
pub struct Report {
    /// By call, then by number.
    counts: [[u64; NUMBERS]; CALLS.len()],
    /// How often each noted refusal was reached at each entry.
    reached: BTreeMap<&'static str, BTreeMap<EntryOf, u64>>,
    /// Refused files, idle speeds, what opacity brought, old fuels, look-ups, devices, lines, joinings
    /// and commits.
    met: Met,
    /// Written files that were read back.
    pub read_back: u64,
    /// Accepted sets whose files were written and judged again.
    pub rewritten: u64,
}

/// The entry at a line of a text, with its value.
pub fn entry_at(file: u32, text: &[u8], line: u32) -> Option<(EntryOf, String)> {
    let mut heading = String::new();
    let mut last = String::new();
    for bytes in text.split(|byte| *byte == b'\n').take(line as usize) {
        last = String::from_utf8_lossy(bytes).trim_end_matches('\r').into();
        if last.starts_with('[') {
            heading.clone_from(&last);
        }
    }
    let (name, value) = last.split_once('=')?;
    Some(((file, heading, name.to_string()), value.to_string()))
}

/// The first absent entry of the section whose heading stands at a line of a text.
fn absent_at(file: u32, text: &[u8], line: u32) -> Option<EntryOf> {
    let text = String::from_utf8_lossy(text);
    let mut lines = text.lines().skip(line as usize - 1);
    let heading = lines.next()?;
    let entries = lines.take_while(|line| !line.starts_with('['));
    let there: Vec<&str> = entries
        .filter_map(|line| Some(line.split_once('=')?.0))
        .collect();
    let is_absent = |(section, entry): &(&Section, &Entry)| {
        section.heading == heading && !there.contains(&entry.name.as_str())
    };
    let (section, entry) = listed(file).find(is_absent)?;
    Some(named(file, section, entry))
}

/// All entries of all files, in table order.
fn all_entries() -> Vec<EntryOf> {
    FILES.into_iter().flat_map(entries_of).collect()
}

fn entries_of(file: u32) -> Vec<EntryOf> {
    let named = |(section, entry)| named(file, section, entry);
    listed(file).map(named).collect()
}

/// The entries of a file in table order, each with its section.
fn listed(file: u32) -> impl Iterator<Item = (&'static Section, &'static Entry)> {
    let sections = table(file).sections.iter();
    sections.flat_map(|section| section.entries.iter().map(move |entry| (section, entry)))
}

fn named(file: u32, section: &Section, entry: &Entry) -> EntryOf {
    (file, section.heading.clone(), entry.name.clone())
}

/// The entry at a line of a file in table order.
fn entry_in_table(file: u32, line: u32) -> Option<EntryOf> {
    let mut lines = Vec::new();
    for section in &table(file).sections {
        lines.push(None);
        for entry in &section.entries {
            lines.push(Some(named(file, section, entry)));
        }
    }
    lines.into_iter().nth(line as usize - 1)?
}

fn is_free((file, _, name): &EntryOf) -> bool {
    free_entries(*file).contains(&name.as_str())
}

/// Whether 10, 12, 13 or 19 can be refused at the line of an entry: 01, rows 10, 12 and 13; 02, 5/14.
pub fn can_be_refused(number: u32, entry: &EntryOf) -> bool {
    let (file, _, name) = entry;
    match (number, *file) {
        (10, _) => !is_free(entry),
        (12, AC2) => matches!(
            name.as_str(),
            "TipoVeicolo" | "AzionamentoFrenoStazionamento"
        ),
        (12, file) => file == ACC,
        (13, file) => file == SUSPENSION && name == "Differenza%",
        (19, file) => due_dates(file).contains(&name.as_str()),
        _ => false,
    }
}

/// Whether `#` may stand first in a value of this entry, which is not gas's idle speed.
fn may_begin_with_hash(entry: &EntryOf) -> bool {
    let same = |(section, other): &(&Section, &Entry)| named(entry.0, section, other) == *entry;
    let Some((_, found)) = listed(entry.0).find(same) else {
        return false;
    };
    match found.kind {
        Kind::Text(_) | Kind::Exact(_) | Kind::Plate => true,
        kind => kind.may_be_by_hand() && entry.0 != GAS,
    }
}

/// Likewise in an accepted set, where ACC's texts are words of the booking rules, but for other fuels.
fn may_begin_with_hash_in_set(entry: &EntryOf) -> bool {
    let (file, _, name) = entry;
    may_begin_with_hash(entry) && (*file != ACC || name == "Alimentazione_1")
}

/// The entries of a file that was read, each with its triple.
pub fn values_of(file: u32, outcome: &Outcome) -> impl Iterator<Item = (EntryOf, Triple)> + '_ {
    let triples = triples_of(file, &outcome.places);
    let read = listed(file)
        .zip(triples)
        .filter(|(_, triple)| triple.is_used());
    read.map(move |((section, entry), triple)| (named(file, section, entry), triple))
}

/// The entries at which each noted refusal can be reached.
fn reachable() -> Vec<(&'static str, Vec<EntryOf>)> {
    let fitting =
        |fits: &dyn Fn(&EntryOf) -> bool| all_entries().into_iter().filter(fits).collect();
    let conditional = |(file, _, name): &EntryOf| is_conditional(*file, name);
    let refused = |number| fitting(&|entry| can_be_refused(number, entry));
    vec![
        (JUDGE_8, fitting(&|_| true)),
        (JUDGE_9, fitting(&|_| true)),
        (JUDGE_10_EMPTY, refused(10)),
        (JUDGE_10_FILLED, fitting(&conditional)),
        (JUDGE_12, refused(12)),
        (JUDGE_13, refused(13)),
        (JUDGE_19, refused(19)),
        (READ_9, fitting(&|_| true)),
        (WRITE_9, fitting(&|_| true)),
        (WRITE_17, fitting(&|_| true)),
        (COLUMN_DUE, fitting(&|entry| !is_free(entry))),
        (COLUMN_NOT_DUE, fitting(&conditional)),
        (COLUMN_FREE, fitting(&is_free)),
        (JUDGE_FREE_FILLED, fitting(&is_free)),
        (JUDGE_FREE_EMPTY, fitting(&is_free)),
        (JUDGE_HASH, fitting(&may_begin_with_hash_in_set)),
        (READ_HASH, fitting(&may_begin_with_hash)),
    ]
}

/// The entry of a refusal, where it is noted.
fn entry_of(call: &Call, refusal: Refusal) -> Option<(&'static str, EntryOf)> {
    let Refusal { number, file, line } = refusal;
    match (call, number) {
        (Call::Judge { set, .. }, 8) => Some((JUDGE_8, absent_at(file, set.slice(file), line)?)),
        (Call::Judge { set, .. }, 9 | 10 | 12 | 13 | 19) => {
            let (entry, value) = entry_at(file, set.slice(file), line)?;
            let what = match (number, value.is_empty()) {
                (9, _) => JUDGE_9,
                (10, true) => JUDGE_10_EMPTY,
                (10, false) => JUDGE_10_FILLED,
                (12, _) => JUDGE_12,
                (19, _) => JUDGE_19,
                _ => JUDGE_13,
            };
            Some((what, entry))
        }
        (Call::Read { text, .. }, 9) => Some((READ_9, entry_at(file, text, line)?.0)),
        (Call::Write { .. }, 9) => Some((WRITE_9, entry_in_table(file, line)?)),
        (Call::Write { .. }, 17) => Some((WRITE_17, entry_in_table(file, line)?)),
        _ => None,
    }
}

/// What a run must meet besides numbers and entries.
fn wanted() -> [(&'static str, Vec<Wanted>); 9] {
    [
        ("refused files", refused_files()),
        ("idle speeds", speeds::wanted()),
        ("opacity", opacities::wanted()),
        ("old fuels", old_fuels::wanted()),
        ("look-ups", look_ups::wanted()),
        ("devices", devices::wanted()),
        ("lines", lines_beside::wanted()),
        ("joinings", joinings::wanted()),
        ("commits", commits::wanted()),
    ]
}

impl Report {
    /// Counts a refusal, or acceptance as number 0, and notes its entry.
    pub fn add(&mut self, call: &Call, refusal: Refusal) {
        let place = place_of(call);
        self.counts[place][refusal.number as usize] += 1;
        self.met
            .count(CALLS[place].0, refused(refusal.file, refusal.number));
        lines_beside::note_lent(&mut self.met, CALLS[place].0, call, refusal.number);
        if let Some((what, entry)) = entry_of(call, refusal) {
            self.note(what, entry);
        }
    }

    /// Notes the values of an acceptance, or the one that was refused.
    pub fn add_values(&mut self, call: &Call, outcome: &Outcome) {
        let refusal = outcome.refusal();
        match (call, refusal.number) {
            (Call::Judge { set, .. }, 0) => {
                self.meet(JUDGED, call, outcome);
                for file in FILES {
                    self.note_hashes(JUDGE_HASH, file, set.slice(file), outcome);
                    self.note_free(file, outcome);
                }
            }
            (Call::Read { file, text, .. }, 0) => {
                self.meet(READ, call, outcome);
                self.note_hashes(READ_HASH, *file, text, outcome);
            }
            (Call::Due { .. }, 0) => self.meet(COLUMN, call, outcome),
            (Call::Judge { set, .. }, 9) => {
                self.note_refused(JUDGE_9, set.slice(refusal.file), refusal);
            }
            (Call::Read { text, .. }, 9) => self.note_refused(READ_9, text, refusal),
            (Call::Judge { set, .. }, 10) => {
                devices::note_refused_by_10(&mut self.met, set, refusal)
            }
            (Call::Judge { set, .. }, 11) => {
                opacities::note_not_as_due(&mut self.met, set, refusal)
            }
            (Call::Judge { set, .. }, 12) => self.note_old_fuel(set, refusal),
            (Call::Judge { set, .. }, 19) => devices::note_refused(&mut self.met, set, refusal),
            _ => {}
        }
    }

    /// Notes what an acceptance holds of that which a run must meet.
    pub fn meet(&mut self, what: &'static str, call: &Call, outcome: &Outcome) {
        speeds::note(&mut self.met, what, call, outcome);
        opacities::note(&mut self.met, what, call, outcome);
        devices::note(&mut self.met, what, call, outcome);
        lines_beside::note(&mut self.met, what, call, outcome);
        if let Call::Judge { set, .. } = call {
            old_fuels::note(&mut self.met, what, set);
            look_ups::note(&mut self.met, what, set, outcome);
        }
    }

    /// Notes the line order of an accepted set that was written and judged again.
    pub fn meet_rewritten(&mut self, set: &Set, outcome: &Outcome) {
        look_ups::note_orders(&mut self.met, REWRITTEN, set, outcome);
    }

    /// Notes two accepted calls whose files have the same lines in two orders.
    pub fn meet_orders(&mut self, what: &'static str, both: [Made; 2]) {
        lines_beside::note_orders(&mut self.met, what, both);
    }

    /// Notes a set refused at a line that its file has beside an entry.
    pub fn meet_refused_line(&mut self, number: u32, file: u32) {
        lines_beside::note_refused(&mut self.met, number, file);
    }

    /// Notes a writing, a quote or a commit that was answered alike with other third numbers.
    pub fn meet_other_lines(&mut self, call: &Call, lines: OtherLines, number: u32) {
        lines_beside::note_written(&mut self.met, call, lines, number);
    }

    /// Notes the answer to a quote.
    pub fn meet_quote(&mut self, call: &Call, number: u32) {
        commits::note_quote(&mut self.met, call, number);
    }

    /// Notes the answer to a commit.
    pub fn meet_commit(&mut self, call: &Call, output: Output, number: u32) {
        commits::note_commit(&mut self.met, call, output, number);
    }

    /// Notes a commit that was refused with the length quoted for another file.
    pub fn meet_length_of_other(&mut self, file: u32, other: u32) {
        commits::note_other(&mut self.met, file, other);
    }

    /// Notes a writing to an output of the quoted length.
    pub fn meet_at_quoted_length(&mut self, file: u32) {
        commits::note_at_quoted_length(&mut self.met, file);
    }

    /// Notes a joining by its inputs and its answer.
    pub fn meet_joining(&mut self, inputs: &Inputs, outcome: &Outcome) {
        joinings::note(&mut self.met, inputs, outcome);
    }

    /// Notes a joining that was answered alike with its inputs' lines in the opposite order.
    pub fn meet_turned_inputs(&mut self, inputs: &str, refusal: Refusal) {
        joinings::note_turned(&mut self.met, inputs, refusal);
    }

    /// Notes a joined file that was read alone.
    pub fn meet_joined(&mut self, axles: usize) {
        joinings::note_read(&mut self.met, axles);
    }

    /// Notes a joined file that was judged in a set.
    pub fn meet_joined_in_set(&mut self, measure: Measure, due: Date, outcome: &Outcome) {
        joinings::note_judged(&mut self.met, measure, due, outcome);
    }

    /// Notes the values of an accepted file that begin with `#`, where the answer has no mark.
    fn note_hashes(&mut self, what: &'static str, file: u32, text: &[u8], outcome: &Outcome) {
        if outcome.answer[BY_HAND] != 0 {
            return;
        }
        for (entry, triple) in values_of(file, outcome) {
            if triple.value(text).starts_with(b"#") {
                self.note(what, entry);
            }
        }
    }

    /// Notes which free entries of a file of an accepted set are filled and which are empty.
    fn note_free(&mut self, file: u32, outcome: &Outcome) {
        for (entry, triple) in values_of(file, outcome) {
            if is_free(&entry) {
                let what = match triple.length {
                    0 => JUDGE_FREE_EMPTY,
                    _ => JUDGE_FREE_FILLED,
                };
                self.note(what, entry);
            }
        }
    }

    /// Notes the bookings of a set that is refused by 12, if it is for ACC's fuel.
    fn note_old_fuel(&mut self, set: &Set, refusal: Refusal) {
        let found = entry_at(refusal.file, set.slice(refusal.file), refusal.line);
        let is_fuel = |(file, _, name): EntryOf| file == ACC && name == "Alimentazione_1";
        if found.is_some_and(|(entry, _)| is_fuel(entry)) {
            old_fuels::note(&mut self.met, JUDGE_12, set);
        }
    }

    fn note_refused(&mut self, what: &'static str, text: &[u8], refusal: Refusal) {
        if let Some(((_, _, name), value)) = entry_at(refusal.file, text, refusal.line) {
            speeds::note_refused(&mut self.met, what, &name, &value);
            opacities::note_refused(&mut self.met, what, &name, &value);
        }
    }

    fn note(&mut self, what: &'static str, entry: EntryOf) {
        let entries = self.reached.entry(what).or_default();
        *entries.entry(entry).or_default() += 1;
    }

    /// Notes what an accepted column says of each entry.
    pub fn add_column(&mut self, call: &Call, outcome: &Outcome) {
        let Call::Due { file, .. } = call else {
            return;
        };
        let column = outcome.column.iter().take(outcome.answer[4] as usize);
        for (due, entry) in column.zip(entries_of(*file)) {
            let what = match due {
                1 => COLUMN_DUE,
                2 => COLUMN_NOT_DUE,
                _ => COLUMN_FREE,
            };
            self.note(what, entry);
        }
    }

    /// How many quotes and commits were made.
    pub fn quotes_and_commits(&self) -> u64 {
        self.counts[9..11].iter().flatten().sum()
    }

    /// How many calls for names and headings were made.
    pub fn names(&self) -> u64 {
        self.counts[4..6].iter().flatten().sum()
    }

    /// How many calls for kinds and words were made.
    pub fn kinds(&self) -> u64 {
        self.counts[6..8].iter().flatten().sum()
    }

    /// How often a noted refusal was reached at an entry.
    fn times(&self, what: &str, entry: &EntryOf) -> u64 {
        let entries = self.reached.get(what);
        entries
            .and_then(|entries| entries.get(entry))
            .copied()
            .unwrap_or(0)
    }

    /// What should have been reached and was not.
    pub fn missing(&self) -> Vec<String> {
        let mut missing = Vec::new();
        for ((call, numbers), counts) in CALLS.iter().zip(&self.counts) {
            for number in numbers.iter().filter(|number| counts[**number] == 0) {
                missing.push(format!("{call}: number {number} was never reached"));
            }
        }
        for (what, entries) in reachable() {
            for entry in entries {
                if self.times(what, &entry) == 0 {
                    let (file, heading, name) = entry;
                    missing.push(format!("{what}: never at file {file}, {heading}, {name}"));
                }
            }
        }
        for (_, wanted) in wanted() {
            missing.extend(self.met.missing(&wanted));
        }
        missing
    }

    pub fn print(&self) {
        let head: Vec<String> = CALLS
            .iter()
            .map(|(call, _)| format!("{call:>10}"))
            .collect();
        println!("number {}", head.join(" "));
        for number in 0..NUMBERS {
            let counts = self.counts.map(|counts| format!("{:10}", counts[number]));
            println!("{number:6} {}", counts.join(" "));
        }
        println!("files read back after writing: {}", self.read_back);
        println!("accepted sets written and judged again: {}", self.rewritten);
        for (what, entries) in reachable() {
            let times: Vec<u64> = entries.iter().map(|e| self.times(what, e)).collect();
            println!("{what}, entries: {}", summary(&times));
        }
        for (name, wanted) in wanted() {
            self.met.print(name, &wanted);
        }
    }
}
