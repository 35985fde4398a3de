//! The lines beside the values that a run must meet (02, 7/14), by call, and what they must be.

use crate::judge::{Call, Outcome, Set};
use crate::met::{
    value_in, Met, Wanted, COLUMN, COLUMN_TURNED, COMMIT, JUDGED, JUDGED_AGAIN, JUDGED_TURNED,
    JUDGE_10, JUDGE_12, JUDGE_13, JUDGE_19, QUOTE, READ, READ_TURNED, WRITE,
};
use crate::mutator::writings::OtherLines;
use crate::mutator::PLACES_BEFORE;
use crate::reference::places::{triples_of, Triple};
use crate::reference::tables::{
    table, Table, AC2, ACC, DRIFT, FILES, MOST_AXLES, RESULT_FILES, SUSPENSION,
};
use crate::reference::PLACES;

/// The calls that are lent places, besides `WRITE`, `QUOTE` and `COMMIT`.
const JUDGE: &str = "judge";
const READ_ALONE: &str = "read";
const DUE: &str = "due";

/// Where an entry of a section stands in its file.
const ON_LINE_2: &str = "an entry on line 2";
const ON_LAST_LINE: &str = "an entry on the last line";
const BEHIND_ANOTHER: &str = "behind another section";
/// So that the headings and lines of sections count that come later in the table.
const BEHIND_LATER: &str = "behind a section that the table has later";

fn standing(file: u32, heading: &str, how: &str) -> String {
    format!("file {file}, {heading} {how}")
}

/// Triples that are 0: of a file, and of an axle.
fn not_given(file: u32) -> String {
    format!("file {file} not given, 0")
}

fn not_read(file: u32) -> String {
    format!("file {file} given and not read, 0")
}

fn no_axle(file: u32, axle: usize) -> String {
    format!("file {file} without axle {axle}, 0")
}

const REFUSED: &str = "refused, 0";

/// How many places were lent, and whether they were enough.
const AS_BEFORE: &str = "as many places as before 7/14, too few";
const ONE_LESS: &str = "one place less than the least";
const LEAST: &str = "the least number of places";
const ONE_MORE: &str = "one place more";
const MORE: &str = "several places more";

/// Two orders of the same lines.
fn other_lines(file: u32) -> String {
    format!("file {file} with the same values on other lines")
}

/// A refusal at the line of an entry, by that which its file read alone has beside it.
fn line_beside(file: u32) -> String {
    format!("file {file} at the line that it has read alone")
}

/// A writing, its quote or its commit with other third numbers, answered by a number.
fn written(lines: OtherLines, number: u32) -> String {
    format!("{}, answered by {number}", lines.name())
}

/// What a run must meet.
pub fn wanted() -> Vec<Wanted> {
    let mut wanted = Vec::new();
    let mut want = |calls: &[&'static str], all: Vec<String>| {
        for what in all {
            wanted.extend(calls.iter().map(|call| (*call, what.clone())));
        }
    };
    let reading = [JUDGED, READ, COLUMN];
    want(&reading, standings());
    want(&reading, axles_not_there());
    want(
        &[JUDGED],
        FILES[1..].iter().map(|file| not_given(*file)).collect(),
    );
    want(&[READ, COLUMN], FILES.map(not_given).to_vec());
    want(&[JUDGED, COLUMN], vec![not_read(ACC)]);
    want(&[JUDGE, READ_ALONE, DUE], vec![REFUSED.to_string()]);
    let lent = [AS_BEFORE, ONE_LESS, LEAST, ONE_MORE, MORE].map(str::to_string);
    let lending = [JUDGE, READ_ALONE, WRITE, QUOTE, COMMIT, DUE];
    want(&lending, lent.to_vec());
    let orders = [JUDGED_AGAIN, JUDGED_TURNED, READ_TURNED, COLUMN_TURNED];
    want(&orders, FILES.map(other_lines).to_vec());
    want(&[JUDGE_10], FILES.map(line_beside).to_vec());
    want(&[JUDGE_12], [AC2, ACC].map(line_beside).to_vec());
    want(&[JUDGE_13], vec![line_beside(SUSPENSION)]);
    want(&[JUDGE_19], RESULT_FILES.map(line_beside).to_vec());
    for number in [0, 1, 9, 16, 17, 18] {
        let calls: &[&'static str] = match number {
            // No output is lent for a quote.
            18 => &[WRITE, COMMIT],
            _ => &[WRITE, QUOTE, COMMIT],
        };
        let ways = OtherLines::ALL.map(|lines| written(lines, number));
        want(calls, ways.to_vec());
    }
    wanted
}

/// Each section in each place that it can have.
fn standings() -> Vec<String> {
    let mut wanted = Vec::new();
    for file in FILES {
        let sections = &table(file).sections;
        for (section, at) in sections.iter().zip(1..) {
            let mut want = |how| wanted.push(standing(file, &section.heading, how));
            want(ON_LINE_2);
            want(ON_LAST_LINE);
            if sections.len() > 1 {
                want(BEHIND_ANOTHER);
            }
            if at < sections.len() {
                want(BEHIND_LATER);
            }
        }
    }
    wanted
}

fn axles_not_there() -> Vec<String> {
    let axles = |file| (2..=MOST_AXLES).map(move |axle| no_axle(file, axle));
    [DRIFT, SUSPENSION].into_iter().flat_map(axles).collect()
}

/// The text of a file that an accepted call read.
struct TextRead<'a> {
    file: u32,
    text: &'a [u8],
    axles: usize,
}

/// What an accepted call read, said without its places.
fn texts_read<'a>(call: &'a Call, outcome: &Outcome) -> Vec<TextRead<'a>> {
    let read = |file, text, axles: u32| TextRead {
        file,
        text,
        axles: axles as usize,
    };
    match call {
        Call::Judge { set, .. } => {
            let files = FILES.into_iter().filter(|file| is_read(set, *file));
            files
                .map(|file| read(file, set.slice(file), outcome.axles(file)))
                .collect()
        }
        Call::Read { file, text, .. } => vec![read(*file, text, outcome.answer[3])],
        // Without entries only where an old booking is not read.
        Call::Due { file, text, .. } if outcome.answer[4] > 0 => {
            vec![read(*file, text, outcome.answer[3])]
        }
        _ => Vec::new(),
    }
}

/// 01, Bookings: an old booking "With category L .. is not read".
fn is_read(set: &Set, file: u32) -> bool {
    match (file, set.slice(file)) {
        (_, []) => false,
        (ACC, _) => !value_in(set.slice(AC2), "CategoriaInternazionale").starts_with('L'),
        _ => true,
    }
}

impl<'a> TextRead<'a> {
    fn table(&self) -> &'static Table {
        table(self.file)
    }

    /// Whether its entries stand where triples say: each value behind the name and `=`, which a line end is before, as far
    /// as the next line end, and on the line that is one more than the line ends before it, so at least 2.
    fn stands_at(&self, triples: impl Iterator<Item = Triple>) -> bool {
        let line_ends: Vec<usize> = self.line_ends().collect();
        let sections = self.table().sections(self.axles).iter();
        let mut entries = sections.flat_map(|section| &section.entries).zip(triples);
        entries.all(|(entry, triple)| {
            let (start, length) = (triple.start as usize, triple.length as usize);
            let before = line_ends.partition_point(|end| *end < start);
            self.is_behind(start, &entry.name)
                && line_ends.get(before) == Some(&(start + length))
                && triple.line as usize == before + 1
        })
    }

    /// Where CR LF stands.
    fn line_ends(&self) -> impl Iterator<Item = usize> + 'a {
        let pairs = self.text.windows(2).enumerate();
        pairs.filter_map(|(at, pair)| (pair == b"\r\n").then_some(at))
    }

    /// Whether a line begins with this name and `=`, and its value here.
    fn is_behind(&self, start: usize, name: &str) -> bool {
        let before = self.text.get(..start);
        let before = before.and_then(|text| text.strip_suffix(b"="));
        let before = before.and_then(|text| text.strip_suffix(name.as_bytes()));
        before.is_some_and(|text| text.ends_with(b"\n"))
    }

    /// Its values in entry order, each with its line.
    fn values(&self, places: &[u32]) -> Vec<(&'a [u8], u32)> {
        let triples = triples_of(self.file, places);
        let there = triples.take(self.table().entry_count(self.axles));
        there
            .map(|triple| (triple.value(self.text), triple.line))
            .collect()
    }

    /// The headings of its sections in table order, each with the lines of its entries.
    fn lines_of_sections(&self, places: &[u32]) -> Vec<(&'static str, Vec<u32>)> {
        let mut lines = triples_of(self.file, places).map(|triple| triple.line);
        let sections = self.table().sections(self.axles).iter();
        sections
            .map(|section| {
                let lines = lines.by_ref().take(section.entries.len());
                (section.heading.as_str(), lines.collect())
            })
            .collect()
    }
}

/// Whether the places after a call are those that its texts say: of each entry that was read where it stands, else 0; the
/// numbers past the least stay, and all of them where they are too few.
pub fn is_right(call: &Call, outcome: &Outcome) -> bool {
    let read = match outcome.answer[0] {
        number if number == 1 || !call.fills_places() => return outcome.places == call.places(),
        0 => texts_read(call, outcome),
        _ => Vec::new(),
    };
    let are_right = |file| {
        let mut triples = triples_of(file, &outcome.places);
        let text = read.iter().find(|read| read.file == file);
        text.is_none_or(|read| read.stands_at(triples.by_ref()))
            && triples.all(|triple| triple == Triple::default())
    };
    FILES.into_iter().all(are_right) && outcome.places[PLACES..] == call.places()[PLACES..]
}

/// Notes where the entries stand that an accepted call read, and what it has no lines of.
pub fn note(met: &mut Met, what: &'static str, call: &Call, outcome: &Outcome) {
    let read = texts_read(call, outcome);
    for text in &read {
        note_standings(met, what, text, &outcome.places);
        if text.table().has_axles() {
            let missing = text.axles + 1..=MOST_AXLES;
            missing.for_each(|axle| met.count(what, no_axle(text.file, axle)));
        }
    }
    let is_read = |file: u32| read.iter().any(|text| text.file == file);
    for file in FILES.into_iter().filter(|file| !is_read(*file)) {
        let given = is_given(call, file);
        let zero = if given {
            not_read(file)
        } else {
            not_given(file)
        };
        met.count(what, zero);
    }
}

fn is_given(call: &Call, file: u32) -> bool {
    match call {
        Call::Judge { set, .. } => !set.slice(file).is_empty(),
        Call::Due {
            file: other, text, ..
        } => *other == file && !text.is_empty(),
        _ => false,
    }
}

fn note_standings(met: &mut Met, what: &'static str, read: &TextRead, places: &[u32]) {
    let last = read.line_ends().count() as u32;
    let sections = read.lines_of_sections(places);
    // A section's lines stand together, so that any of them tells.
    let is_before = |one: &[u32], other: &[u32]| one[0] < other[0];
    for (at, (heading, lines)) in sections.iter().enumerate() {
        let mut note = |how| met.count(what, standing(read.file, heading, how));
        if lines.contains(&2) {
            note(ON_LINE_2);
        }
        if lines.contains(&last) {
            note(ON_LAST_LINE);
        }
        if sections.iter().any(|(_, other)| is_before(other, lines)) {
            note(BEHIND_ANOTHER);
        }
        let later = &sections[at + 1..];
        if later.iter().any(|(_, other)| is_before(other, lines)) {
            note(BEHIND_LATER);
        }
    }
}

/// Notes how many places a call was lent, and a refusal that leaves none filled.
pub fn note_lent(met: &mut Met, name: &'static str, call: &Call, number: u32) {
    const LESS_THAN_LEAST: usize = PLACES - 1;
    const MORE_THAN_LEAST: usize = PLACES + 1;
    let what = match (call.places().len(), number) {
        (0, _) => return,
        (PLACES_BEFORE, 1) => AS_BEFORE,
        (LESS_THAN_LEAST, 1) => ONE_LESS,
        (_, 1) => return,
        (PLACES, 0) => LEAST,
        (MORE_THAN_LEAST, 0) => ONE_MORE,
        (_, 0) => MORE,
        _ if call.fills_places() => REFUSED,
        _ => return,
    };
    met.count(name, what);
}

/// A call with what comes of it.
pub type Made<'a> = (&'a Call, &'a Outcome);

/// Whether two accepted calls, whose files have the same lines in two orders, read the same values.
pub fn have_same_values(both: [Made; 2]) -> bool {
    let [before, after] = both.map(|(call, outcome)| {
        let read = texts_read(call, outcome).into_iter();
        let values = read.flat_map(|text| text.values(&outcome.places));
        values.map(|(value, _)| value).collect::<Vec<_>>()
    });
    before == after
}

/// Notes of which files two such calls read the values on other lines.
pub fn note_orders(met: &mut Met, what: &'static str, both: [Made; 2]) {
    let [before, after] = both.map(|(call, outcome)| {
        let read = texts_read(call, outcome).into_iter();
        let values = read.map(|text| (text.file, text.values(&outcome.places)));
        values.collect::<Vec<_>>()
    });
    for (one, other) in before.iter().zip(&after) {
        if one != other {
            met.count(what, other_lines(one.0));
        }
    }
}

/// Notes a set that is refused by 10, 12, 13 or 19 at the line of an entry.
pub fn note_refused(met: &mut Met, number: u32, file: u32) {
    let what = match number {
        10 => JUDGE_10,
        12 => JUDGE_12,
        13 => JUDGE_13,
        _ => JUDGE_19,
    };
    met.count(what, line_beside(file));
}

/// Notes a writing, a quote or a commit that other third numbers did not change.
pub fn note_written(met: &mut Met, call: &Call, lines: OtherLines, number: u32) {
    let name = match call {
        Call::Quote { .. } => QUOTE,
        Call::Commit { .. } => COMMIT,
        _ => WRITE,
    };
    met.count(name, written(lines, number));
}
