//! Faults in what 02, 7/14 asks.

use outside::judge::{make, Call, Reference, ANSWER};
use outside::mutator::PLACES_BEFORE;
use outside::reference::places::{is_read, put_triples, triples, triples_of, Triple, ENTRIES};
use outside::reference::tables::{table, AC2, ACC, DRIFT, FILES, GAS, OPACITY, SUSPENSION};
use outside::reference::PLACES;

use super::opacity::refuse;

#[derive(Clone, Copy, Debug)]
pub enum Lines {
    /// The lines of entries are others.
    Wrong(Line),
    /// Those of one file.
    WrongIn(u32, Line),
    NotInSets,
    NotAlone,
    NotInColumns,
    BeforeLength,
    /// All pairs stand as before, and all lines behind them.
    BehindPairs,
    Left(Unused),
    /// A file that is not read has the last line of the file that was read before.
    LastLineKept,
    LeastAsBefore,
    Writing(Writing),
}

/// A line in place of the one on which the entry stands.
#[derive(Clone, Copy, Debug)]
pub enum Line {
    Zero,
    FromZero,
    OneMore,
    OfHeading,
    /// As if its section were the first.
    InSection,
    /// The headings of later sections are not counted.
    FirstHeadingAlone,
    /// That which it would have if it were written.
    InTableOrder,
    OfFirstOfName,
    OfNextEntry,
    /// Counting goes on from the last line of the file that was read before.
    FromFileBefore,
    InBits(u32),
}

/// Triples whose third number is left as it was.
#[derive(Clone, Copy, Debug)]
pub enum Unused {
    OfFile,
    OfAxle,
    AfterRefusal,
}

/// A fault in writing.
#[derive(Clone, Copy, Debug)]
pub enum Writing {
    RefusesZero,
    /// A line of more than 16 bits.
    RefusesLarge,
    /// A line other than that of the text.
    RefusesOther,
    /// 17 and 9 carry the third number.
    NamesThird,
    /// The third numbers become the lines that are written.
    PutsLines,
    RefusesMorePlaces,
    ReadsPairs,
}

pub const FAULTS: [Lines; 34] = [
    Lines::Wrong(Line::Zero),
    Lines::Wrong(Line::FromZero),
    Lines::Wrong(Line::OneMore),
    Lines::Wrong(Line::OfHeading),
    Lines::Wrong(Line::InSection),
    Lines::Wrong(Line::FirstHeadingAlone),
    Lines::Wrong(Line::InTableOrder),
    Lines::Wrong(Line::OfFirstOfName),
    Lines::Wrong(Line::OfNextEntry),
    Lines::Wrong(Line::FromFileBefore),
    // Opacity has 56 lines.
    Lines::Wrong(Line::InBits(5)),
    Lines::WrongIn(AC2, Line::OneMore),
    Lines::WrongIn(ACC, Line::OneMore),
    Lines::WrongIn(DRIFT, Line::OneMore),
    Lines::WrongIn(SUSPENSION, Line::OneMore),
    Lines::WrongIn(GAS, Line::OneMore),
    Lines::WrongIn(OPACITY, Line::OneMore),
    Lines::NotInSets,
    Lines::NotAlone,
    Lines::NotInColumns,
    Lines::BeforeLength,
    Lines::BehindPairs,
    Lines::Left(Unused::OfFile),
    Lines::Left(Unused::OfAxle),
    Lines::Left(Unused::AfterRefusal),
    Lines::LastLineKept,
    Lines::LeastAsBefore,
    Lines::Writing(Writing::RefusesZero),
    Lines::Writing(Writing::RefusesLarge),
    Lines::Writing(Writing::RefusesOther),
    Lines::Writing(Writing::NamesThird),
    Lines::Writing(Writing::PutsLines),
    Lines::Writing(Writing::RefusesMorePlaces),
    Lines::Writing(Writing::ReadsPairs),
];

impl Lines {
    /// Spoils the answer to a call, its places or its output.
    pub fn spoil(self, call: &Call, places: &mut [u32], output: &mut [u8], answer: &mut [u32]) {
        match (self, answer[0]) {
            (Lines::LeastAsBefore, 1) if places.len() >= PLACES_BEFORE => answer.fill(0),
            (Lines::Writing(fault), _) => fault.spoil(call, places, output, answer),
            (Lines::Left(unused), number) if number != 1 && call.fills_places() => {
                unused.leave(call.places(), places, number);
            }
            (_, 0) if call.fills_places() => self.spoil_filled(call, places),
            _ => {}
        }
    }

    fn spoil_filled(self, call: &Call, places: &mut [u32]) {
        match self {
            Lines::BeforeLength => {
                for triple in places[..PLACES].chunks_exact_mut(Triple::NUMBERS) {
                    triple.swap(1, 2);
                }
            }
            Lines::BehindPairs => {
                let all: Vec<Triple> = triples(&places[..PLACES]).collect();
                let pairs = all.iter().flat_map(|triple| [triple.start, triple.length]);
                let lines = all.iter().map(|triple| triple.line);
                for (place, number) in places.iter_mut().zip(pairs.chain(lines)) {
                    *place = number;
                }
            }
            Lines::LastLineKept => keep_last_lines(places),
            _ => self.spoil_lines(call, places),
        }
    }

    fn spoil_lines(self, call: &Call, places: &mut [u32]) {
        let mut behind = match call {
            Call::Due { file, ac2, .. } if *file != AC2 => last_line(ac2),
            _ => 0,
        };
        for file in FILES {
            let found = Found::new(file, places, behind);
            if let Some(line) = self.line_in(file, call) {
                let entries = 0..found.entries.len();
                put_triples(places, file, entries.map(|at| found.with(line, at)));
            }
            behind += found.last().unwrap_or(0);
        }
    }

    /// What is wrong with the lines of a file after this call.
    fn line_in(self, file: u32, call: &Call) -> Option<Line> {
        match (self, call) {
            (Lines::Wrong(line), _) => Some(line),
            (Lines::WrongIn(other, line), _) => (other == file).then_some(line),
            (Lines::NotInSets, Call::Judge { .. })
            | (Lines::NotAlone, Call::Read { .. })
            | (Lines::NotInColumns, Call::Due { .. }) => Some(Line::Zero),
            _ => None,
        }
    }
}

/// Gives each file that was not read the last line of the file that was read before.
fn keep_last_lines(places: &mut [u32]) {
    let mut kept = Triple::default();
    for file in FILES {
        match Found::new(file, places, 0).last() {
            Some(line) => kept.line = line,
            None => put_triples(places, file, vec![kept; table(file).most_entries()]),
        }
    }
}

fn last_line(text: &[u8]) -> u32 {
    text.iter().filter(|byte| **byte == b'\n').count() as u32
}

/// An entry: the number of its section, its name and its triple.
type EntryFound = (usize, &'static str, Triple);

/// All entries that a file may have.
fn entries_of(file: u32, places: &[u32]) -> impl Iterator<Item = EntryFound> + '_ {
    let sections = table(file).sections.iter().enumerate();
    let names = sections.flat_map(|(at, section)| {
        let entries = section.entries.iter();
        entries.map(move |entry| (at, entry.name.as_str()))
    });
    let entries = names.zip(triples_of(file, places));
    entries.map(|((at, name), triple)| (at, name, triple))
}

/// The lines that entries have where they are written, behind the entries and headings before them.
fn written_lines(entries: &[EntryFound]) -> impl Iterator<Item = u32> + '_ {
    let numbered = entries.iter().enumerate();
    numbered.map(|(at, (section, ..))| (section + at) as u32 + 2)
}

/// The entries of a file that were read.
struct Found {
    entries: Vec<EntryFound>,
    /// The last line before the file.
    behind: u32,
}

impl Found {
    fn new(file: u32, places: &[u32], behind: u32) -> Found {
        let entries = entries_of(file, places).filter(|(.., triple)| triple.is_used());
        let entries = entries.collect();
        Found { entries, behind }
    }

    /// The last line of the file, if it was read.
    fn last(&self) -> Option<u32> {
        let lines = self.entries.iter().map(|(.., triple)| triple.line);
        lines.max()
    }

    /// The line of a section's heading.
    fn heading(&self, section: usize) -> u32 {
        let own = self.entries.iter().filter(|(other, ..)| *other == section);
        let first = own.map(|(.., triple)| triple.line).min();
        first.expect("a section has entries") - 1
    }

    /// How many headings stand before a line.
    fn headings_before(&self, line: u32) -> u32 {
        let sections = 0..=self.entries.last().map_or(0, |(section, ..)| *section);
        let before = sections.filter(|section| self.heading(*section) < line);
        before.count() as u32
    }

    /// The triple of an entry with this wrong line.
    fn with(&self, wrong: Line, at: usize) -> Triple {
        let (section, name, triple) = self.entries[at];
        let line = match wrong {
            Line::Zero => 0,
            Line::FromZero => triple.line - 1,
            Line::OneMore => triple.line + 1,
            Line::OfHeading => self.heading(section),
            Line::InSection => triple.line + 1 - self.heading(section),
            Line::FirstHeadingAlone => triple.line + 1 - self.headings_before(triple.line),
            Line::InTableOrder => written_lines(&self.entries).nth(at).expect("an entry"),
            Line::OfFirstOfName => self.first_of_name(name),
            Line::OfNextEntry => self.entries[(at + 1) % self.entries.len()].2.line,
            Line::FromFileBefore => self.behind + triple.line,
            Line::InBits(bits) => triple.line & ((1 << bits) - 1),
        };
        Triple { line, ..triple }
    }

    fn first_of_name(&self, name: &str) -> u32 {
        let mut entries = self.entries.iter();
        let first = entries.find(|(_, other, _)| *other == name);
        first.expect("the entry itself").2.line
    }
}

impl Unused {
    /// Leaves third numbers as they were before a call that was answered by this number.
    fn leave(self, before: &[u32], places: &mut [u32], number: u32) {
        for file in FILES {
            let is_left = match self {
                Unused::OfFile => number == 0 && !is_read(file, places),
                Unused::OfAxle => number == 0 && is_read(file, places),
                Unused::AfterRefusal => number != 0,
            };
            if is_left {
                let both = triples_of(file, places).zip(triples_of(file, before));
                let left: Vec<Triple> = both.map(left).collect();
                put_triples(places, file, left);
            }
        }
    }
}

/// A triple with the line that stood there before, if it is unused.
fn left((triple, before): (Triple, Triple)) -> Triple {
    let line = if triple.is_used() {
        triple.line
    } else {
        before.line
    };
    Triple { line, ..triple }
}

impl Writing {
    fn spoil(self, call: &Call, places: &mut [u32], output: &mut [u8], answer: &mut [u32]) {
        // 1 and 16 come before the triples are looked at.
        let (Call::Write { text, file, .. }, 0 | 9 | 17 | 18) = (call, answer[0]) else {
            return;
        };
        let lent = entries_lent(call, places);
        let any = |wrong: &dyn Fn(&Triple) -> bool| lent.iter().any(|(.., triple)| wrong(triple));
        let refused = match self {
            Writing::RefusesZero => any(&|triple| triple.line == 0),
            Writing::RefusesLarge => any(&|triple| triple.line > 0xFFFF),
            Writing::RefusesOther => any(&|triple| triple.line != line_in(text, triple.start)),
            Writing::RefusesMorePlaces => places.len() > PLACES,
            _ => false,
        };
        if refused {
            refuse(answer, [17, *file, 2]);
            return;
        }
        match (self, answer[0]) {
            (Writing::NamesThird, 9 | 17) => {
                let lines = written_lines(&lent).collect::<Vec<_>>();
                let at = lines.iter().position(|line| *line == answer[2]);
                answer[2] = lent[at.expect("the line of an entry")].2.line;
            }
            (Writing::PutsLines, 0) => {
                let lines = written_lines(&lent);
                let put = lent.iter().zip(lines);
                put_triples(
                    places,
                    *file,
                    put.map(|((.., triple), line)| Triple { line, ..*triple }),
                );
            }
            (Writing::ReadsPairs, _) => {
                let written = make(&Reference, &with_pairs(call));
                answer[..ANSWER].copy_from_slice(&written.answer);
                output.copy_from_slice(&written.output);
            }
            _ => {}
        }
    }
}

/// The entries that a writing looks at.
fn entries_lent(call: &Call, places: &[u32]) -> Vec<EntryFound> {
    let Call::Write { file, axles, .. } = call else {
        panic!("a writing");
    };
    let count = table(*file).entry_count(*axles as usize);
    entries_of(*file, places).take(count).collect()
}

/// The line on which a value starts, by the line ends before it.
fn line_in(text: &[u8], start: u32) -> u32 {
    let before = &text[..text.len().min(start as usize)];
    last_line(before) + 1
}

/// The writing whose triples are made of the pairs that stand there.
fn with_pairs(call: &Call) -> Call {
    let mut other = call.clone();
    if let Call::Write { places, .. } = &mut other {
        let pairs = places.chunks_exact(2).take(ENTRIES);
        let triples = pairs.flat_map(|pair| [pair[0], pair[1], 0]);
        *places = triples.collect();
    }
    other
}
