//! Writings, changed or not.

use super::files::lines_of;
use super::values::edge_value;
use super::{places_length, PICKED_FILES, WRONG_FILES};
use crate::generator::{any_axles, Values};
use crate::random::Random;
use crate::reference::kinds::Kind;
use crate::reference::places::{first_place, put_triples, triples, Triple, ENTRIES};
use crate::reference::tables::{table, FILES, MOST_AXLES};

/// A writing; its values, if nothing was changed.
pub struct Writing {
    pub text: Vec<u8>,
    pub places: Vec<u32>,
    pub file: u32,
    pub axles: u32,
    pub output_length: usize,
    pub lawful: Option<Values>,
    pub changes: Vec<&'static str>,
}

/// A writing of values that are right by their kinds, changed or not.
pub fn writing(random: &mut Random) -> Writing {
    let mut file = random.pick(PICKED_FILES);
    let axles = any_axles(random, file);
    let values = Values::by_kinds(random, file, axles);
    let (mut text, mut triples) = if random.chance(50) {
        values.text_and_triples(random)
    } else {
        packed(random, &values)
    };
    let mut changes = Vec::new();
    if random.chance(60) {
        let kinds: Vec<Kind> = values.kinds().collect();
        for _ in 0..random.pick(&[1, 1, 1, 2, 4]) {
            let at = random.below(kinds.len());
            changes.push(change_pair(random, kinds[at], &mut text, &mut triples[at]));
        }
    }
    let output_length = output_length(random, file, axles, &triples);
    let places = lend_places(random, file, &triples);
    let mut axles = axles as u32;
    if random.chance(8) {
        changes.push("file or axles");
        match random.below(4) {
            0 => file = random.pick(WRONG_FILES),
            1 => file = random.pick(&FILES),
            2 => axles = random.pick(&[0, 1, 10, 11, 256, 65_537, u32::MAX]),
            _ => axles = random.between(0, 10) as u32,
        }
    }
    Writing {
        text,
        places,
        file,
        axles,
        output_length,
        lawful: changes.is_empty().then_some(values),
        changes,
    }
}

/// Third numbers that writing ignores (02, 7/14): what becomes of those that are lent.
#[derive(Clone, Copy, Debug, PartialEq, Eq)]
pub enum OtherLines {
    Zero,
    One,
    Largest,
    /// Each is that of the next entry.
    Swapped,
    OneMore,
    /// Behind the last line of the text.
    PastLast,
}

impl OtherLines {
    pub const ALL: [OtherLines; 6] = [
        OtherLines::Zero,
        OtherLines::One,
        OtherLines::Largest,
        OtherLines::Swapped,
        OtherLines::OneMore,
        OtherLines::PastLast,
    ];

    pub fn name(self) -> &'static str {
        match self {
            OtherLines::Zero => "each line 0",
            OtherLines::One => "each line 1",
            OtherLines::Largest => "each line the largest number",
            OtherLines::Swapped => "each line that of the next entry",
            OtherLines::OneMore => "each line one more",
            OtherLines::PastLast => "each line past the last",
        }
    }

    /// Places with other third numbers, those of other files too, and with other numbers past the least.
    pub fn put(self, places: &[u32], text: &[u8]) -> Vec<u32> {
        let last = lines_of(text).len() as u32;
        let lent: Vec<Triple> = triples(places).take(ENTRIES).collect();
        let others = (0..lent.len()).map(|at| Triple {
            line: self.line(&lent, at, last),
            ..lent[at]
        });
        let mut other: Vec<u32> = others.flat_map(Triple::numbers).collect();
        let past = places[other.len()..].iter();
        other.extend(past.map(|number| !number));
        other
    }

    fn line(self, lent: &[Triple], at: usize, last: u32) -> u32 {
        match self {
            OtherLines::Zero => 0,
            OtherLines::One => 1,
            OtherLines::Largest => u32::MAX,
            OtherLines::Swapped => lent[(at + 1) % lent.len()].line,
            OtherLines::OneMore => lent[at].line.wrapping_add(1),
            OtherLines::PastLast => last + 1 + at as u32,
        }
    }
}

/// Values between other bytes, in any order; where each stands, in entry order, with any line, since the text has none.
fn packed(random: &mut Random, values: &Values) -> (Vec<u8>, Vec<Triple>) {
    let values: Vec<&Vec<u8>> = values.all().collect();
    let mut text = Vec::new();
    let mut triples = vec![Triple::default(); values.len()];
    let mut order: Vec<usize> = (0..values.len()).collect();
    random.shuffle(&mut order);
    for at in order {
        if random.chance(30) {
            let count = random.below(4);
            text.extend(random.bytes(count));
        }
        triples[at] = Triple {
            start: text.len() as u32,
            length: values[at].len() as u32,
            line: random.number() as u32,
        };
        text.extend(values[at]);
    }
    // An empty value may start anywhere in the text, or at its end.
    for empty in triples.iter_mut().filter(|triple| triple.length == 0) {
        empty.start = match random.below(4) {
            0 => 0,
            1 => text.len() as u32,
            _ => random.below(text.len() + 1) as u32,
        };
    }
    (text, triples)
}

/// Places that hold these triples of a file; the others 0, the largest, or any.
fn lend_places(random: &mut Random, file: u32, triples: &[Triple]) -> Vec<u32> {
    let length = places_length(random);
    let mut places = match random.below(3) {
        0 => vec![0; length],
        1 => vec![u32::MAX; length],
        _ => (0..length).map(|_| random.number() as u32).collect(),
    };
    put_triples(&mut places, file, triples.iter().copied());
    places
}

/// How many bytes a file of values with these lengths has, by its table alone; at most 65,536.
fn file_length(file: u32, axles: usize, triples: &[Triple]) -> usize {
    let mut length: usize = triples.iter().map(|triple| triple.length as usize).sum();
    for section in table(file).sections(axles) {
        length += section.heading.len() + 2;
        for entry in &section.entries {
            length += entry.name.len() + 3;
        }
    }
    length.min(1 << 16)
}

/// More bytes than any file has that can be written.
const MORE_THAN_LONGEST: usize = 4_000;

/// Likewise of the file that a writing names, whatever it may be refused by: with no more axles than the file may have,
/// triples that are not lent empty, at most 4,000, and 0 for a file without a table.
pub fn named_length(places: &[u32], file: u32, axles: u32) -> usize {
    if !FILES.contains(&file) {
        return 0;
    }
    let table = table(file);
    let axles = match table.has_axles() {
        true => MOST_AXLES.min(axles as usize),
        false => 0,
    };
    let lent = places.get(first_place(file)..).unwrap_or(&[]);
    let triples: Vec<Triple> = triples(lent).take(table.entry_count(axles)).collect();
    file_length(file, axles, &triples).min(MORE_THAN_LONGEST)
}

/// A length near that of the file that these triples would give.
fn output_length(random: &mut Random, file: u32, axles: usize, triples: &[Triple]) -> usize {
    let length = file_length(file, axles, triples);
    match random.below(20) {
        0..=5 => length,
        6..=7 => length + 1,
        8..=10 => length - 1,
        11 => random.below(length),
        12 => 0,
        _ => length + random.below(200),
    }
}

/// Changes start and length of one triple, or the bytes that they name; the name of the change.
fn change_pair(
    random: &mut Random,
    kind: Kind,
    text: &mut Vec<u8>,
    triple: &mut Triple,
) -> &'static str {
    let end = text.len() as u32;
    let Triple {
        start,
        length,
        line,
    } = *triple;
    let (name, start, length) = match random.below(20) {
        0 => ("ends one past the text", end.saturating_sub(3), 4),
        1 => ("ends with the text", end.saturating_sub(length), length),
        2 => ("empty at the end", end, 0),
        3 => ("empty past the end", end + 1, 0),
        4 => {
            let start = u32::MAX - random.below(4) as u32;
            ("sum above 32 bits", start, random.between(1, 8) as u32)
        }
        5 => {
            let length = u32::MAX - random.below(4) as u32;
            ("length near 2^32", start, length)
        }
        6 => ("sum is 2^32", start, 0u32.wrapping_sub(start)),
        7 => ("start one more", start.saturating_add(1), length),
        8 => ("length one more", start, length.saturating_add(1)),
        9 => ("length one less", start, length.saturating_sub(1)),
        10 => {
            let start = random.below(text.len() + 1) as u32;
            ("any pair", start, random.below(12) as u32)
        }
        11 => ("emptied", start, 0),
        12..=13 => {
            if length > 0 && start < end {
                let bytes = &[0x1F, 0x7F, 0x00, 0x80, 0xFF, 0x0D, 0x0A, b'='];
                text[start as usize] = random.pick(bytes);
            }
            ("byte of a value", start, length)
        }
        _ => {
            let value = edge_value(random, kind);
            text.extend(&value);
            ("value at its edge", end, value.len() as u32)
        }
    };
    *triple = Triple {
        start,
        length,
        line,
    };
    name
}
