//! Pairs of drift files to be joined (02, 8/14), changed or not.

use super::files::{change_file, change_towards};
use crate::dates::{self, Date};
use crate::entries::{entries_to_agree, free_entries};
use crate::generator::{self, covering, Size, Values};
use crate::measures::{Measure, ENTRIES};
use crate::random::Random;
use crate::reference::kinds::Kind;
use crate::reference::places::Triple;
use crate::reference::tables::{DRIFT, MOST_AXLES};
use crate::reference::Refusal;

/// The most bytes of a joined file.
pub const LONGEST: usize = 1_401;

/// Two files to be joined.
pub struct Joining {
    pub inputs: [Vec<u8>; 2],
    pub output_length: usize,
    /// The joined file or the refusal, where both files are right.
    pub known: Option<Result<Vec<u8>, Refusal>>,
    pub changes: Vec<&'static str>,
}

/// Two drift files in any line order, of which one or both may be refused, or which may disagree.
pub fn joining(random: &mut Random) -> Joining {
    let mut pair = pair(random);
    let mut changes = change_pair(random, &mut pair);
    let [(first, _), (second, triples)] = lay_out(random, &pair);
    let known = joined(&pair, &triples);
    let output_length = match &known {
        Ok(joined) => output_length(random, joined.len()),
        Err(_) => random.pick(&[0, first.len(), LONGEST, 2_000]),
    };
    let known = known.and_then(|joined| match joined.len() > output_length {
        true => Err(Refusal::new(18, 0, 0)),
        false => Ok(joined),
    });
    let mut inputs = [first, second];
    let changed: &[usize] = match random.below(100) {
        0..=54 => &[],
        55..=69 => &[0],
        70..=84 => &[1],
        _ => &[0, 1],
    };
    for at in changed {
        changes.push(change_input(random, &mut inputs[*at]));
    }
    Joining {
        inputs,
        output_length,
        known: changed.is_empty().then_some(known),
        changes,
    }
}

/// Makes two files that agree the same, or lets their headings disagree; the name of the change, if there is one.
fn change_pair(random: &mut Random, pair: &mut [Values; 2]) -> Vec<&'static str> {
    match random.below(100) {
        0..=2 => {
            pair[1] = pair[0].clone();
            vec!["the same file twice"]
        }
        3..=42 => {
            disagree(random, pair);
            vec!["headings disagree"]
        }
        _ => Vec::new(),
    }
}

/// Both files, and where their values stand. Two files of the same values are the same byte for byte.
fn lay_out(random: &mut Random, pair: &[Values; 2]) -> [(Vec<u8>, Vec<Triple>); 2] {
    let first = pair[0].text_and_triples(random);
    let second = if pair[0] == pair[1] {
        first.clone()
    } else {
        pair[1].text_and_triples(random)
    };
    [first, second]
}

/// What comes of two files that are right, the output's size left aside: entries that disagree are found by going along
/// both, and a joined file is laid out in table order.
fn joined([first, second]: &[Values; 2], triples: &[Triple]) -> Result<Vec<u8>, Refusal> {
    let disagrees = |name: &&str| first.get(name) != second.get(name);
    let mut names = entries_to_agree().map(|entry| entry.name.as_str());
    if let Some(name) = names.find(disagrees) {
        let mut entries = first.table().sections[0].entries.iter().zip(triples);
        let entry = entries.find(|(entry, _)| entry.name == name);
        let (_, triple) = entry.expect("an entry of the table");
        return Err(Refusal::new(20, 2, triple.line));
    }
    let axles = first.axles + second.axles;
    if axles > MOST_AXLES {
        return Err(Refusal::new(21, 0, 0));
    }
    let [_, _, end] = ENTRIES;
    let mut joined = first.clone();
    joined.axles = axles;
    joined.sections.extend_from_slice(&second.sections[1..]);
    joined.set(end, second.get(end));
    Ok(joined.text_in_table_order())
}

/// Two drift files that agree.
fn pair(random: &mut Random) -> [Values; 2] {
    let size = Size::any(random);
    let (first_axles, second_axles) = axles(random);
    let mut first = generator::drift_of(random, first_axles, size);
    let mut second = first.clone();
    let other = generator::drift_of(random, second_axles, size);
    second.axles = second_axles;
    second.sections = [&first.sections[..1], &other.sections[1..]].concat();
    let (start, finish) = generator::times(random);
    let day = first.measure().day;
    let measure = Measure { day, start, finish };
    for (name, value) in measure.entries() {
        second.set(name, value);
    }
    let joined = first.measure().joined(measure);
    let due = due_date(random, joined).digits();
    for file in [&mut first, &mut second] {
        file.set("DataScadenza", &due);
    }
    [first, second]
}

/// How many axles the two files have: most often at most nine together.
fn axles(random: &mut Random) -> (usize, usize) {
    if random.chance(75) {
        let first = random.between(1, MOST_AXLES - 1);
        (first, random.between(1, MOST_AXLES - first))
    } else {
        (random.between(1, MOST_AXLES), random.between(1, MOST_AXLES))
    }
}

/// A due date, which joining does not judge: about the day on which the joined measure begins, covering it, or any.
fn due_date(random: &mut Random, joined: Measure) -> Date {
    let day = joined.day;
    let due = match random.below(8) {
        0..=1 => day,
        2..=3 => day.next(),
        4 => day.previous().unwrap_or(day),
        5 => covering(random, joined.end()),
        6 => generator::day(random),
        _ => dates::FIRST,
    };
    due.min(dates::LAST)
}

/// Gives the second file other values of one or several of the entries that must agree.
fn disagree(random: &mut Random, [first, second]: &mut [Values; 2]) {
    let mut entries: Vec<_> = entries_to_agree().collect();
    // From any entry on, so that each is often the first.
    if random.chance(60) {
        entries.drain(..random.below(entries.len()));
    }
    random.shuffle(&mut entries);
    let count = random.pick(&[1, 1, 1, 2, 2, 3, entries.len()]);
    for entry in entries.iter().take(count) {
        let name = entry.name.as_str();
        let may_be_empty = free_entries(DRIFT).contains(&name);
        if may_be_empty && random.chance(40) {
            // Filled in one file alone.
            let mut both = [&mut *first, &mut *second];
            random.shuffle(&mut both);
            let [filled, empty] = both;
            if filled.get(name).is_empty() {
                let value = generator::value(random, entry.kind, Size::Mixed);
                filled.set(name, value);
            }
            empty.set(name, "");
        } else {
            let value = other_value(random, entry.kind, first.get(name));
            second.set(name, value);
        }
    }
}

/// Another value of this kind, often one that is near.
fn other_value(random: &mut Random, kind: Kind, value: &[u8]) -> Vec<u8> {
    loop {
        let other = match random.below(5) {
            0 => generator::value(random, kind, Size::Mixed),
            _ if value.is_empty() => continue,
            _ => near_value(random, kind, value),
        };
        if other != value {
            return other;
        }
    }
}

/// A value of this kind that is near a filled one, or that value.
fn near_value(random: &mut Random, kind: Kind, value: &[u8]) -> Vec<u8> {
    let mut near = value.to_vec();
    let at = random.below(near.len());
    match (kind, random.below(4)) {
        (Kind::Text(_), 0) => {
            let is_letter = |at: &usize| value[*at].is_ascii_alphabetic();
            let letters: Vec<usize> = (0..value.len()).filter(is_letter).collect();
            if !letters.is_empty() {
                near[random.pick(&letters)] ^= 0x20;
            }
        }
        (Kind::Text(width), 1) if near.len() < width => near.push(random.between(0x20, 0x7E) as u8),
        (Kind::Text(_), 2) if near.len() > 1 => {
            near.pop();
        }
        (Kind::Text(_), _) => near[at] = random.between(0x20, 0x7E) as u8,
        (Kind::Number(width), 0..=1) if near.len() < width => near.insert(0, b'0'),
        (Kind::Number(_), _) => near[at] = random.digit(),
        (Kind::Date, _) => {
            let day = Date::from_digits(value);
            near = day.next().min(dates::LAST).digits();
        }
        _ => {}
    }
    near
}

/// Changes an input, most often so that it is refused by one of 3 to 11.
fn change_input(random: &mut Random, text: &mut Vec<u8>) -> &'static str {
    if random.chance(20) {
        return change_file(random, DRIFT, text).unwrap_or("an input as it was");
    }
    let number = random.between(3, 11) as u32;
    change_towards(random, number, DRIFT, text);
    "an input changed"
}

/// A length of the output, near that of the joined file.
fn output_length(random: &mut Random, length: usize) -> usize {
    match random.below(20) {
        0..=1 => 0,
        2..=4 => length - 1,
        5 => random.below(length),
        6..=11 => length,
        12..=14 => length + 1,
        15..=16 => LONGEST,
        _ => length + random.between(2, 2_000),
    }
}
