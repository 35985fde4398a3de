//! Faults in what 02, 8/14 asks.

use outside::dates::Date;
use outside::devices::{line_of, measure_in};
use outside::entries::entries_to_agree;
use outside::generator::join_lines;
use outside::judge::{make, Call, Reference};
use outside::met::value_in;
use outside::mutator::files::{lines_of, set_value, value_of, with_value};
use outside::reference::judging::read_alone;
use outside::reference::tables::{table, DRIFT, MOST_AXLES};
use outside::reference::PLACES;
use outside::report::entry_at;

use super::opacity::refuse;

const START: &str = "InizioMisura";
const END: &str = "FineMisura";
const DUE_DATE: &str = "DataScadenza";

#[derive(Clone, Copy, Debug)]
pub enum Joining {
    SecondStart,
    FirstEnd,
    /// The second's axles are numbered from 1.
    FromAxle1,
    SecondAxlesFirst,
    /// The second's axles are numbered in the order in which they stand.
    AsTheyStand,
    /// The sections and entries of the first stand as they did.
    InOrderOfFirst,
    Longer,
    NotCompared(&'static str),
    /// Values agree that do not byte for byte.
    Agree(Alike),
    TimeCompared(&'static str),
    /// A refusal before another.
    Before(u32, u32),
    TenBehindHeadings(u32),
    SecondInputFirst,
    NotJudged(u32, u32),
    /// The file and the line of a refusal.
    Names(u32, u32, u32),
    FileThree,
    LineOfFirst,
    LastNamed,
    /// The first of those that disagree, by lines.
    FirstOnLines,
    MostAxles(usize),
    /// The due date is judged, by the measure of an input, or of the joined file.
    DueDate(Measured),
    OutputOnRefusal(u32),
    PastLength,
    LengthInNumber4,
    ShortAnswer(Short),
}

/// How values that differ are taken as the same.
#[derive(Clone, Copy, Debug)]
pub enum Alike {
    InCase,
    AsNumbers,
    /// An empty value agrees with any.
    Empty,
    /// As far as the shorter one goes.
    ByBeginning,
    ByLength,
    /// Eight bytes at a time, without those left over.
    ByWholeWords,
}

#[derive(Clone, Copy, Debug)]
pub enum Measured {
    First,
    Second,
    Joined,
}

/// What is touched where the answer array is too short.
#[derive(Clone, Copy, Debug)]
pub enum Short {
    Answer,
    Output,
}

pub const FAULTS: [Joining; 52] = [
    Joining::SecondStart,
    Joining::FirstEnd,
    Joining::FromAxle1,
    Joining::SecondAxlesFirst,
    Joining::AsTheyStand,
    Joining::InOrderOfFirst,
    Joining::Longer,
    Joining::Agree(Alike::InCase),
    Joining::Agree(Alike::AsNumbers),
    Joining::Agree(Alike::Empty),
    Joining::Agree(Alike::ByBeginning),
    Joining::Agree(Alike::ByLength),
    Joining::Agree(Alike::ByWholeWords),
    Joining::TimeCompared(START),
    Joining::TimeCompared(END),
    Joining::Before(21, 20),
    Joining::Before(18, 21),
    Joining::Before(18, 20),
    Joining::TenBehindHeadings(1),
    Joining::TenBehindHeadings(2),
    Joining::SecondInputFirst,
    Joining::NotJudged(10, 1),
    Joining::NotJudged(10, 2),
    Joining::NotJudged(11, 2),
    Joining::Names(18, DRIFT, 0),
    Joining::Names(18, 2, 0),
    Joining::Names(21, 2, 0),
    Joining::Names(21, 0, 1),
    Joining::Names(20, 1, 2),
    Joining::Names(11, 0, 0),
    Joining::FileThree,
    Joining::LineOfFirst,
    Joining::LastNamed,
    Joining::FirstOnLines,
    Joining::MostAxles(8),
    Joining::MostAxles(10),
    Joining::MostAxles(17),
    Joining::DueDate(Measured::First),
    Joining::DueDate(Measured::Second),
    Joining::DueDate(Measured::Joined),
    Joining::OutputOnRefusal(3),
    Joining::OutputOnRefusal(9),
    Joining::OutputOnRefusal(10),
    Joining::OutputOnRefusal(11),
    Joining::OutputOnRefusal(18),
    Joining::OutputOnRefusal(20),
    Joining::OutputOnRefusal(21),
    Joining::PastLength,
    Joining::LengthInNumber4,
    Joining::ShortAnswer(Short::Answer),
    Joining::ShortAnswer(Short::Output),
    Joining::NotJudged(9, 2),
];

/// Those of each entry that must agree.
pub fn faults_of_entries() -> impl Iterator<Item = Joining> {
    entries_to_agree().map(|entry| Joining::NotCompared(&entry.name))
}

/// The axles of a file that passes 3 to 9.
fn axles(text: &[u8]) -> Option<usize> {
    let mut places = [0; PLACES];
    let read = read_alone(DRIFT, text, &mut places);
    read.ok().map(|read| read.axles as usize)
}

/// The names of the entries that must agree and do not, in table order.
fn disagreeing(first: &[u8], second: &[u8]) -> Vec<&'static str> {
    let names = entries_to_agree().map(|entry| entry.name.as_str());
    names
        .filter(|name| value_in(first, name) != value_in(second, name))
        .collect()
}

/// The joining of two other files to the same output.
fn joining(first: Vec<u8>, second: Vec<u8>, output: &[u8]) -> Call {
    let output = output.to_vec();
    Call::Join {
        first,
        second,
        output,
    }
}

fn with(text: &[u8], name: &str, value: &str) -> Vec<u8> {
    let mut text = text.to_vec();
    set_value(&mut text, name, value.as_bytes());
    text
}

impl Joining {
    /// A call with the inputs for which its own are taken.
    pub fn taken(self, call: &Call) -> Call {
        let Call::Join {
            first,
            second,
            output,
        } = call
        else {
            return call.clone();
        };
        if axles(first).is_none() || axles(second).is_none() {
            return call.clone();
        }
        let (mut one, mut other) = (first.clone(), second.clone());
        match self {
            Joining::SecondStart => one = with(first, START, value_in(second, START)),
            Joining::FirstEnd => other = with(second, END, value_in(first, END)),
            _ => {
                let names = disagreeing(first, second).into_iter();
                for name in names.filter(|name| self.agree(name, first, second)) {
                    other = with(&other, name, value_in(first, name));
                }
            }
        }
        joining(one, other, output)
    }

    /// Whether the values of an entry are taken as the same.
    fn agree(self, name: &str, first: &[u8], second: &[u8]) -> bool {
        let both = [first, second].map(|text| value_in(text, name));
        match self {
            Joining::NotCompared(other) => other == name,
            Joining::Agree(alike) => alike.agree(both),
            _ => false,
        }
    }

    /// Spoils the answer to a call, or its output.
    pub fn spoil(self, call: &Call, output: &mut [u8], answer: &mut [u32]) {
        let Call::Join { first, second, .. } = call else {
            return;
        };
        match answer[0] {
            0 => self.spoil_joined(first, second, output, answer),
            _ => self.spoil_refused(first, second, output, answer),
        }
    }

    fn spoil_joined(self, first: &[u8], second: &[u8], output: &mut [u8], answer: &mut [u32]) {
        let length = answer[3] as usize;
        let joined = output[..length].to_vec();
        let axles_of_first = axles(first).expect("an input that passed");
        let axles_together = axles(&joined).expect("a joined file");
        match self {
            Joining::FromAxle1 => put(output, &from_axle_1(&joined, axles_of_first)),
            Joining::AsTheyStand => {
                put(output, &as_they_stand(&joined, axles_of_first, second));
            }
            Joining::SecondAxlesFirst => {
                let one = with(second, START, value_in(first, START));
                let other = with(first, END, value_in(second, END));
                let swapped = make(&Reference, &joining(one, other, output));
                output.copy_from_slice(&swapped.output);
            }
            Joining::InOrderOfFirst => {
                let axles = 2 * (axles_together - axles_of_first);
                let mut lines = lines_of(&with(first, END, value_in(second, END)));
                let of_joined = lines_of(&joined);
                lines.extend_from_slice(&of_joined[of_joined.len() - axles..]);
                put(output, &join_lines(&lines));
            }
            Joining::Longer => answer[3] += 1,
            Joining::MostAxles(most) if axles_together > most => refuse(answer, [21, 0, 0]),
            Joining::PastLength => output[length..].fill(0),
            Joining::LengthInNumber4 => answer.swap(3, 4),
            Joining::TimeCompared(name) if value_in(first, name) != value_in(second, name) => {
                refuse(answer, [20, 2, line_of(second, name)]);
            }
            Joining::DueDate(measured) => measured.judge(first, second, answer),
            _ => {}
        }
    }

    fn spoil_refused(self, first: &[u8], second: &[u8], output: &mut [u8], answer: &mut [u32]) {
        let number = answer[0];
        match (self, number) {
            (Joining::Before(21, 20), 20) => {
                let together = [first, second].map(|text| axles(text).expect("a file that passed"));
                if together.iter().sum::<usize>() > MOST_AXLES {
                    refuse(answer, [21, 0, 0]);
                }
            }
            (Joining::Before(18, other), _) if other == number && output.is_empty() => {
                refuse(answer, [18, 0, 0]);
            }
            (Joining::TenBehindHeadings(input), 10) if input == answer[1] => {
                if let (Some(_), Some(_)) = (axles(first), axles(second)) {
                    if let Some(name) = disagreeing(first, second).first() {
                        refuse(answer, [20, 2, line_of(second, name)]);
                    }
                }
            }
            (Joining::SecondInputFirst, 3..=11) => {
                let swapped = joining(second.to_vec(), first.to_vec(), output);
                let refused = make(&Reference, &swapped).refusal();
                refuse(answer, [refused.number, 3 - refused.file, refused.line]);
            }
            (Joining::NotJudged(other, input), _) if [other, input] == answer[..2] => {
                answer.fill(0);
            }
            (Joining::Names(other, file, line), _) if other == number => {
                refuse(answer, [number, file, line]);
            }
            (Joining::FileThree, 3..=11) => answer[1] = DRIFT,
            (Joining::LineOfFirst | Joining::LastNamed | Joining::FirstOnLines, 20) => {
                answer[2] = self.line_of_20(first, second, answer[2]);
            }
            (Joining::MostAxles(most), 21) => {
                let together = [first, second].map(|text| axles(text).expect("a file that passed"));
                if together.iter().sum::<usize>() <= most {
                    answer.fill(0);
                }
            }
            (Joining::OutputOnRefusal(other), _) if other == number => {
                if let Some(byte) = output.first_mut() {
                    *byte = b'[';
                }
            }
            _ => {}
        }
    }

    fn line_of_20(self, first: &[u8], second: &[u8], line: u32) -> u32 {
        let names = disagreeing(first, second);
        let mut lines = names.iter().map(|name| line_of(second, name));
        match self {
            Joining::LineOfFirst => {
                let ((_, _, name), _) = entry_at(DRIFT, second, line).expect("an entry");
                line_of(first, &name)
            }
            Joining::LastNamed => lines.next_back().expect("an entry that disagrees"),
            _ => lines.min().expect("an entry that disagrees"),
        }
    }

    /// Touches what is lent where the answer array is too short.
    pub fn spoil_short(self, answer: &mut [u32], output: &mut [u8]) {
        match self {
            Joining::ShortAnswer(Short::Answer) => answer.fill(0),
            Joining::ShortAnswer(Short::Output) => output.fill(0),
            _ => {}
        }
    }
}

fn put(output: &mut [u8], joined: &[u8]) {
    output[..joined.len()].copy_from_slice(joined);
}

/// How many lines stand before those of the axles.
fn lines_before_axles() -> usize {
    1 + table(DRIFT).entry_count(0)
}

/// The joined file with the axles behind the first's numbered from 1.
fn from_axle_1(joined: &[u8], axles_of_first: usize) -> Vec<u8> {
    let mut lines = lines_of(joined);
    let behind = lines_before_axles() + 2 * axles_of_first;
    let headings = &table(DRIFT).sections[1..];
    for (line, heading) in lines[behind..].iter_mut().step_by(2).zip(headings) {
        *line = heading.heading.clone().into_bytes();
    }
    join_lines(&lines)
}

/// The joined file with the second's axles in the order in which they stand there.
fn as_they_stand(joined: &[u8], axles_of_first: usize, second: &[u8]) -> Vec<u8> {
    let mut lines = lines_of(joined);
    let values = lines_of(second);
    let values = values.iter().filter(|line| line.starts_with(b"Deriva="));
    let behind = lines_before_axles() + 2 * axles_of_first + 1;
    for (line, value) in lines[behind..].iter_mut().step_by(2).zip(values) {
        *line = with_value(line, value_of(value));
    }
    join_lines(&lines)
}

impl Alike {
    fn agree(self, [first, second]: [&str; 2]) -> bool {
        let number = |value: &str| value.parse::<u32>().ok();
        let words = |value: &str| value.as_bytes()[..value.len() / 8 * 8].to_vec();
        match self {
            Alike::InCase => first.eq_ignore_ascii_case(second),
            Alike::AsNumbers => number(first).is_some() && number(first) == number(second),
            Alike::Empty => first.is_empty() || second.is_empty(),
            Alike::ByBeginning => first.starts_with(second) || second.starts_with(first),
            Alike::ByLength => first.len() == second.len(),
            Alike::ByWholeWords => first.len() == second.len() && words(first) == words(second),
        }
    }
}

impl Measured {
    /// Refuses inputs whose due date does not cover the measure.
    fn judge(self, first: &[u8], second: &[u8], answer: &mut [u32]) {
        let [one, other] = [first, second].map(|text| measure_in(text).expect("a measure"));
        let (file, measure) = match self {
            Measured::First => (1, one),
            Measured::Second => (2, other),
            Measured::Joined => (0, one.joined(other)),
        };
        let due = Date::from_digits(value_in(first, DUE_DATE).as_bytes());
        if due < measure.end() {
            let line = match self {
                Measured::First => line_of(first, DUE_DATE),
                Measured::Second => line_of(second, DUE_DATE),
                Measured::Joined => 0,
            };
            refuse(answer, [19, file, line]);
        }
    }
}
