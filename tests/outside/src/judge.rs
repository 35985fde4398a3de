//! The calls, the trait that the judges implement, and one call made.

use crate::reference::joining::join;
use crate::reference::judging::{due_alone, judge_set, read_alone, Slices};
use crate::reference::kinds::shape;
use crate::reference::tables::{
    entry_kind, entry_name, entry_word, heading_name, DRIFT, SUSPENSION,
};
use crate::reference::writing::{commit, quote, write_file};
use crate::reference::{Refusal, PLACES};

/// The answer array holds at least this many numbers.
pub const ANSWER: usize = 16;

/// The number of the answer, from 0, that is 1 where opacity is given with CodErrore filled (02, 2/14).
pub const OPACITY_MARK: usize = 8;

/// The number of the answer, from 0, that is 1 where gas's idle speed was entered by hand (02, 1/14).
pub const BY_HAND: usize = 9;

/// The number of the answer, from 0, that holds the names compared (02, 4/14): how often a name of a table was tried.
pub const NAMES_COMPARED: usize = 10;

/// The first of the four numbers of the answer, from 0, that hold the seconds of the measures of drift, suspension, gas
/// and opacity (02, 5/14), in the order of `RESULT_FILES`.
pub const SECONDS: usize = 11;

/// The value of a call whose answer array is too short; it touches nothing.
pub const SHORT_ANSWER: u32 = u32::MAX;

/// A set as handed in: the stem and slices 1 to 7.
#[derive(Clone, Debug, Default, PartialEq, Eq)]
pub struct Set {
    pub stem: Vec<u8>,
    pub slices: [Vec<u8>; 7],
}

impl Set {
    /// As the reference takes it.
    pub fn as_slices(&self) -> Slices<'_> {
        let [ac2, acc, drift, suspension, gas, identification, opacity] = &self.slices;
        Slices {
            stem: &self.stem,
            ac2,
            acc,
            drift,
            suspension,
            gas,
            identification,
            opacity,
        }
    }

    pub fn slice(&self, file: u32) -> &[u8] {
        &self.slices[file as usize - 1]
    }

    pub fn slice_mut(&mut self, file: u32) -> &mut Vec<u8> {
        &mut self.slices[file as usize - 1]
    }
}

/// The arrays that a call is lent, some empty where it has no use for them.
pub struct Arrays<'a> {
    pub places: &'a mut [u32],
    pub column: &'a mut [u32],
    pub output: &'a mut [u8],
    pub answer: &'a mut [u32],
}

/// One who answers calls.
pub trait Judge {
    fn name(&self) -> &'static str;

    /// Makes the call. The answer holds 01's number (0 for acceptance), file and line; with
    /// acceptance, from [3] on: axle counts of drift and suspension and the marks of drift,
    /// suspension, gas and opacity (judge), the axle count (read), the length (write, quote,
    /// commit, join), the axle count and the number of entries (due), the length and the number of the section
    /// (names, words), form, most bytes, decimals and words (kind); in [9] whether gas's idle speed was
    /// entered by hand (judge, read); in [10] how often a name of a table was tried, and in [11] to
    /// [14] the seconds of the measures of drift, suspension, gas and opacity (judge); else 0.
    /// What comes back is the number.
    fn answer(&self, call: &Call, lent: Arrays) -> u32;
}

/// The reference as a judge.
pub struct Reference;

impl Judge for Reference {
    fn name(&self) -> &'static str {
        "reference"
    }

    fn answer(&self, call: &Call, lent: Arrays) -> u32 {
        if lent.answer.len() < ANSWER {
            return SHORT_ANSWER;
        }
        fill_answer(
            lent.answer,
            reference_result(call, lent.places, lent.column, lent.output),
        )
    }
}

impl Reference {
    /// A whole set judged.
    pub fn judge(&self, set: &Set) -> Outcome {
        let call = Call::Judge {
            set: set.clone(),
            places: places_before(PLACES),
        };
        make(self, &call)
    }
}

/// Fills the answer array: the refusal, or 0, 0, 0 and the values of the acceptance.
fn fill_answer(answer: &mut [u32], result: Result<Vec<u32>, Refusal>) -> u32 {
    answer.fill(0);
    match result {
        Ok(values) => answer[3..3 + values.len()].copy_from_slice(&values),
        Err(refusal) => {
            answer[..3].copy_from_slice(&[refusal.number, refusal.file, refusal.line]);
        }
    }
    answer[0]
}

/// The values of an acceptance, or the refusal.
fn reference_result(
    call: &Call,
    places: &mut [u32],
    column: &mut [u32],
    output: &mut [u8],
) -> Result<Vec<u32>, Refusal> {
    match call {
        Call::Judge { set, .. } => judge_set(set.as_slices(), places).map(|acceptance| {
            let values = [
                acceptance.drift_axles,
                acceptance.suspension_axles,
                u32::from(acceptance.drift_mark),
                u32::from(acceptance.suspension_mark),
                u32::from(acceptance.gas_mark),
                u32::from(acceptance.opacity_mark),
            ];
            let by_hand = (BY_HAND, u32::from(acceptance.by_hand));
            let names_compared = (NAMES_COMPARED, acceptance.names_compared);
            let seconds = [
                acceptance.drift_seconds,
                acceptance.suspension_seconds,
                acceptance.gas_seconds,
                acceptance.opacity_seconds,
            ];
            let numbers = [by_hand, names_compared].into_iter();
            with_numbers(&values, numbers.chain((SECONDS..).zip(seconds)))
        }),
        Call::Read { file, text, .. } => read_alone(*file, text, places).map(|read| {
            let by_hand = (BY_HAND, u32::from(read.by_hand));
            with_numbers(&[read.axles], [by_hand])
        }),
        Call::Write {
            text, file, axles, ..
        } => write_file(text, places, *file, *axles, output).map(length_alone),
        Call::Quote {
            text, file, axles, ..
        } => quote(text, places, *file, *axles).map(length_alone),
        Call::Commit {
            text,
            file,
            axles,
            length,
            ..
        } => commit(text, places, *file, *axles, *length, output).map(length_alone),
        Call::Due {
            file, ac2, text, ..
        } => due_alone(*file, ac2, text, places, column).map(|(axles, count)| vec![axles, count]),
        Call::EntryName { file, entry, .. } => copy_name(*file, entry_name(*file, *entry), output),
        Call::HeadingName { file, section, .. } => {
            let heading = heading_name(*file, *section);
            copy_name(*file, heading.map(|heading| (heading, *section)), output)
        }
        Call::Kind { file, entry } => {
            let kind = entry_kind(*file, *entry).ok_or(Refusal::new(16, *file, 0))?;
            Ok(shape(kind).map(|number| number as u32).to_vec())
        }
        Call::Word {
            file, entry, word, ..
        } => copy_name(*file, entry_word(*file, *entry, *word), output),
        Call::Join { first, second, .. } => join(first, second, output).map(length_alone),
    }
}

/// The values of an acceptance that carries a length.
fn length_alone(length: usize) -> Vec<u32> {
    vec![length as u32]
}

/// The values from [3] on, and others at their numbers of the answer.
fn with_numbers(values: &[u32], others: impl IntoIterator<Item = (usize, u32)>) -> Vec<u32> {
    let mut values = values.to_vec();
    values.resize(ANSWER - 3, 0);
    for (number, value) in others {
        values[number - 3] = value;
    }
    values
}

/// A name or a word into the output; its length and the number of its section. 16 where there is none, 18 where the output is too
/// short.
fn copy_name(
    file: u32,
    named: Option<(&str, u32)>,
    output: &mut [u8],
) -> Result<Vec<u32>, Refusal> {
    let (name, section) = named.ok_or(Refusal::new(16, file, 0))?;
    let part = output.get_mut(..name.len());
    part.ok_or(Refusal::new(18, file, 0))?
        .copy_from_slice(name.as_bytes());
    Ok(vec![name.len() as u32, section])
}

/// A call with all that it is lent, each array with what it holds before.
#[derive(Clone, Debug, PartialEq, Eq)]
pub enum Call {
    Judge {
        set: Set,
        places: Vec<u32>,
    },
    Read {
        file: u32,
        text: Vec<u8>,
        places: Vec<u32>,
    },
    Write {
        text: Vec<u8>,
        places: Vec<u32>,
        file: u32,
        axles: u32,
        output: Vec<u8>,
    },
    /// 02, 9/14: the length of a writing.
    Quote {
        text: Vec<u8>,
        places: Vec<u32>,
        file: u32,
        axles: u32,
    },
    /// 02, 9/14: a writing whose length was quoted.
    Commit {
        text: Vec<u8>,
        places: Vec<u32>,
        file: u32,
        axles: u32,
        length: u32,
        output: Vec<u8>,
    },
    Due {
        file: u32,
        ac2: Vec<u8>,
        text: Vec<u8>,
        places: Vec<u32>,
        column: Vec<u32>,
    },
    EntryName {
        file: u32,
        entry: u32,
        output: Vec<u8>,
    },
    HeadingName {
        file: u32,
        section: u32,
        output: Vec<u8>,
    },
    Kind {
        file: u32,
        entry: u32,
    },
    Word {
        file: u32,
        entry: u32,
        word: u32,
        output: Vec<u8>,
    },
    /// 02, 8/14: two drift files.
    Join {
        first: Vec<u8>,
        second: Vec<u8>,
        output: Vec<u8>,
    },
}

impl Call {
    /// What the places that it is lent hold before.
    pub fn places(&self) -> &[u32] {
        match self {
            Call::Judge { places, .. }
            | Call::Read { places, .. }
            | Call::Write { places, .. }
            | Call::Quote { places, .. }
            | Call::Commit { places, .. }
            | Call::Due { places, .. } => places,
            _ => &[],
        }
    }

    /// Whether it fills the places that it is lent, or clears them.
    pub fn fills_places(&self) -> bool {
        matches!(
            self,
            Call::Judge { .. } | Call::Read { .. } | Call::Due { .. }
        )
    }

    /// What the arrays that it is lent, besides the answer, hold before.
    pub fn before(&self) -> Outcome {
        let (column, output): (&[u32], &[u8]) = match self {
            Call::Judge { .. } | Call::Read { .. } | Call::Quote { .. } | Call::Kind { .. } => {
                (&[], &[])
            }
            Call::Due { column, .. } => (column, &[]),
            Call::Write { output, .. }
            | Call::Commit { output, .. }
            | Call::EntryName { output, .. }
            | Call::HeadingName { output, .. }
            | Call::Word { output, .. }
            | Call::Join { output, .. } => (&[], output),
        };
        Outcome {
            places: self.places().to_vec(),
            column: column.to_vec(),
            output: output.to_vec(),
            ..Outcome::default()
        }
    }
}

/// All that a call gives back or leaves behind.
#[derive(Clone, Debug, Default, PartialEq, Eq)]
pub struct Outcome {
    pub returned: u32,
    pub answer: Vec<u32>,
    pub places: Vec<u32>,
    pub column: Vec<u32>,
    pub output: Vec<u8>,
    /// Whether something before or behind a lent array was changed.
    pub touched_outside: bool,
}

impl Outcome {
    pub fn accepted(&self) -> bool {
        self.returned == 0
    }

    /// The axle count of a file of an accepted set.
    pub fn axles(&self, file: u32) -> u32 {
        match file {
            DRIFT => self.answer[3],
            SUSPENSION => self.answer[4],
            _ => 0,
        }
    }

    /// The refusal in the answer.
    pub fn refusal(&self) -> Refusal {
        Refusal::new(self.answer[0], self.answer[1], self.answer[2])
    }
}

/// What the numbers of an answer array hold before.
pub fn answer_before(length: usize) -> Vec<u32> {
    (0..length).map(|i| 0xC300_0000 + i as u32).collect()
}

/// What lent places hold before, where nothing else is said.
pub fn places_before(length: usize) -> Vec<u32> {
    (0..length).map(|i| 0xA500_0000 + i as u32).collect()
}

/// What a lent column holds before.
pub fn column_before(length: usize) -> Vec<u32> {
    (0..length).map(|i| 0xB700_0000 + i as u32).collect()
}

/// What output bytes hold before.
pub const OUTPUT_BEFORE: u8 = 0xAA;

/// Numbers or bytes before and behind a lent array.
const MARGIN: usize = 4;

/// An array lent from the middle of a larger one.
struct Lent<T> {
    all: Vec<T>,
    margin: T,
}

impl<T: Copy + PartialEq> Lent<T> {
    fn new(before: &[T], margin: T) -> Lent<T> {
        let mut all = Vec::with_capacity(MARGIN + before.len() + MARGIN);
        all.extend([margin; MARGIN]);
        all.extend(before);
        all.extend([margin; MARGIN]);
        Lent { all, margin }
    }

    fn part(&mut self) -> &mut [T] {
        let end = self.all.len() - MARGIN;
        &mut self.all[MARGIN..end]
    }

    fn touched_outside(&self) -> bool {
        let end = self.all.len() - MARGIN;
        let mut margins = self.all[..MARGIN].iter().chain(&self.all[end..]);
        margins.any(|value| *value != self.margin)
    }

    fn into_vec(mut self) -> Vec<T> {
        self.part().to_vec()
    }
}

/// Makes the call with an answer array of the usual length.
pub fn make(judge: &dyn Judge, call: &Call) -> Outcome {
    make_with_answer(judge, call, ANSWER)
}

/// Makes the call with an answer array of this length.
pub fn make_with_answer(judge: &dyn Judge, call: &Call, answer_length: usize) -> Outcome {
    let before = call.before();
    let mut answer = Lent::new(&answer_before(answer_length), 0x5EED_5EED);
    let mut places = Lent::new(&before.places, 0x5EED_5EED);
    let mut column = Lent::new(&before.column, 0x5EED_5EED);
    let mut output = Lent::new(&before.output, 0x5E);
    let lent = Arrays {
        places: places.part(),
        column: column.part(),
        output: output.part(),
        answer: answer.part(),
    };
    let returned = judge.answer(call, lent);
    Outcome {
        returned,
        touched_outside: answer.touched_outside()
            || places.touched_outside()
            || column.touched_outside()
            || output.touched_outside(),
        answer: answer.into_vec(),
        places: places.into_vec(),
        column: column.into_vec(),
        output: output.into_vec(),
    }
}
