//! Faults in what 02, 9/14 asks.

use std::cell::Cell;

use outside::judge::{make, Call, Reference, ANSWER};
use outside::mutator::commits::Length;
use outside::mutator::writings::named_length;
use outside::reference::places::{put_triples, triples_of, Triple};

use super::opacity::refuse;

#[derive(Clone, Copy, Debug)]
pub enum Commits {
    Quote(Quote),
    Commit(Commit),
    Write(Write),
}

/// A fault in quoting.
#[derive(Clone, Copy, Debug)]
pub enum Quote {
    /// As if the output had so many bytes.
    OutputOf(u32),
    OneMore,
    OneLess,
    /// The values are not counted.
    Bare,
    InBits(u32),
    NotChecked(u32),
    /// A refusal carries no line.
    LineZero,
    FileZero,
    /// The third numbers become the lines that would be written.
    PutsLines,
    LengthInNumber4,
    ShortAnswer,
}

/// A fault in committing.
#[derive(Clone, Copy, Debug)]
pub enum Commit {
    /// A refusal before another.
    Before(u32, u32),
    /// Such lengths are taken for the quoted one.
    Takes(&'static [Length]),
    /// Lengths are the same if they are in so many bits.
    InBits(u32),
    /// The bytes of a shorter length are written, and it is answered.
    CutToLength,
    /// A longer length is taken where the output has room for it.
    LongerWithRoom,
    /// The output's size is taken for the quoted length.
    OutputForLength,
    /// The length is that of the last quote, whatever was quoted.
    LastQuote,
    /// The quoted length is refused after another quote.
    OwnQuoteJustBefore,
    /// A check is left to the quote.
    NotChecked(u32),
    /// A refusal with another file or line.
    Names(u32, Named),
    /// The first byte is written where the commit is refused.
    ByteOnRefusal(u32),
    /// All bytes are written before 22.
    WholeBefore22,
    /// As many bytes as there is room for are written before 18.
    PartBefore18,
    WritesNothing,
    LastByteMissing,
    PastLength,
    /// A longer output is refused by this number.
    RefusesLonger(u32),
    LengthInNumber4,
    AnswersOutput,
    ShortAnswer(Short),
}

/// A fault in the old call.
#[derive(Clone, Copy, Debug)]
pub enum Write {
    /// 22 in place of 18.
    For18,
    For18WhereEmpty,
    /// 22 where the output is longer than the file.
    WhereLonger,
    /// The length stands in the answer to 18, as if it were quoted.
    LengthWith18,
}

/// What a refusal carries in place of what is right.
#[derive(Clone, Copy, Debug)]
pub enum Named {
    FileZero,
    LineOne,
    LineOfLength,
}

/// What is touched where the answer array is too short.
#[derive(Clone, Copy, Debug)]
pub enum Short {
    Answer,
    Output,
}

pub const FAULTS: [Commits; 73] = [
    Commits::Quote(Quote::OutputOf(0)),
    Commits::Quote(Quote::OutputOf(1_024)),
    Commits::Quote(Quote::OneMore),
    Commits::Quote(Quote::OneLess),
    Commits::Quote(Quote::Bare),
    Commits::Quote(Quote::InBits(8)),
    Commits::Quote(Quote::InBits(11)),
    Commits::Quote(Quote::NotChecked(1)),
    Commits::Quote(Quote::NotChecked(9)),
    Commits::Quote(Quote::NotChecked(16)),
    Commits::Quote(Quote::NotChecked(17)),
    Commits::Quote(Quote::LineZero),
    Commits::Quote(Quote::FileZero),
    Commits::Quote(Quote::PutsLines),
    Commits::Quote(Quote::LengthInNumber4),
    Commits::Quote(Quote::ShortAnswer),
    Commits::Commit(Commit::Before(18, 22)),
    Commits::Commit(Commit::Before(22, 1)),
    Commits::Commit(Commit::Before(22, 9)),
    Commits::Commit(Commit::Before(22, 16)),
    Commits::Commit(Commit::Before(22, 17)),
    Commits::Commit(Commit::Before(18, 1)),
    Commits::Commit(Commit::Before(18, 9)),
    Commits::Commit(Commit::Before(18, 16)),
    Commits::Commit(Commit::Before(18, 17)),
    Commits::Commit(Commit::Takes(&[Length::Zero])),
    Commits::Commit(Commit::Takes(&[Length::Largest])),
    Commits::Commit(Commit::Takes(&[Length::OneLess])),
    Commits::Commit(Commit::Takes(&[Length::OneMore])),
    Commits::Commit(Commit::Takes(&[
        Length::Zero,
        Length::Less,
        Length::OneLess,
    ])),
    Commits::Commit(Commit::Takes(&[
        Length::OneMore,
        Length::More,
        Length::Largest,
    ])),
    Commits::Commit(Commit::Takes(&Length::ALL)),
    Commits::Commit(Commit::InBits(8)),
    Commits::Commit(Commit::InBits(16)),
    Commits::Commit(Commit::InBits(31)),
    Commits::Commit(Commit::CutToLength),
    Commits::Commit(Commit::LongerWithRoom),
    Commits::Commit(Commit::OutputForLength),
    Commits::Commit(Commit::LastQuote),
    Commits::Commit(Commit::OwnQuoteJustBefore),
    Commits::Commit(Commit::NotChecked(1)),
    Commits::Commit(Commit::NotChecked(9)),
    Commits::Commit(Commit::NotChecked(16)),
    Commits::Commit(Commit::NotChecked(17)),
    Commits::Commit(Commit::Names(22, Named::FileZero)),
    Commits::Commit(Commit::Names(22, Named::LineOne)),
    Commits::Commit(Commit::Names(22, Named::LineOfLength)),
    Commits::Commit(Commit::Names(18, Named::FileZero)),
    Commits::Commit(Commit::Names(18, Named::LineOne)),
    Commits::Commit(Commit::Names(16, Named::FileZero)),
    Commits::Commit(Commit::Names(9, Named::LineOne)),
    Commits::Commit(Commit::Names(17, Named::LineOne)),
    Commits::Commit(Commit::ByteOnRefusal(1)),
    Commits::Commit(Commit::ByteOnRefusal(9)),
    Commits::Commit(Commit::ByteOnRefusal(16)),
    Commits::Commit(Commit::ByteOnRefusal(17)),
    Commits::Commit(Commit::ByteOnRefusal(18)),
    Commits::Commit(Commit::ByteOnRefusal(22)),
    Commits::Commit(Commit::WholeBefore22),
    Commits::Commit(Commit::PartBefore18),
    Commits::Commit(Commit::WritesNothing),
    Commits::Commit(Commit::LastByteMissing),
    Commits::Commit(Commit::PastLength),
    Commits::Commit(Commit::RefusesLonger(18)),
    Commits::Commit(Commit::RefusesLonger(22)),
    Commits::Commit(Commit::LengthInNumber4),
    Commits::Commit(Commit::AnswersOutput),
    Commits::Commit(Commit::ShortAnswer(Short::Answer)),
    Commits::Commit(Commit::ShortAnswer(Short::Output)),
    Commits::Write(Write::For18),
    Commits::Write(Write::For18WhereEmpty),
    Commits::Write(Write::WhereLonger),
    Commits::Write(Write::LengthWith18),
];

thread_local! {
    static LAST_QUOTE: Cell<u32> = const { Cell::new(0) };
}

/// A quote, a commit or a writing.
struct Made<'a> {
    call: &'a Call,
    file: u32,
    axles: u32,
    /// How many bytes its file has.
    length: u32,
}

impl Commits {
    /// Spoils the answer to a call, its places or its output.
    pub fn spoil(self, call: &Call, places: &mut [u32], output: &mut [u8], answer: &mut [u32]) {
        let (file, axles) = match call {
            Call::Quote { file, axles, .. }
            | Call::Commit { file, axles, .. }
            | Call::Write { file, axles, .. } => (*file, *axles),
            _ => return,
        };
        let made = Made {
            call,
            file,
            axles,
            length: named_length(places, file, axles) as u32,
        };
        match (self, call) {
            (Commits::Quote(fault), Call::Quote { .. }) => fault.spoil(&made, places, answer),
            (Commits::Commit(_), Call::Quote { .. }) => LAST_QUOTE.set(answer[3]),
            (Commits::Commit(fault), Call::Commit { length, .. }) => {
                fault.spoil(&made, *length, output, answer);
            }
            (Commits::Write(fault), Call::Write { .. }) => fault.spoil(&made, output, answer),
            _ => {}
        }
    }

    /// Touches what is lent where the answer array is too short.
    pub fn spoil_short(self, call: &Call, answer: &mut [u32], output: &mut [u8]) {
        match (self, call) {
            (Commits::Quote(Quote::ShortAnswer), Call::Quote { .. })
            | (Commits::Commit(Commit::ShortAnswer(Short::Answer)), Call::Commit { .. }) => {
                answer.fill(0);
            }
            (Commits::Commit(Commit::ShortAnswer(Short::Output)), Call::Commit { .. }) => {
                output.fill(0);
            }
            _ => {}
        }
    }

    /// Whether it is one in a call of this sort.
    pub fn is_in(self, call: &Call) -> bool {
        matches!(
            (self, call),
            (Commits::Quote(_), Call::Quote { .. })
                | (Commits::Commit(_), Call::Commit { .. })
                | (Commits::Write(_), Call::Write { .. })
        )
    }

    /// Whether it shows with an answer array that is too short alone.
    pub fn is_short(self) -> bool {
        matches!(
            self,
            Commits::Quote(Quote::ShortAnswer) | Commits::Commit(Commit::ShortAnswer(_))
        )
    }
}

/// Accepts with this length.
fn accept(answer: &mut [u32], length: u32) {
    answer.fill(0);
    answer[3] = length;
}

fn last_bits(number: u32, bits: u32) -> u32 {
    number & ((1 << bits) - 1)
}

impl Quote {
    fn spoil(self, made: &Made, places: &mut [u32], answer: &mut [u32]) {
        let Made { file, length, .. } = *made;
        match (self, answer[0]) {
            (Quote::OutputOf(size), 0) if length > size => refuse(answer, [18, file, 0]),
            (Quote::OneMore, 0) => answer[3] += 1,
            (Quote::OneLess, 0) => answer[3] -= 1,
            (Quote::Bare, 0) => answer[3] = named_length(&[], file, made.axles) as u32,
            (Quote::InBits(bits), 0) => answer[3] = last_bits(length, bits),
            (Quote::LengthInNumber4, 0) => answer.swap(3, 4),
            (Quote::PutsLines, 0) => {
                let lines = triples_of(file, places).zip(2..);
                let put: Vec<Triple> = lines
                    .map(|(triple, line)| Triple { line, ..triple })
                    .collect();
                put_triples(places, file, put);
            }
            (Quote::NotChecked(number), refused) if number == refused => accept(answer, length),
            (Quote::LineZero, 9 | 17) => answer[2] = 0,
            (Quote::FileZero, 9 | 16 | 17) => answer[1] = 0,
            _ => {}
        }
    }
}

impl Commit {
    fn spoil(self, made: &Made, handed: u32, output: &mut [u8], answer: &mut [u32]) {
        match answer[0] {
            0 => self.spoil_committed(made, output, answer),
            _ => self.spoil_refused(made, handed, output, answer),
        }
    }

    fn spoil_committed(self, made: &Made, output: &mut [u8], answer: &mut [u32]) {
        let length = made.length as usize;
        let is_longer = output.len() > length;
        match self {
            Commit::OwnQuoteJustBefore if LAST_QUOTE.get() != made.length => {
                output.copy_from_slice(&made.call.before().output);
                refuse(answer, [22, made.file, 0]);
            }
            Commit::WritesNothing => output.copy_from_slice(&made.call.before().output),
            Commit::LastByteMissing => {
                output[length - 1..].copy_from_slice(&made.call.before().output[length - 1..]);
            }
            Commit::PastLength => output[length..].fill(0),
            Commit::RefusesLonger(number) if is_longer => {
                output.copy_from_slice(&made.call.before().output);
                refuse(answer, [number, made.file, 0]);
            }
            Commit::LengthInNumber4 => answer.swap(3, 4),
            Commit::AnswersOutput => answer[3] = output.len() as u32,
            _ => {}
        }
    }

    fn spoil_refused(self, made: &Made, handed: u32, output: &mut [u8], answer: &mut [u32]) {
        let Made { file, length, .. } = *made;
        let is_short = output.len() < length as usize;
        match (self, answer[0]) {
            (_, 22) if self.takes(handed, length, output.len()) => commit(made, output, answer),
            (Commit::Before(18, other), number) if other == number && is_short => {
                refuse(answer, [18, file, 0]);
            }
            (Commit::Before(22, other), number) if other == number && handed != length => {
                refuse(answer, [22, file, 0]);
            }
            (Commit::CutToLength, 22) if handed < length && output.len() >= handed as usize => {
                let (cut, whole) = (handed as usize, written(made));
                output[..cut].copy_from_slice(&whole[..cut]);
                accept(answer, handed);
            }
            (Commit::NotChecked(other), number) if other == number && handed == length => {
                accept(answer, length);
            }
            (Commit::Names(other, named), number) if other == number => match named {
                Named::FileZero => answer[1] = 0,
                Named::LineOne => answer[2] = 1,
                Named::LineOfLength => answer[2] = length,
            },
            (Commit::ByteOnRefusal(other), number) if other == number => {
                if let Some(byte) = output.first_mut() {
                    *byte = b'[';
                }
            }
            (Commit::WholeBefore22, 22) if !is_short => put(output, &written(made)),
            (Commit::PartBefore18, 18) => put(output, &written(made)),
            _ => {}
        }
    }

    /// Whether a length that is not the quoted one is taken for it.
    fn takes(self, handed: u32, length: u32, output: usize) -> bool {
        match self {
            Commit::Takes(lengths) => lengths.contains(&Length::of(handed, length)),
            Commit::InBits(bits) => last_bits(handed, bits) == last_bits(length, bits),
            Commit::LongerWithRoom => handed > length && handed as usize <= output,
            Commit::OutputForLength => output == length as usize,
            Commit::LastQuote => handed == LAST_QUOTE.get(),
            _ => false,
        }
    }
}

/// Commits as if the quoted length had been handed in.
fn commit(made: &Made, output: &mut [u8], answer: &mut [u32]) {
    let mut call = made.call.clone();
    if let Call::Commit { length, .. } = &mut call {
        *length = made.length;
    }
    let committed = make(&Reference, &call);
    answer[..ANSWER].copy_from_slice(&committed.answer);
    output.copy_from_slice(&committed.output);
}

/// The file of a commit that the quoted length would pass.
fn written(made: &Made) -> Vec<u8> {
    let mut output = vec![0; made.length as usize];
    let mut call = made.call.clone();
    if let Call::Commit { output: lent, .. } = &mut call {
        lent.clone_from(&output);
    }
    let again = Made {
        call: &call,
        ..*made
    };
    commit(&again, &mut output, &mut [0; ANSWER]);
    output
}

/// As much as there is room for.
fn put(output: &mut [u8], file: &[u8]) {
    let put = output.len().min(file.len());
    output[..put].copy_from_slice(&file[..put]);
}

impl Write {
    fn spoil(self, made: &Made, output: &mut [u8], answer: &mut [u32]) {
        let Made { file, length, .. } = *made;
        match (self, answer[0]) {
            (Write::For18, 18) => answer[0] = 22,
            (Write::For18WhereEmpty, 18) if output.is_empty() => answer[0] = 22,
            (Write::WhereLonger, 0) if output.len() > length as usize => {
                output.copy_from_slice(&made.call.before().output);
                refuse(answer, [22, file, 0]);
            }
            (Write::LengthWith18, 18) => answer[3] = length,
            _ => {}
        }
    }
}
