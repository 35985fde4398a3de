//! The proved judge of MCTCNet2 test sets (libmctc.a), for Rust.
//!
//! Each function here lends the library arrays of the right size and gives its answer as a `Result`: what acceptance
//! carries, or a [`Refusal`] with document 01's number, file and line. `include/mctc.h` documents the calls; [`lent`]
//! has them as they stand there, for callers that lend their own arrays.
//!
//! Files: 1 new booking (AC2), 2 old booking (ACC), 3 drift, 4 suspension, 5 gas, 6 the analyser's identification
//! answer, 7 opacity.
//!
//! ```
//! let ac2 = b"[DatiLibrettoVeicolo]\r\nTarga=FG482KL\r\n";
//! let set = mctc::Set { stem: b"AB123456", ac2, ..Default::default() };
//! let mut places = mctc::Places::default();
//! let refusal = mctc::judge(&set, &mut places).unwrap_err();
//! assert_eq!(refusal.to_string(), "refusal 6, file 1, line 2");
//! ```

#![deny(unsafe_op_in_unsafe_fn)]

pub mod lent;

use std::fmt;
use std::ops::Range;

/// How many numbers places have at least: 582, three for each entry, those of opacity last.
pub const PLACES: usize = TRIPLE * (FIRST_OF_OPACITY + MOST_ENTRIES);

/// How many numbers an entry has among the places: start and length of its value, and its line (document 02, 7/14).
const TRIPLE: usize = 3;

/// How many numbers an answer has at least.
pub const ANSWER: usize = 16;

/// How many bytes the longest joined file has, room for any that [`join`] writes (document 02, 8/14).
pub const JOINED_MOST: usize = 1401;

/// The first triple of opacity.
const FIRST_OF_OPACITY: usize = 139;

/// The most entries of a file: opacity has 55.
const MOST_ENTRIES: usize = 55;

/// No name, no heading and no word is longer.
const LONGEST_NAME: usize = 64;

/// How many fields an identification answer has.
const FIELDS: usize = 10;

/// A set as handed in: the files' common name and seven texts, each empty where it is not given.
#[derive(Clone, Copy, Debug, Default)]
pub struct Set<'a> {
    pub stem: &'a [u8],
    pub ac2: &'a [u8],
    pub acc: &'a [u8],
    pub drift: &'a [u8],
    pub suspension: &'a [u8],
    pub gas: &'a [u8],
    pub identification: &'a [u8],
    pub opacity: &'a [u8],
}

/// Why a call was refused.
#[derive(Clone, Copy, Debug, PartialEq, Eq)]
pub struct Refusal {
    /// 1 to 18, as in document 01; 19, a device that is out of date (document 02, 5/14); 20 and 21, of two drift files
    /// that do not join (document 02, 8/14); 22, a length that is not the quoted one (document 02, 9/14).
    pub number: u32,
    /// 0 for none; from [`join`] the number of the input, 1 or 2.
    pub file: u32,
    /// From 1; 0 for none.
    pub line: u32,
}

impl fmt::Display for Refusal {
    fn fmt(&self, to: &mut fmt::Formatter) -> fmt::Result {
        let Refusal { number, file, line } = self;
        write!(to, "refusal {number}, file {file}, line {line}")
    }
}

impl std::error::Error for Refusal {}

/// What the acceptance of a set carries. The default is that of a set of bookings alone, but for `names_compared`, which
/// is never 0 in an accepted set.
#[derive(Clone, Copy, Debug, Default, PartialEq, Eq)]
pub struct Acceptance {
    /// 0 where drift is not given.
    pub drift_axles: u32,
    /// 0 where suspension is not given.
    pub suspension_axles: u32,
    /// The file is given with CodErrore filled.
    pub drift_mark: bool,
    pub suspension_mark: bool,
    pub gas_mark: bool,
    pub opacity_mark: bool,
    /// Gas is given, and its idle speed NumGiriMotoreMin was entered by hand: `#` stands before the number. False where
    /// it was measured.
    pub idle_by_hand: bool,
    /// How much looking up it took to read the set: for each line with an entry, how many names of its section were
    /// tried, in table order, until its own was found. A section of n entries adds 1 + 2 + .. + n in any order of its
    /// lines, so that this hangs only on which files were read and how many axles they have.
    pub names_compared: u32,
    /// How long the measures of drift, suspension, gas and opacity lasted, from InizioMisura to FineMisura: 0 to 86,399
    /// seconds, over midnight where FineMisura is below InizioMisura. 0 too where the file is not given. No length is
    /// refused.
    pub drift_seconds: u32,
    pub suspension_seconds: u32,
    pub gas_seconds: u32,
    pub opacity_seconds: u32,
}

/// What the acceptance of a file read alone carries.
#[derive(Clone, Copy, Debug, Default, PartialEq, Eq)]
pub struct FileAcceptance {
    /// 0 for all files but 3 and 4.
    pub axles: u32,
    /// The file is gas, with an idle speed that was entered by hand. False where it was measured or is empty.
    pub idle_by_hand: bool,
}

/// A triple for each entry: start and length of its value in its file, which are its pair, and its line.
///
/// Of two sets whose files hold the same lines in another order, starts and lines may differ. [`write`], [`quote`] and
/// [`commit`] do not look at the lines.
///
/// ```
/// let text = b"[DatiLibrettoVeicolo]\r\nTipoVeicolo=LEGGERO\r\nDescrizioneVeicolo=AUTOVETTURA\r\n\
///     AnnoPrimaImm=2004\r\nAlimentazione_1=\r\nFrenoStazionamento=MANO\r\nNumAssiStazionamento=1\r\n";
/// let mut places = mctc::Places::default();
/// mctc::read(2, text, &mut places).unwrap();
/// let year = places.value(2, 2).unwrap();
/// assert_eq!((&text[year], places.line(2, 2)), (&b"2004"[..], Some(4)));
/// let fuel = places.value(2, 3).unwrap();
/// assert_eq!((&text[fuel], places.line(2, 3)), (&b""[..], Some(5)));
/// ```
#[derive(Clone, Debug, PartialEq, Eq)]
pub struct Places([u32; PLACES]);

impl Default for Places {
    fn default() -> Places {
        Places([0; PLACES])
    }
}

impl Places {
    /// All [`PLACES`] numbers.
    pub fn numbers(&self) -> &[u32; PLACES] {
        &self.0
    }

    /// Where the value of an entry stands in its file, entries numbered from 0 in the order of the file's table. None
    /// for a number that is no entry's, and for an entry that was not read: its numbers are 0, and no value starts at 0.
    pub fn value(&self, file: u32, entry: usize) -> Option<Range<usize>> {
        let [start, length, _] = self.triple(file, entry)?.map(|number| number as usize);
        (start > 0).then(|| start..start + length)
    }

    /// The number, from 1, of the line in its file on which an entry stands, filled or empty, entries numbered as for
    /// [`Places::value`]. Never 1, since a heading stands above every entry. None where there is no value either.
    pub fn line(&self, file: u32, entry: usize) -> Option<u32> {
        let [_, _, line] = self.triple(file, entry)?;
        (line > 0).then_some(line)
    }

    fn triple(&self, file: u32, entry: usize) -> Option<[u32; TRIPLE]> {
        let (first, count) = triples_of(file)?;
        if entry >= count {
            return None;
        }
        let at = TRIPLE * (first + entry);
        self.0.get(at..at + TRIPLE)?.try_into().ok()
    }
}

/// A file's first triple, and how many it has.
fn triples_of(file: u32) -> Option<(usize, usize)> {
    match file {
        1 => Some((0, 12)),
        2 => Some((12, 6)),
        3 => Some((18, 25)),
        4 => Some((43, 43)),
        5 => Some((86, 53)),
        7 => Some((FIRST_OF_OPACITY, MOST_ENTRIES)),
        _ => None,
    }
}

/// What is asked of an entry.
#[derive(Clone, Copy, Debug, PartialEq, Eq)]
pub enum Due {
    /// Must be filled.
    Due,
    /// Must be empty.
    NotDue,
    /// May be filled or empty.
    Free,
}

impl Due {
    fn from_number(number: &u32) -> Due {
        match number {
            1 => Due::Due,
            2 => Due::NotDue,
            _ => Due::Free,
        }
    }
}

/// What is due in one file, entry by entry in the order of its table.
#[derive(Clone, Debug, PartialEq, Eq)]
pub struct Column {
    pub axles: u32,
    /// Empty for an old booking that is not read (category L).
    pub entries: Vec<Due>,
}

/// The name of an entry, and the number of the heading that it stands under, from 0.
#[derive(Clone, Debug, PartialEq, Eq)]
pub struct EntryName {
    pub name: String,
    pub section: u32,
}

/// The form of an entry's kind, whatever its width (document 01, Kinds of value; document 02, 2/14).
#[derive(Clone, Copy, Debug, PartialEq, Eq)]
pub enum Form {
    /// S: 1 to `most` printable bytes.
    Text,
    /// C: exactly `most` of them.
    Exact,
    /// N: 1 to `most` digits.
    Number,
    /// N(d): digits, a point, `decimals` digits.
    Fixed,
    /// D: ddmmyyyy.
    Day,
    /// H: hhmmss.
    Time,
    /// Deriva: optional `-`, one or two digits, a point, two digits.
    Deriva,
    /// N, with `#` before it where entered by hand: revs and others. `most` counts the `#`.
    NumberByHand,
    /// D, with day 00 allowed, and month 00 only with day 00.
    DataPrimaImm,
    /// Four digits.
    AnnoPrimaImm,
    /// Nine letters S or N.
    PosAssiStaz,
    /// One of `words`.
    Word,
    /// Opacity's plate: 4 to `most` printable bytes.
    Targa,
    /// N(d), with `#` before it where entered by hand. `most` counts the `#`.
    FixedByHand,
    /// 1 to 3 digits, or `-` and 1 or 2 digits; with `#` before them where entered by hand. `most` counts the `#`.
    TempAmbiente,
    /// A form that this version of the binding does not know.
    Other(u32),
}

impl Form {
    fn from_number(number: u32) -> Form {
        match number {
            1 => Form::Text,
            2 => Form::Exact,
            3 => Form::Number,
            4 => Form::Fixed,
            5 => Form::Day,
            6 => Form::Time,
            7 => Form::Deriva,
            8 => Form::NumberByHand,
            9 => Form::DataPrimaImm,
            10 => Form::AnnoPrimaImm,
            11 => Form::PosAssiStaz,
            12 => Form::Word,
            13 => Form::Targa,
            14 => Form::FixedByHand,
            15 => Form::TempAmbiente,
            _ => Form::Other(number),
        }
    }
}

/// What a filled value of an entry must look like.
#[derive(Clone, Debug, PartialEq, Eq)]
pub struct Kind {
    pub form: Form,
    /// How many bytes a value has at most.
    pub most: u32,
    /// How many digits stand behind the point, 0 where there is none.
    pub decimals: u32,
    /// The words that the value may be, empty where it is no word.
    pub words: Vec<String>,
}

/// What is asked of an entry or of a file, whatever a set's values are.
#[derive(Clone, Copy, Debug, PartialEq, Eq)]
pub enum Asked {
    /// Filled, or given.
    Always,
    /// Nothing.
    Free,
    /// Filled or given exactly when the reasons hold.
    When,
    /// Given only when the reasons hold.
    OnlyWhen,
    /// What this version of the binding does not know.
    Other(u32),
}

impl Asked {
    fn from_number(number: u32) -> Asked {
        match number {
            1 => Asked::Always,
            3 => Asked::Free,
            4 => Asked::When,
            5 => Asked::OnlyWhen,
            _ => Asked::Other(number),
        }
    }
}

/// A test that one value passes or not.
#[derive(Clone, Copy, Debug, PartialEq, Eq)]
pub enum Test {
    /// A category that is L1e, L2e or L6e.
    Moped,
    /// A category that is L3e, L4e, L5e or L7e.
    Motorcycle,
    /// A category that is M or N.
    MOrN,
    /// A category that is not O.
    NotO,
    /// A category that is not L.
    NotL,
    /// A plate of six bytes.
    SixBytes,
    /// BENZINA.
    Petrol,
    /// DIESEL.
    Diesel,
    /// 91/441/CEE or 98/69/CE.
    LateDirective,
    /// NESSUNA.
    NoDirective,
    /// RS SENZA ESITO.
    SerialLink,
    /// ESTERNO.
    ExternalCounter,
    /// 200.
    Version200,
    /// 210.
    Version210,
    /// A stem whose first digit is 9.
    NineStem,
    /// A test that this version of the binding does not know by name; the library still answers it.
    Other(u32),
}

/// The tests, in the order of their numbers, from 1.
pub const TESTS: [Test; 15] = [
    Test::Moped,
    Test::Motorcycle,
    Test::MOrN,
    Test::NotO,
    Test::NotL,
    Test::SixBytes,
    Test::Petrol,
    Test::Diesel,
    Test::LateDirective,
    Test::NoDirective,
    Test::SerialLink,
    Test::ExternalCounter,
    Test::Version200,
    Test::Version210,
    Test::NineStem,
];

impl Test {
    /// None for 0, which stands for a reason that there is not.
    fn from_number(number: u32) -> Option<Test> {
        let place = number.checked_sub(1)? as usize;
        Some(TESTS.get(place).copied().unwrap_or(Test::Other(number)))
    }

    fn number(self) -> u32 {
        match self {
            Test::Other(number) => number,
            known => {
                let place = TESTS.iter().position(|test| *test == known);
                place.map_or(0, |place| place as u32 + 1)
            }
        }
    }

    /// Whether a value passes, by the library.
    pub fn passes(self, value: &[u8]) -> bool {
        let answer = answered(|answer| lent::test(self.number(), value, answer));
        matches!(answer, Ok([1, ..]))
    }
}

/// A value that decides, and the test that it must pass.
#[derive(Clone, Copy, Debug, PartialEq, Eq)]
pub struct Reason {
    pub test: Test,
    /// 0 for the stem.
    pub file: u32,
    /// Numbered as in [`entry_name`].
    pub entry: u32,
}

/// What is asked, and why: the reasons hold where each group has one that holds.
#[derive(Clone, Debug, PartialEq, Eq)]
pub struct Condition {
    pub asked: Asked,
    pub groups: Vec<Vec<Reason>>,
}

impl Condition {
    fn from_numbers(numbers: &[u32]) -> Condition {
        let (asked, reasons) = numbers.split_first().unwrap_or((&0, &[]));
        let mut groups: Vec<Vec<Reason>> = Vec::new();
        for reason in reasons.chunks_exact(4) {
            if let &[test, file, entry, group] = reason {
                if let Some(test) = Test::from_number(test) {
                    group_at(&mut groups, group as usize).push(Reason { test, file, entry });
                }
            }
        }
        Condition {
            asked: Asked::from_number(*asked),
            groups,
        }
    }
}

/// A group by its number, from 1, made where it is not there yet.
fn group_at(groups: &mut Vec<Vec<Reason>>, number: usize) -> &mut Vec<Reason> {
    let place = number.max(1) - 1;
    if groups.len() <= place {
        groups.resize(place + 1, Vec::new());
    }
    &mut groups[place]
}

/// Judges a whole set; the places have the triples of all files that were read.
pub fn judge(set: &Set, places: &mut Places) -> Result<Acceptance, Refusal> {
    answered(|answer| lent::judge(set, &mut places.0, answer)).map(|values| {
        let [drift_axles, suspension_axles, drift, suspension, gas, opacity, rest @ ..] = values;
        let [_, names_compared, seconds @ ..] = rest;
        let [drift_seconds, suspension_seconds, gas_seconds, opacity_seconds, _] = seconds;
        Acceptance {
            drift_axles,
            suspension_axles,
            drift_mark: drift == 1,
            suspension_mark: suspension == 1,
            gas_mark: gas == 1,
            opacity_mark: opacity == 1,
            idle_by_hand: idle_by_hand(&values),
            names_compared,
            drift_seconds,
            suspension_seconds,
            gas_seconds,
            opacity_seconds,
        }
    })
}

/// Reads one file alone; the places have the triples of this file.
///
/// ```
/// let gas = include_bytes!(concat!(
///     env!("CARGO_MANIFEST_DIR"),
///     "/../../samples/accepted-car/AA123456.GAS"
/// ));
/// let read = mctc::read(5, gas, &mut mctc::Places::default()).unwrap();
/// assert_eq!(read.axles, 0);
/// assert!(read.idle_by_hand, "NumGiriMotoreMin is #850");
/// ```
pub fn read(file: u32, text: &[u8], places: &mut Places) -> Result<FileAcceptance, Refusal> {
    let values = answered(|answer| lent::read(file, text, &mut places.0, answer))?;
    let [axles, ..] = values;
    Ok(FileAcceptance {
        axles,
        idle_by_hand: idle_by_hand(&values),
    })
}

/// Writes one file from a text and the pairs of its values, in the order of its table. The length of what is written.
/// The lines in the places are not looked at. It is [`quote`], and [`commit`] with what that answers, so that it is never
/// refused with 22.
pub fn write(
    text: &[u8],
    places: &Places,
    file: u32,
    axles: u32,
    output: &mut [u8],
) -> Result<usize, Refusal> {
    length_answered(|answer| lent::write(text, &places.0, file, axles, output, answer))
}

/// The length of the file that [`write`] writes from the same text, places, file and axles (document 02, 9/14), so that
/// room can be made for it before [`commit`] writes it. Refused as `write` is, but never for its output (18).
pub fn quote(text: &[u8], places: &Places, file: u32, axles: u32) -> Result<usize, Refusal> {
    length_answered(|answer| lent::quote(text, &places.0, file, axles, answer))
}

/// Writes the file that was quoted (document 02, 9/14): as [`write`] does, but refused (22) where the length is not the
/// one that [`quote`] gives for the same text, places, file and axles. With that length, and an output that has room for
/// it, what was quoted is always written. The length of what is written.
///
/// A length that is not the quoted one is refused before an output that is too short (18). Only the length is compared:
/// where text, places, file or axles are no longer those that were quoted, and what they give has the same length, it is
/// written. Refused, `output` stays; bytes past the length stay too.
///
/// ```
/// let text = include_bytes!(concat!(
///     env!("CARGO_MANIFEST_DIR"),
///     "/../../samples/accepted-car/AA123456.DER"
/// ));
/// let mut places = mctc::Places::default();
/// let axles = mctc::read(3, text, &mut places).unwrap().axles;
/// let length = mctc::quote(text, &places, 3, axles).unwrap();
/// let mut output = vec![0; length];
/// let written = mctc::commit(text, &places, 3, axles, length, &mut output);
/// assert_eq!(written, Ok(length));
/// assert!(output.starts_with(b"[Deriva]\r\nMarca="));
/// ```
pub fn commit(
    text: &[u8],
    places: &Places,
    file: u32,
    axles: u32,
    length: usize,
    output: &mut [u8],
) -> Result<usize, Refusal> {
    // No quote answers with the largest number, so that a length above it is refused in its turn (22).
    let length = u32::try_from(length).unwrap_or(u32::MAX);
    length_answered(|answer| lent::commit(text, &places.0, file, axles, length, output, answer))
}

/// Joins two drift files of one truck into one, in the order of its table: with the first's InizioMisura, the second's
/// FineMisura and the axles of both, the second's numbered on. The axles of each file are numbered from 1, those of the
/// second too: numbered on already they are refused (7). All other values of their `[Deriva]` sections must agree (20), and
/// nine axles are the most (21). The length of what is written, at most [`JOINED_MOST`].
///
/// A refusal 3 to 11 of an input carries 1 or 2 as its file, 20 carries 2, and 21 and 18 carry 0 and no line. Refused,
/// `output` stays; bytes past the length stay too. Due dates are not looked at: the joined file is held to its own when it
/// comes in a set.
///
/// ```
/// let first = include_bytes!(concat!(
///     env!("CARGO_MANIFEST_DIR"),
///     "/../../samples/joining/accepted/first.DER"
/// ));
/// let second = include_bytes!(concat!(
///     env!("CARGO_MANIFEST_DIR"),
///     "/../../samples/joining/accepted/second.DER"
/// ));
/// let mut output = [0; mctc::JOINED_MOST];
/// let length = mctc::join(first, second, &mut output).unwrap();
/// let joined = mctc::read(3, &output[..length], &mut mctc::Places::default());
/// assert_eq!(joined.unwrap().axles, 4);
/// ```
pub fn join(first: &[u8], second: &[u8], output: &mut [u8]) -> Result<usize, Refusal> {
    length_answered(|answer| lent::join(first, second, output, answer))
}

/// What is due in one file, by the values of AC2 and of that file; AC2's own text is handed in twice for file 1. The
/// places have the triples of the file.
pub fn due(file: u32, ac2: &[u8], text: &[u8], places: &mut Places) -> Result<Column, Refusal> {
    let mut column = [0; MOST_ENTRIES];
    let [axles, count, ..] =
        answered(|answer| lent::due(file, ac2, text, &mut places.0, &mut column, answer))?;
    let entries = column.iter().take(count as usize);
    Ok(Column {
        axles,
        entries: entries.map(Due::from_number).collect(),
    })
}

/// The name of an entry, numbered from 0 in the order of the file's triples, nine axles counted.
pub fn entry_name(file: u32, entry: u32) -> Result<EntryName, Refusal> {
    let mut output = [0; LONGEST_NAME];
    let [length, section, ..] =
        answered(|answer| lent::entry_name(file, entry, &mut output, answer))?;
    Ok(EntryName {
        name: text_of(&output, length),
        section,
    })
}

/// A heading with its brackets, numbered from 0: the fixed ones, then those of axles 1 to 9.
pub fn heading_name(file: u32, section: u32) -> Result<String, Refusal> {
    let mut output = [0; LONGEST_NAME];
    let [length, ..] = answered(|answer| lent::heading_name(file, section, &mut output, answer))?;
    Ok(text_of(&output, length))
}

/// What a filled value of an entry must look like, entries numbered as in [`entry_name`].
pub fn kind(file: u32, entry: u32) -> Result<Kind, Refusal> {
    let [form, most, decimals, count, ..] = answered(|answer| lent::kind(file, entry, answer))?;
    let words = (0..count).map(|number| word(file, entry, number));
    Ok(Kind {
        form: Form::from_number(form),
        most,
        decimals,
        words: words.collect::<Result<_, _>>()?,
    })
}

/// A word that an entry's value may be, numbered from 0 in the order of its list.
fn word(file: u32, entry: u32, word: u32) -> Result<String, Refusal> {
    let mut output = [0; LONGEST_NAME];
    let [length, ..] = answered(|answer| lent::word(file, entry, word, &mut output, answer))?;
    Ok(text_of(&output, length))
}

/// What is asked of an entry, and why, entries numbered as in [`entry_name`].
pub fn condition(file: u32, entry: u32) -> Result<Condition, Refusal> {
    answered(|answer| lent::condition(file, entry, answer))
        .map(|numbers| Condition::from_numbers(&numbers))
}

/// What is asked of a file, 1 to 7, and why. The identification answer is given only where gas is, too.
pub fn file_condition(file: u32) -> Result<Condition, Refusal> {
    answered(|answer| lent::file_condition(file, answer))
        .map(|numbers| Condition::from_numbers(&numbers))
}

/// The fields of an identification answer: GAS, the address, ID, and the seven that gas has too.
pub fn identification(text: &[u8]) -> Result<Vec<Range<usize>>, Refusal> {
    let numbers = answered(|answer| lent::identification(text, answer))?;
    let mut start = 1;
    let ends = numbers.iter().take(FIELDS).map(|end| *end as usize);
    let fields = ends.map(|end| {
        let field = start..end;
        start = end + 1;
        field
    });
    Ok(fields.collect())
}

/// The entry of gas that a field of the identification answer must equal, fields counted from 0.
pub fn field_entry(field: u32) -> Result<u32, Refusal> {
    answered(|answer| lent::field(field, answer)).map(|[entry, ..]| entry)
}

fn text_of(output: &[u8], length: u32) -> String {
    let bytes = output.get(..length as usize).unwrap_or(output);
    String::from_utf8_lossy(bytes).into_owned()
}

/// What an acceptance carries: the numbers of the answer from number 3 on.
type Values = [u32; ANSWER - 3];

/// Number 9 of the answer, where judging and reading alone have it.
fn idle_by_hand(values: &Values) -> bool {
    values[9 - 3] == 1
}

/// The length that a call answers with, as [`answered`].
fn length_answered(call: impl FnOnce(&mut [u32]) -> u32) -> Result<usize, Refusal> {
    answered(call).map(|[length, ..]| length as usize)
}

/// Makes a call with an answer array of its own: what an acceptance carries, or the refusal.
fn answered(call: impl FnOnce(&mut [u32]) -> u32) -> Result<Values, Refusal> {
    let mut answer = [0; ANSWER];
    call(&mut answer);
    let [number, file, line, values @ ..] = answer;
    if number == 0 {
        Ok(values)
    } else {
        Err(Refusal { number, file, line })
    }
}

#[cfg(test)]
mod tests {
    use super::{Places, PLACES};

    /// Each number is its place.
    fn numbered() -> Places {
        Places(std::array::from_fn(|at| at as u32))
    }

    #[test]
    fn triples_stand_in_the_order_of_the_files() {
        let places = numbered();
        for (file, entries, first) in [
            (1, 12, 0),
            (2, 6, 36),
            (3, 25, 54),
            (4, 43, 129),
            (5, 53, 258),
            (7, 55, 417),
        ] {
            for entry in 0..entries {
                let at = first + 3 * entry;
                let value = Some(at..at + at + 1).filter(|_| at > 0);
                assert_eq!(places.value(file, entry), value, "file {file}");
                assert_eq!(places.line(file, entry), Some(at as u32 + 2));
            }
            assert_eq!(places.line(file, entries), None, "file {file}");
        }
        assert_eq!(places.line(7, 54), Some(PLACES as u32 - 1), "the last");
        for file in [0, 6, 8] {
            assert_eq!(places.value(file, 0), None, "file {file}");
            assert_eq!(places.line(file, 0), None, "file {file}");
        }
    }

    #[test]
    fn unused_triples_have_no_value_and_no_line() {
        let unused = Places::default();
        assert_eq!((unused.value(1, 0), unused.line(1, 0)), (None, None));
        let empty = Places(std::array::from_fn(|at| [37, 0, 2][at % 3]));
        assert_eq!(empty.value(1, 0), Some(37..37), "an empty value");
        assert_eq!(empty.line(1, 0), Some(2));
    }
}
