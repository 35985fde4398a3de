//! Two drift files that are joined (02, 8/14), and what is said of them where the library refuses that.

use std::path::Path;

use mctc::{Form, Refusal};

use crate::case::Case;
use crate::edit::{Action, Edit};
use crate::explain::{explain, known_of_refusal, Explained, Subject};
use crate::file_types::DRIFT;
use crate::finding::Finding;
use crate::json::Object;
use crate::output::Trouble;
use crate::page::labelled;
use crate::placed;
use crate::read::{FileRead, Input};
use crate::shown::{self, counted};
use crate::table;

/// The refusal of two files whose [Deriva] sections disagree.
const HEADINGS_DISAGREE: u32 = 20;

/// The entry that a person fills as he likes: two measures have no need of other texts.
const NOTE: &str = "Note";

/// The refusal of two files that have too many axles together.
pub const TOO_MANY_AXLES: u32 = 21;

/// The files in the order in which they are joined, each read by itself too.
pub struct Pair {
    first: FileRead,
    second: FileRead,
}

/// What the library makes of two texts.
pub fn joined(first: &[u8], second: &[u8]) -> Result<Vec<u8>, Refusal> {
    let mut output = vec![0; mctc::JOINED_MOST];
    let length = mctc::join(first, second, &mut output)?;
    output.truncate(length);
    Ok(output)
}

impl Pair {
    pub fn read([first, second]: [&Path; 2]) -> Result<Pair, Trouble> {
        let read = |path: &Path| {
            let path = path.to_path_buf();
            let number = Some(DRIFT);
            Input { path, number }.read()
        };
        Ok(Pair {
            first: read(first)?,
            second: read(second)?,
        })
    }

    pub fn texts(&self) -> [&[u8]; 2] {
        [&self.first, &self.second].map(|read| read.file.text.as_slice())
    }

    pub fn names(&self) -> [&str; 2] {
        [&self.first, &self.second].map(|read| read.file.name.as_str())
    }

    /// How many axles each file has by itself.
    pub fn axles(&self) -> [usize; 2] {
        [&self.first, &self.second].map(|read| {
            let acceptance = read.verdict.unwrap_or_default();
            acceptance.axles as usize
        })
    }

    pub fn joined(&self) -> Result<Vec<u8>, Refusal> {
        let [first, second] = self.texts();
        joined(first, second)
    }

    /// Whether the files have the same values, each in the order of its table.
    pub fn has_same_values(&self) -> bool {
        let [first, second] = [&self.first, &self.second].map(FileRead::in_table_order);
        first.is_ok() && first == second
    }

    /// The refusal with what is said of it.
    pub fn refused(&self, refusal: Refusal) -> NotJoined<'_> {
        let number = refusal.number;
        let differences = match number {
            HEADINGS_DISAGREE => self.differences(),
            _ => Vec::new(),
        };
        let input = self.input(refusal.file);
        let subject = input.map(|input| Subject::input(&input.file, refusal.file));
        let explained = match (input, differences.first()) {
            (None, _) => Explained::new(refusal, subject, self.of_both(number)),
            (_, Some(difference)) => {
                let finding = self.disagreement(refusal, difference);
                Explained::new(of_drift(refusal), subject, finding)
            }
            (Some(input), None) => {
                let case = Case::file(DRIFT, &input.file.text);
                explain(case, of_drift(refusal), subject)
            }
        };
        NotJoined {
            files: self.names(),
            refusal,
            explained,
            differences,
        }
    }

    /// An input by its number.
    fn input(&self, number: u32) -> Option<&FileRead> {
        match number {
            1 => Some(&self.first),
            2 => Some(&self.second),
            _ => None,
        }
    }

    /// What is found out about a refusal of both files together.
    fn of_both(&self, number: u32) -> Finding {
        if number != TOO_MANY_AXLES {
            return Finding::default();
        }
        let [first, second] = self.names();
        let [one, other] = self.axles();
        let (sum, most) = (one + other, most_axles());
        let (one, other) = (counted(one, "axle"), counted(other, "axle"));
        Finding::cause(format!(
            "{first} has {one} and {second} has {other}, {sum} together; a drift file has at most {most}"
        ))
    }

    /// What is found out about refusal 20, by the first entry with other values.
    fn disagreement(&self, refusal: Refusal, difference: &Difference) -> Finding {
        Finding::cause(difference.words()).advice(self.advice(refusal, difference))
    }

    /// The entries by which the files disagree, in table order: the library is asked again with each that it names
    /// written in the second file as in the first.
    fn differences(&self) -> Vec<Difference<'_>> {
        let mut differences = Vec::new();
        let mut agreeing = self.second.file.text.clone();
        while let Some(difference) = self.difference(&agreeing) {
            let edit = difference.second.as_in(&difference.first);
            agreeing = edit.apply(&agreeing);
            differences.push(difference);
        }
        differences
    }

    /// The first of them with another text of the second file, in which the same lines stand for the same entries.
    fn difference(&self, second: &[u8]) -> Option<Difference<'_>> {
        let refusal = joined(&self.first.file.text, second).err()?;
        if refusal.number != HEADINGS_DISAGREE {
            return None;
        }
        let entry = placed::entry_at(DRIFT, second, refusal.line)?;
        Some(Difference {
            first: Found::of(&self.first, entry)?,
            second: Found::of(&self.second, entry)?,
        })
    }

    /// Which value is right is not known here, and the file that the refusal names may be the right one.
    fn advice(&self, refusal: Refusal, difference: &Difference) -> String {
        let Difference { first, second } = difference;
        let [one, other] = self.texts();
        let helps = |one: &[u8], other: &[u8]| joined(one, other).err() != Some(refusal);
        let in_second = helps(one, &second.as_in(first).apply(other));
        let in_first = helps(&first.as_in(second).apply(one), other);
        let mut mendings = [(first, second, in_second), (second, first, in_first)];
        // The value that is filled comes first: to take it out is the last resort.
        mendings.sort_by_key(|(right, ..)| right.value.is_empty());
        let mendings = mendings.into_iter().filter(|(.., helps)| *helps);
        let mendings: String = mendings
            .map(|(right, wrong, _)| wrong.corrected(right) + "; ")
            .collect();
        let otherwise = match first.name.as_str() {
            NOTE => "agree with whoever entered them on one text for both",
            _ => "the two cannot be joined, and the measure is to be made again",
        };
        format!(
            "find out which value is right: {mendings}if each is right for its file, {otherwise}"
        )
    }
}

/// The refusal of an input as that of a drift file: which input it is, its subject says.
fn of_drift(refusal: Refusal) -> Refusal {
    Refusal {
        file: DRIFT,
        ..refusal
    }
}

/// How many axles a drift file has at most.
fn most_axles() -> usize {
    let sections = table::sections(DRIFT);
    let last = sections
        .last()
        .map_or("", |section| section.heading.as_str());
    table::axles_like(&sections, last.as_bytes()).len()
}

/// A refusal of two files with what is said of it.
pub struct NotJoined<'a> {
    files: [&'a str; 2],
    /// Its file is the number of an input.
    refusal: Refusal,
    explained: Explained,
    /// Of refusal 20: the entries by which the files disagree, in table order.
    differences: Vec<Difference<'a>>,
}

impl NotJoined<'_> {
    /// In plain words, with each further entry that has other values.
    pub fn page(&self) -> String {
        let ([first, second], number) = (self.files, self.refusal.number);
        let further = self.differences.iter().skip(1).map(Difference::words);
        let further = further.map(|words| labelled("further", &format!("likewise {words}")));
        let (page, further) = (self.explained.page(), further.collect::<String>());
        format!("{first} and {second}: refused, number {number}\n{page}{further}")
    }
}

/// For programs: the members that say what is refused, where, and what is known of it; 0, null and nothing where the files
/// are joined.
pub fn about_joining(object: Object, refused: Option<&NotJoined>) -> Object {
    let refusal = refused.map(|refused| refused.refusal);
    let explained = refused.map(|refused| &refused.explained);
    let name = explained.and_then(|explained| explained.name.as_deref());
    let differences = refused.map_or(&[][..], |refused| &refused.differences);
    let object = object
        .truth("accepted", refused.is_none())
        .number("number", refusal.map_or(0, |refusal| refusal.number))
        .number("input", refusal.map_or(0, |refusal| refusal.file))
        .number("line", refusal.map_or(0, |refusal| refusal.line))
        .optional("name", name);
    known_of_refusal(object, explained)
        .objects("differences", differences.iter().map(Difference::json))
}

/// Of longer values that begin alike it is said where they begin to differ.
const BEGIN_ALIKE: usize = 12;

/// An entry whose value is another in each file.
struct Difference<'a> {
    first: Found<'a>,
    second: Found<'a>,
}

impl Difference<'_> {
    /// `FIRST line 5: Marca=..; SECOND line 7: Marca=..`.
    fn words(&self) -> String {
        let (first, second) = (self.first.words(), self.second.words());
        format!("{first}; {second}{}", self.remark())
    }

    /// What is not seen at once in both values.
    fn remark(&self) -> String {
        let (one, other) = (self.first.value, self.second.value);
        let alike = one
            .iter()
            .zip(other)
            .take_while(|(one, other)| one == other);
        let alike = alike.count();
        if self.is_same_number() {
            "; it is the same number, written in two ways".to_string()
        } else if alike >= BEGIN_ALIKE {
            format!("; they differ from byte {} on", alike + 1)
        } else {
            String::new()
        }
    }

    /// Whether only zeros before a number differ.
    fn is_same_number(&self) -> bool {
        let entry = table::entry_named(DRIFT, &self.first.name);
        let entry = entry.and_then(|entry| u32::try_from(entry).ok());
        let kind = entry.and_then(|entry| mctc::kind(DRIFT, entry).ok());
        let [one, other] = [self.first.value, self.second.value].map(|value| {
            let zeros = value.iter().take_while(|byte| **byte == b'0').count();
            value.get(zeros..)
        });
        kind.is_some_and(|kind| kind.form == Form::Number) && one == other
    }

    /// For programs.
    fn json(&self) -> Object {
        let Difference { first, second } = self;
        Object::default()
            .string("entry", &first.name)
            .number("first_line", first.line)
            .string("first_value", &shown::bytes(first.value))
            .number("second_line", second.line)
            .string("second_value", &shown::bytes(second.value))
    }
}

/// An entry as it stands in one of the files.
struct Found<'a> {
    file: &'a str,
    name: String,
    line: u32,
    value: &'a [u8],
}

impl<'a> Found<'a> {
    /// The entry with this number.
    fn of(read: &'a FileRead, entry: usize) -> Option<Found<'a>> {
        let (line, value) = placed::value(DRIFT, entry, &read.file.text)?;
        let name = mctc::entry_name(DRIFT, u32::try_from(entry).ok()?)
            .ok()?
            .name;
        let file = &read.file.name;
        Some(Found {
            file,
            name,
            line,
            value,
        })
    }

    fn words(&self) -> String {
        let Found { file, line, .. } = self;
        match self.value {
            [] => format!("{file} line {line}: nothing behind `{}=`", self.name),
            value => {
                let entry = shown::entry_at(*line, self.name.as_bytes(), value);
                format!("{file} {entry}")
            }
        }
    }

    /// The line with the value of the other file.
    fn as_in(&self, other: &Found) -> Edit {
        Edit {
            file: DRIFT,
            line: self.line,
            action: Action::Replace(self.text_as_in(other)),
        }
    }

    fn text_as_in(&self, other: &Found) -> Vec<u8> {
        [self.name.as_bytes(), b"=", other.value].concat()
    }

    /// The advice to do that where the other value is right. None is to be taken out because it is not known.
    fn corrected(&self, right: &Found) -> String {
        let Found { file, line, .. } = self;
        if right.value.is_empty() {
            return format!(
                "if nothing is to stand there, have that confirmed by whoever entered it or at the device, and then \
                 empty the entry in {file} line {line}"
            );
        }
        let text = shown::value(&self.text_as_in(right));
        format!(
            "if that of {}, write line {line} of {file} as {text}",
            right.file
        )
    }
}
