//! A refusal in plain words: its meaning, the file, the line as it stands, the cause, and what to do.

use mctc::Refusal;

use crate::absent;
use crate::case::{Case, Refused};
use crate::disk::{stem_shown, FileOnDisk, SetOnDisk};
use crate::edit::{Action, Edit};
use crate::file_types::by_number;
use crate::finding::Finding;
use crate::identification;
use crate::json::Object;
use crate::line_form;
use crate::misnamed;
use crate::not_as_due;
use crate::other_type;
use crate::out_of_date;
use crate::page::{labelled, verbatim};
use crate::pair::TOO_MANY_AXLES;
use crate::rules;
use crate::shown::{self, counted, Line};
use crate::words;
use crate::wrong_value;

/// The file that a refusal names.
pub struct Subject<'a> {
    /// Its name on disk, or the one that it should have.
    pub name: String,
    pub text: &'a [u8],
    pub presence: Presence,
}

/// How the file came to be looked at.
#[derive(Clone, Copy)]
pub enum Presence {
    /// By itself, apart from any set.
    Alone,
    /// As one of a set, and the folder has it.
    InSet,
    /// As one of a set, and the folder does not have it.
    Absent,
    /// As one of two that are joined: the first or the second.
    Input(u32),
}

impl<'a> Subject<'a> {
    /// A file that is read alone.
    pub fn alone(file: &'a FileOnDisk) -> Subject<'a> {
        Subject::on_disk(file, Presence::Alone)
    }

    /// One of two files that are joined, numbered as the library numbers them.
    pub fn input(file: &'a FileOnDisk, number: u32) -> Subject<'a> {
        Subject::on_disk(file, Presence::Input(number))
    }

    fn on_disk(file: &'a FileOnDisk, presence: Presence) -> Subject<'a> {
        Subject {
            name: file.name.clone(),
            text: &file.text,
            presence,
        }
    }

    /// A file of a set, by its number.
    pub fn of_set(set: &'a SetOnDisk, number: u32) -> Option<Subject<'a>> {
        let ending = by_number(number)?.ending;
        let subject = match set.file(number) {
            Some(file) => Subject::on_disk(file, Presence::InSet),
            None => Subject {
                name: format!("{}.{ending}", set.stem_shown()),
                text: &[],
                presence: Presence::Absent,
            },
        };
        Some(subject)
    }
}

/// A refusal with what is said of it.
pub struct Explained {
    pub refusal: Refusal,
    /// The file's name, None for file 0.
    pub name: Option<String>,
    /// Which of two files that are joined it is.
    input: Option<u32>,
    pub meaning: String,
    /// Why, where more is known than the meaning.
    pub cause: Option<String>,
    /// What a value must look like here, where that is known.
    pub expected: Option<String>,
    pub advice: String,
    /// The mending that the advice asks for, where it can be done without knowing more.
    pub mend: Option<Edit>,
    /// The line as it stands, None for line 0.
    pub line: Option<Line>,
}

/// What the library was asked, the refusal, and the file that it names.
pub fn explain(case: Case, refusal: Refusal, subject: Option<Subject>) -> Explained {
    let refused = Refused { case, refusal };
    let finding = finding(&refused, subject.as_ref()).unwrap_or_default();
    Explained::new(refusal, subject, finding)
}

fn finding(refused: &Refused, subject: Option<&Subject>) -> Option<Finding> {
    let number = refused.refusal.number;
    if let Some(finding) = (5..=7)
        .contains(&number)
        .then(|| other_type::finding(refused))
        .flatten()
    {
        return Some(finding);
    }
    match number {
        2 => Some(stem(refused)),
        3 => Some(Finding::default().advice(words::as_made(refused.case.is_of_set()))),
        4 => line_form::finding(refused),
        5 => misnamed::heading(refused),
        6 => misnamed::entry(refused),
        7 => absent::section(refused, subject),
        8 => absent::entries(refused),
        9 => wrong_value::finding(refused),
        10 => not_as_due::entry(refused),
        11 => not_as_due::file(refused, subject?),
        12 => rules::booking(refused),
        13 => rules::difference(refused),
        14 => identification::form(refused),
        15 => identification::difference(refused),
        19 => out_of_date::finding(refused),
        _ => None,
    }
}

/// How many bytes a stem has.
const STEM: usize = 8;

/// Row 2.
fn stem(refused: &Refused) -> Finding {
    let stem = refused.case.stem();
    let found = stem_shown(stem);
    let length = counted(stem.len(), "byte");
    let capitals = stem.to_ascii_uppercase();
    let mend = refused.tried(Edit {
        file: 0,
        line: 0,
        action: Action::Rename(capitals.clone()),
    });
    let cause = match mend {
        Some(_) => format!("the stem `{found}` has small letters"),
        None if stem.len() != STEM => format!("the stem `{found}` has {length}, and not {STEM}"),
        None => wrong_byte(refused).unwrap_or_else(|| {
            format!("the stem `{found}` has {length}, but not two capitals and six digits")
        }),
    };
    let finding = Finding::cause(cause);
    if refused.case.has_twin() {
        let twin = stem_shown(&capitals);
        return finding.advice(format!(
            "the folder has a set `{twin}` too: find out which files belong to it, and give the others a stem of their own"
        ));
    }
    finding.mend_or(mend, words::advice(2))
}

/// The one byte of a stem with which a capital or a digit in its place passes.
fn wrong_byte(refused: &Refused) -> Option<String> {
    let stem = refused.case.stem();
    let passes = |at: usize, byte: u8| {
        let mut other = stem.to_vec();
        *other.get_mut(at)? = byte;
        let edit = Edit {
            file: 0,
            line: 0,
            action: Action::Rename(other),
        };
        refused.tried(edit)
    };
    stem.iter().enumerate().find_map(|(at, byte)| {
        let kinds = [(b'A', "a capital letter"), (b'0', "a digit")];
        let (_, must) = kinds
            .into_iter()
            .find(|(byte, _)| passes(at, *byte).is_some())?;
        let (found, byte, place) = (stem_shown(stem), shown::value(&[*byte]), at + 1);
        Some(format!(
            "the stem `{found}` has {byte} as byte {place}, where {must} must be"
        ))
    })
}

impl Explained {
    /// The refusal, the file that it names, and what is found out about it.
    pub fn new(refusal: Refusal, subject: Option<Subject>, finding: Finding) -> Explained {
        let number = refusal.number;
        let text = subject.as_ref().map_or(&[][..], |subject| subject.text);
        let input = match &subject {
            Some(Subject {
                presence: Presence::Input(input),
                ..
            }) => Some(*input),
            _ => None,
        };
        let or = |said: Option<String>, general: &str| said.unwrap_or_else(|| general.to_string());
        Explained {
            refusal,
            meaning: or(finding.meaning, words::meaning(number)),
            cause: finding.cause,
            expected: finding.expected,
            advice: or(finding.advice, &words::advice(number)),
            mend: finding.mend,
            line: shown::line(text, refusal.line),
            input,
            name: subject.map(|subject| subject.name),
        }
    }

    /// The labelled lines of a page.
    pub fn page(&self) -> String {
        let mut page = labelled("meaning", &self.meaning);
        page += &labelled("file", &self.file_words());
        page += &labelled("line", &self.line_words());
        if let Some(Line { text, remark }) = &self.line {
            page += &verbatim("text", text);
            if let Some(remark) = remark {
                page += &labelled("", &format!("({remark})"));
            }
        }
        page + &self.reasons_and_advice()
    }

    /// The labelled lines of a finding beside the verdict.
    pub fn further_lines(&self) -> String {
        let number = self.refusal.number;
        let mut lines = labelled("further", &format!("number {number}, {}", self.in_short()));
        if let Some(line) = &self.line {
            lines += &verbatim("text", &line.text);
        }
        lines + &self.reasons_and_advice()
    }

    fn reasons_and_advice(&self) -> String {
        let said = [("cause", &self.cause), ("expected", &self.expected)];
        let lines = said
            .into_iter()
            .filter_map(|(label, text)| Some(labelled(label, text.as_deref()?)));
        lines.collect::<String>() + &labelled("to do", &self.advice)
    }

    /// In a line behind others: the place and the meaning.
    pub fn in_short(&self) -> String {
        let place = match (&self.name, self.refusal.line) {
            (None, _) => String::new(),
            (Some(name), 0) => format!("{name}: "),
            (Some(name), line) => format!("{name}, line {line}: "),
        };
        format!("{place}{}", self.meaning)
    }

    fn file_words(&self) -> String {
        let number = self.refusal.file;
        let which = match self.input {
            Some(input) => format!("input {input}"),
            None => format!("file {number}"),
        };
        match (&self.name, by_number(number)) {
            (Some(name), Some(file)) => format!("{name} ({which}, {})", file.title),
            (Some(name), None) => format!("{name} ({which})"),
            (None, _) if self.refusal.number == TOO_MANY_AXLES => {
                "none: the refusal is about both files together".to_string()
            }
            (None, _) => "none: the refusal is about the stem".to_string(),
        }
    }

    fn line_words(&self) -> String {
        match (self.refusal.line, &self.name) {
            (0, Some(_)) => "none: the refusal is about the file as a whole".to_string(),
            (0, None) => "none".to_string(),
            (line, _) => line.to_string(),
        }
    }

    /// For programs.
    pub fn json(&self) -> Object {
        about_refusal(Object::default(), Some(self))
    }
}

/// The members that say what is refused, where, and what is known of it; 0 and null where nothing is.
pub fn about_refusal(object: Object, explained: Option<&Explained>) -> Object {
    let refusal = explained.map_or(NO_REFUSAL, |explained| explained.refusal);
    let name = explained.and_then(|explained| explained.name.as_deref());
    let object = object
        .number("number", refusal.number)
        .number("file", refusal.file)
        .number("line", refusal.line)
        .optional("name", name);
    known_of_refusal(object, explained)
}

/// Of these members those behind the place.
pub fn known_of_refusal(object: Object, explained: Option<&Explained>) -> Object {
    let said = |what: fn(&Explained) -> Option<&str>| explained.and_then(what);
    let line = explained.and_then(|explained| explained.line.as_ref());
    object
        .optional("meaning", said(|explained| Some(&explained.meaning)))
        .optional("text", line.map(|line| line.text.as_str()))
        .optional("remark", line.and_then(|line| line.remark.as_deref()))
        .optional("to_do", said(|explained| Some(&explained.advice)))
        .optional("cause", said(|explained| explained.cause.as_deref()))
        .optional("expected", said(|explained| explained.expected.as_deref()))
        .object(
            "mend",
            explained.and_then(|explained| explained.mend.as_ref().map(Edit::json)),
        )
}

/// The numbers of a refusal where there is none.
const NO_REFUSAL: Refusal = Refusal {
    number: 0,
    file: 0,
    line: 0,
};
