//! The identification answer: its fields, and what is off about it where it is refused (14, 15), found by trial.

use mctc::Refusal;

use crate::case::{Case, Refused};
use crate::edit::{Action, Edit};
use crate::file_types::{by_number, GAS, IDENTIFICATION};
use crate::finding::Finding;
use crate::json::Object;
use crate::shown::{self, counted};

/// The first byte, the last byte, and the one between fields.
pub const START: u8 = 0x02;
const END: u8 = 0x03;
const BETWEEN: u8 = 0x17;

/// A field of the answer.
pub struct Field {
    pub name: String,
    /// What stands there, in words, and one such content.
    pub content: &'static str,
    example: &'static str,
    /// The entry of gas that it must equal.
    pub entry: Option<u32>,
}

/// The fields that gas does not have, with what stands there.
const OWN: [(&str, &str, &str); 3] = [
    ("GAS", "`GAS`", "GAS"),
    ("address", "the analyser's address, 1 to 3 digits", "1"),
    ("ID", "`ID`", "ID"),
];

/// What stands in a field that gas has too.
const SHARED: &str = "1 to 64 plain letters, digits, signs or spaces";

/// All fields in their order.
pub fn fields() -> Vec<Field> {
    let own = OWN.into_iter().map(|(name, content, example)| Field {
        name: name.to_string(),
        content,
        example,
        entry: None,
    });
    let first = OWN.len() as u32;
    let entries = (first..).map_while(|field| mctc::field_entry(field).ok());
    let shared = entries.filter_map(|entry| {
        Some(Field {
            name: mctc::entry_name(GAS, entry).ok()?.name,
            content: SHARED,
            example: "A",
            entry: Some(entry),
        })
    });
    own.chain(shared).collect()
}

/// A field of an answer that has the form.
pub struct FieldRead<'a> {
    name: String,
    value: &'a [u8],
}

impl FieldRead<'_> {
    /// For programs.
    pub fn json(&self) -> Object {
        Object::default()
            .string("field", &self.name)
            .string("value", &shown::bytes(self.value))
    }
}

/// The fields of an answer that has the form, or the refusal.
pub fn fields_read(text: &[u8]) -> Result<Vec<FieldRead<'_>>, Refusal> {
    let places = mctc::identification(text)?;
    let fields = fields().into_iter().zip(places);
    let read = fields.map(|(field, place)| FieldRead {
        name: field.name,
        value: text.get(place).unwrap_or_default(),
    });
    Ok(read.collect())
}

/// A row for each field.
pub fn page(fields: &[FieldRead]) -> String {
    let width = fields.iter().map(|field| field.name.len()).max();
    let width = width.unwrap_or_default();
    let rows = fields
        .iter()
        .map(|FieldRead { name, value }| format!("  {name:width$} = {}\n", shown::bytes(value)));
    rows.collect()
}

/// What the answer has in place of an entry of gas, where it is of the form.
pub fn answered<'a>(case: &Case<'a>, entry: &[u8]) -> Option<&'a [u8]> {
    let text = case.beside(IDENTIFICATION);
    let places = mctc::identification(text).ok()?;
    let mut fields = fields().into_iter().zip(places);
    let is_it = |field: &Field| field.entry.is_some() && field.name.as_bytes() == entry;
    let (_, place) = fields.find(|(field, _)| is_it(field))?;
    text.get(place)
}

const AGAIN: &str = "have the analyser's answer recorded again";

/// Refusal 14.
pub fn form(refused: &Refused) -> Option<Finding> {
    extra_bytes(refused)
        .or_else(|| checksum(refused))
        .or_else(|| ends(refused))
        .or_else(|| field_count(refused))
        .or_else(|| wrong_field(refused))
}

fn content(refused: &Refused, content: Vec<u8>) -> Option<Edit> {
    refused.tried(refused.edit(Action::Content(content)))
}

/// Bytes before the first or behind the last that do not belong to the answer.
fn extra_bytes(refused: &Refused) -> Option<Finding> {
    let text = refused.text();
    let start = text.iter().position(|byte| *byte == START)?;
    let end = text.iter().rposition(|byte| *byte == END)? + 1;
    let mend = content(refused, text.get(start..end)?.to_vec())?;
    let named = |bytes: &[u8], place: &str| {
        let (count, verb) = (
            counted(bytes.len(), "byte"),
            if bytes.len() == 1 { "s" } else { "" },
        );
        (!bytes.is_empty()).then(|| format!("{count} stand{verb} {place}: {}", hex(bytes)))
    };
    let before = named(text.get(..start)?, "before the first, 02 hex");
    let behind = named(text.get(end..)?, "behind the last, 03 hex");
    let both: Vec<String> = before.into_iter().chain(behind).collect();
    if both.is_empty() {
        return None;
    }
    let words = mend.words();
    let finding = Finding::cause(both.join("; "));
    Some(Finding {
        mend: Some(mend),
        ..finding.advice(format!("{words}, or {AGAIN} without them"))
    })
}

fn hex(bytes: &[u8]) -> String {
    let shown: Vec<String> = bytes
        .iter()
        .take(8)
        .map(|byte| format!("{byte:02X}"))
        .collect();
    let more = if bytes.len() > 8 { " .." } else { "" };
    format!("{}{more} hex", shown.join(" "))
}

/// Only the two digits are wrong. Where they are another number, bytes were lost or changed on the way, and to write the
/// right number there would hide it.
fn checksum(refused: &Refused) -> Option<Finding> {
    let text = refused.text();
    let (start, digits) = match text {
        [start @ .., one, two, END] => (start, [*one, *two]),
        _ => return None,
    };
    let (right, mend) = (0..=u8::MAX).find_map(|sum| {
        let right = format!("{sum:02X}");
        let mend = content(refused, [start, right.as_bytes(), &[END]].concat())?;
        Some((right, mend))
    })?;
    let found = shown::value(&digits);
    let cause = format!("the checksum is {found}, and the bytes before it have `{right}`");
    if digits.eq_ignore_ascii_case(right.as_bytes()) {
        let advice = format!("write the checksum in capitals, `{right}`");
        let finding = Finding::cause(cause).advice(advice);
        return Some(Finding {
            mend: Some(mend),
            ..finding
        });
    }
    Some(Finding::cause(cause).advice(format!("{AGAIN}: a byte of it was lost or changed")))
}

/// The first or the last byte is not there.
fn ends(refused: &Refused) -> Option<Finding> {
    let text = refused.text();
    let missing = match (text.first(), text.last()) {
        (None, _) => "the file is empty",
        (Some(&START), Some(&END)) => return None,
        (Some(&START), _) => "it does not end in 03 hex",
        (_, Some(&END)) => "it does not begin with 02 hex",
        _ => "it does not begin with 02 hex and end in 03 hex",
    };
    Some(Finding::cause(missing).advice(format!("{AGAIN}, from 02 hex to 03 hex")))
}

fn field_count(refused: &Refused) -> Option<Finding> {
    let count = refused.text().split(|byte| *byte == BETWEEN).count();
    let right = fields().len();
    (count != right).then(|| {
        Finding::cause(format!(
            "it has {}, and not {right}",
            counted(count, "field")
        ))
        .advice(AGAIN)
    })
}

/// The field that is off: with a right one in its place, and some checksum, the answer passes.
fn wrong_field(refused: &Refused) -> Option<Finding> {
    let text = refused.text();
    let inner = text.get(1..text.len().checked_sub(3)?)?;
    let parts: Vec<&[u8]> = inner.split(|byte| *byte == BETWEEN).collect();
    let fields = fields();
    let (number, field, found) =
        (1..)
            .zip(&fields)
            .zip(&parts)
            .find_map(|((number, field), found)| {
                let others = (1..).zip(&parts);
                let tried = others.map(|(at, part)| match at == number {
                    true => field.example.as_bytes(),
                    false => part,
                });
                let tried: Vec<&[u8]> = tried.collect();
                let tried = tried.join(&BETWEEN);
                passes(refused, &tried).then_some((number, field, found))
            })?;
    let cause = format!(
        "field {number} ({}) has {}, and must have {}",
        field.name,
        shown::value(found),
        field.content
    );
    Some(Finding::cause(cause).advice(AGAIN))
}

/// Whether an answer with these fields and some checksum passes.
fn passes(refused: &Refused, fields: &[u8]) -> bool {
    (0..=u8::MAX).any(|sum| {
        let end = format!("{sum:02X}");
        let answer = [&[START], fields, end.as_bytes(), &[END]].concat();
        content(refused, answer).is_some()
    })
}

/// Refusal 15. Which of the two is wrong is not known here, so no mending is given.
pub fn difference(refused: &Refused) -> Option<Finding> {
    let text = refused.text();
    let places = mctc::identification(text).ok()?;
    let fields = fields();
    let differing: Vec<String> = fields
        .iter()
        .zip(places)
        .filter_map(|(field, place)| differing(refused, field, text.get(place)?))
        .collect();
    if differing.is_empty() {
        return None;
    }
    Some(Finding::cause(differing.join("; ")).advice(
        "find out which analyser was used: if gas is right, have the answer of that analyser recorded again; if the \
         answer is right, correct gas",
    ))
}

fn differing(refused: &Refused, field: &Field, found: &[u8]) -> Option<String> {
    let (line, value) = refused.case.value(GAS, field.entry?)?;
    let ending = by_number(GAS)?.ending;
    (value != found).then(|| {
        format!(
            "{ending} line {line}: {}={}, and the answer has {}",
            field.name,
            shown::value(value),
            shown::value(found)
        )
    })
}
