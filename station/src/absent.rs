//! Refusals 7 and 8: sections and entries that are not there.

use mctc::{Asked, Due};

use crate::case::{Case, Refused};
use crate::edit::{Action, Edit};
use crate::explain::Subject;
use crate::finding::Finding;
use crate::misnumbered;
use crate::reasons::Why;
use crate::shown::listed;
use crate::table::{self, Entry};
use crate::words;

/// Refusal 7.
pub fn section(refused: &Refused, subject: Option<&Subject>) -> Option<Finding> {
    let (_, missing) = table::missing_section(refused.refusal.file, refused.text())?;
    let heading = missing.heading;
    let names: Vec<&str> = missing
        .entries
        .iter()
        .map(|entry| entry.name.as_str())
        .collect();
    let sections = table::sections(refused.refusal.file);
    let axles = table::axles_like(&sections, heading.as_bytes());
    let add = format!("add {heading} with its entries ({})", shortened(&names));
    let finding = misnumbered::finding(refused, subject, &heading, &axles, &add);
    let finding = finding.unwrap_or_else(|| {
        let count = match axles.as_slice() {
            [] => "",
            _ => "; axles count from 1 without a gap",
        };
        Finding::default().advice(add + count)
    });
    Some(finding.meaning(format!("{}: {heading}", words::meaning(7))))
}

/// The names, or the first and how many more.
fn shortened(names: &[&str]) -> String {
    match names {
        [first, rest @ ..] if rest.len() > 9 => format!("{first} and {} more", rest.len()),
        names => names.join(", "),
    }
}

/// Refusal 8.
pub fn entries(refused: &Refused) -> Option<Finding> {
    let (file, line) = (refused.refusal.file, refused.refusal.line);
    let missing = table::missing_entries(file, refused.text(), line);
    let first = missing.first()?;
    let names: Vec<String> = missing.iter().map(|entry| entry.name.clone()).collect();
    let reported = missing.iter().filter(|entry| may_be_none(file, entry));
    let reported: Vec<String> = reported.map(|entry| entry.name.clone()).collect();
    let mend = may_be_empty(refused, &missing)
        .then(|| below(refused, first))
        .and_then(|edit| refused.tried(edit));
    let meaning = format!("{}: {}", words::meaning(8), names.join(", "));
    let finding = Finding::default().meaning(meaning);
    Some(finding.mend_or(mend, to_add(&names, &reported)))
}

/// When nothing may stand behind the `=` of what is reported.
pub const ONLY_IF_NONE: &str = "only if there was none";

/// The advice to add entries, with those among them that are reported.
fn to_add(names: &[String], reported: &[String]) -> String {
    let add = format!(
        "add to this section, with their values: {}",
        names.join(", ")
    );
    let only = ONLY_IF_NONE;
    match reported {
        [] => add,
        all if all.len() == names.len() => format!("{add}; nothing behind `=` {only}"),
        some => {
            let some = listed(some, "and");
            format!("{add}; nothing behind the `=` of {some} {only}")
        }
    }
}

/// What a person writes.
const NOTE: &str = "Note";

/// The entry that result files have, and bookings do not.
const ERROR_CODE: &str = "CodErrore";

/// Whether it is reported where there is something to report, as the device's errors and the peaks of opacity after the
/// third. Without a value it says that there was nothing, which only the device knows.
pub fn is_reported(file: u32, entry: u32) -> bool {
    let condition = mctc::condition(file, entry);
    let is_free = condition.is_ok_and(|condition| condition.asked == Asked::Free);
    let is_note = mctc::entry_name(file, entry).is_ok_and(|entry| entry.name == NOTE);
    let is_result = || {
        let sections = table::sections(file);
        let mut entries = sections.iter().flat_map(|section| &section.entries);
        entries.any(|entry| entry.name == ERROR_CODE)
    };
    is_free && !is_note && is_result()
}

fn may_be_none(file: u32, entry: &Entry) -> bool {
    u32::try_from(entry.number).is_ok_and(|entry| is_reported(file, entry))
}

/// The entry as a line without a value, below its heading.
fn below(refused: &Refused, entry: &Entry) -> Edit {
    refused.edit(Action::Insert(format!("{}=", entry.name).into_bytes()))
}

/// Whether the first of these may be empty: with all of them there, the library says what is due. Not where a value
/// that decides it is doubtful: to leave out what is due with another value would hide that.
fn may_be_empty(refused: &Refused, missing: &[Entry]) -> bool {
    let file = refused.refusal.file;
    if missing
        .first()
        .is_some_and(|first| may_be_none(file, first))
    {
        return false;
    }
    let text = missing.iter().fold(refused.text().to_vec(), |text, entry| {
        below(refused, entry).apply(&text)
    });
    let case = refused.case.with_text(file, &text);
    let due = case.due(file).zip(missing.first());
    let due = due.and_then(|(column, first)| column.entries.get(first.number).copied());
    match due {
        Some(Due::Free) => true,
        Some(Due::NotDue) => !missing
            .first()
            .is_some_and(|first| is_doubtful(&case, file, first)),
        _ => false,
    }
}

fn is_doubtful(case: &Case, file: u32, entry: &Entry) -> bool {
    let entry = u32::try_from(entry.number).ok();
    let why = entry.and_then(|entry| Why::entry(case, file, entry));
    why.is_some_and(|why| {
        why.deciding()
            .iter()
            .any(|looked| looked.supposed().is_some())
    })
}
