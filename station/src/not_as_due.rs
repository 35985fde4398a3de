//! Refusals 10 and 11: which half it is, the values that decide it, and the mending of one that is written wrong.
//!
//! To take a value or a file out comes last and is never a mending: it may be right, and the value wrong by which it is
//! not due.

use crate::case::{missing, Case, Refused};
use crate::edit::{Action, Edit};
use crate::explain::{Presence, Subject};
use crate::file_types::FILE_TYPES;
use crate::finding::Finding;
use crate::kinds;
use crate::other_type;
use crate::placed;
use crate::reasons::{self, Looked, Why};
use crate::shown;

/// Refusal 10.
pub fn entry(refused: &Refused) -> Option<Finding> {
    let (file, line) = (refused.refusal.file, refused.refusal.line);
    let (name, value) = refused.entry()?;
    let name = shown::bytes(name);
    let entry = placed::entry_at(file, refused.text(), line)?;
    let entry = u32::try_from(entry).ok()?;
    let why = Why::entry(&refused.case, file, entry);
    if value.is_empty() {
        let advice = or_correct(&format!("fill in {name}"), why.as_ref());
        let finding = because(why.as_ref()).meaning("due, but empty");
        return Some(
            finding
                .expected(kinds::expected(file, entry))
                .advice(advice),
        );
    }
    let last = format!("leave nothing behind `{name}=`");
    let last = refused.tried(refused.edit(Action::Empty)).map(|_| last);
    let finding = cause_first(refused, why.as_ref(), last);
    Some(finding.meaning("filled, but not due"))
}

/// Refusal 11: missing or not due; read alone, empty.
pub fn file(refused: &Refused, subject: &Subject) -> Option<Finding> {
    let (name, file) = (&subject.name, refused.refusal.file);
    let why = Why::file(&refused.case, file);
    let finding = match (subject.presence, subject.text) {
        (Presence::Alone | Presence::Input(_), _) => Finding::default()
            .meaning("the file is empty")
            .advice("name a file that has content"),
        (Presence::Absent, _) => {
            let add = format!("add {name}");
            missing_file(refused, why.as_ref(), &add).meaning("missing, but due")
        }
        (Presence::InSet, []) => {
            let put = format!("put {name} there with its content");
            let finding = missing_file(refused, why.as_ref(), &put);
            finding.meaning("empty, which counts as not given, but due")
        }
        (Presence::InSet, _) => {
            let finding = other_type::misplaced(refused);
            let finding = finding.unwrap_or_else(|| given_file(refused, why.as_ref(), name));
            finding.meaning("given, but not due")
        }
    };
    Some(finding)
}

/// A file that is due, with the advice to put it there, unless it stands under another's name.
fn missing_file(refused: &Refused, why: Option<&Why>, advice: &str) -> Finding {
    let finding = other_type::elsewhere(refused);
    finding.unwrap_or_else(|| because(why).advice(or_correct(advice, why)))
}

fn given_file(refused: &Refused, why: Option<&Why>, name: &str) -> Finding {
    let removal = refused.tried(refused.edit(Action::Remove));
    let last = removal.map(|edit| {
        let then = then_lacking(&refused.case, &edit);
        format!("take {name} out of the set{then}")
    });
    cause_first(refused, why, last)
}

/// What is due and not there: to be put there, unless a value is wrong by which it is due.
fn or_correct(what: &str, why: Option<&Why>) -> String {
    let deciding = why.map_or(Vec::new(), Why::deciding);
    match places(&deciding).as_slice() {
        [] => what.to_string(),
        [one] => format!("{what}, or correct {one} if that is wrong"),
        several => {
            let places = shown::listed(several, "or");
            format!("{what}, or correct {places} if one of them is wrong")
        }
    }
}

fn because(why: Option<&Why>) -> Finding {
    Finding {
        cause: why.map(Why::words),
        ..Finding::default()
    }
}

/// What is there and not due: the value that decides is mended where it is near a word that counts; else it is to be
/// looked at before the last resort. There is none where it may mean a word by which anything is due: the vehicle may need
/// that.
fn cause_first(refused: &Refused, why: Option<&Why>, last: Option<String>) -> Finding {
    let finding = because(why);
    let deciding = why.map_or(Vec::new(), Why::deciding);
    let correction = deciding
        .iter()
        .find_map(|looked| correction(refused, looked));
    if let Some(Correction { edit, advice }) = correction {
        return Finding {
            mend: Some(edit),
            ..finding.advice(advice)
        };
    }
    let places = places(&deciding);
    if let Some(advice) = supposition(&refused.case, &places) {
        return finding.advice(advice);
    }
    let first = match places.as_slice() {
        [] => "look first whether what decides this is right".to_string(),
        [one] => format!("look first whether {one} is right"),
        several => {
            let places = shown::listed(several, "and");
            format!("look first whether {places} are right")
        }
    };
    finding.advice(match last {
        Some(last) => format!("{first}; only if so, as a last resort, {last}"),
        None => first,
    })
}

/// The lines of values that decide, and the stem, each once.
fn places(deciding: &[&Looked]) -> Vec<String> {
    let mut places: Vec<String> = deciding.iter().map(|looked| looked.place()).collect();
    places.dedup();
    places
}

/// A value that decides, written as the word that counts.
pub struct Correction {
    pub edit: Edit,
    pub advice: String,
}

impl Correction {
    /// None where the value is not near such a word.
    fn of(looked: &Looked) -> Option<Correction> {
        let corrected = looked.corrected()?;
        let advice = format!("write {} as {}", looked.place(), shown::value(&corrected));
        let edit = Edit {
            file: looked.file(),
            line: looked.line,
            action: Action::Replace(corrected),
        };
        Some(Correction { edit, advice })
    }
}

/// What to do about a value at one of these places that may mean a word that counts.
fn supposition(case: &Case, places: &[String]) -> Option<String> {
    let doubtful = reasons::doubtful(case);
    let mut doubtful = doubtful.iter();
    let looked = doubtful.find(|looked| places.contains(&looked.place()))?;
    let (meant, place) = (looked.meant()?, looked.place());
    let line = shown::value(&looked.supposed()?);
    let then = then_lacking(case, &supposed(looked)?);
    Some(format!(
        "look up what is right; if `{meant}` is meant, write {place} as {line}{then}"
    ))
}

/// A value that decides, written as the word that may be meant.
fn supposed(looked: &Looked) -> Option<Edit> {
    Some(Edit {
        file: looked.file(),
        line: looked.line,
        action: Action::Replace(looked.supposed()?),
    })
}

/// Where the library, asked with that word, refuses later, or asks for what was not asked for before.
pub fn correction(refused: &Refused, looked: &Looked) -> Option<Correction> {
    let Correction { edit, advice } = Correction::of(looked)?;
    if refused.helps(&edit) {
        return Some(Correction { edit, advice });
    }
    let then = then_due(&refused.case, &edit)?;
    let advice = format!("{advice}; then {then}");
    Some(Correction { edit, advice })
}

/// What is due with this change and not there; None where that is not what the library refuses it for.
fn then_due(case: &Case, edit: &Edit) -> Option<String> {
    let text = edit.apply(case.text(edit.file));
    case.with_text(edit.file, &text).lacking()?;
    Some(lacking_with(case, edit).join("; "))
}

/// What is due with this change and not there: what the library refuses it for, and files that it would come to.
fn lacking_with(case: &Case, edit: &Edit) -> Vec<String> {
    let text = edit.apply(case.text(edit.file));
    let case = case.with_text(edit.file, &text);
    let mut lacking: Vec<String> = case.lacking().into_iter().collect();
    for file in &FILE_TYPES {
        let is_due = Why::file(&case, file.number).is_some_and(|why| why.is_due());
        let missing = missing(file);
        if is_due && case.text(file.number).is_empty() && !lacking.contains(&missing) {
            lacking.push(missing);
        }
    }
    lacking
}

/// The same, to stand behind the advice to make the change; nothing where nothing is lacking.
pub fn then_lacking(case: &Case, edit: &Edit) -> String {
    match lacking_with(case, edit).as_slice() {
        [] => String::new(),
        lacking => format!("; then {}", lacking.join("; ")),
    }
}

/// What is to be noted of an accepted set: values that are near a word that counts, by which something would be due.
pub fn doubts(case: &Case) -> Vec<String> {
    let doubtful = reasons::doubtful(case);
    let notes = doubtful.iter().filter_map(|looked| {
        let then = then_due(case, &supposed(looked)?)?;
        Some(format!("{}, {then}", looked.doubt()?))
    });
    notes.collect()
}
