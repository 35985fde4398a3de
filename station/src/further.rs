//! `mctc judge --all`: what else can be said beside the verdict, which stays the library's one refusal.
//!
//! By the order of judging (01, Judging) the rest of a set is not judged once it is refused. What holds all the same:
//! each file read alone (3 to 9, 14), and where that file and the new booking pass, its due column (10); of a file with
//! values of the wrong kind the entries whose condition looks at none of these. Where a file and the new booking pass
//! all of that, its devices that are out of date (19).

use mctc::{Places, Refusal};

use crate::case::{Case, Refused};
use crate::columns::DueAndFound;
use crate::disk::SetOnDisk;
use crate::edit::Action;
use crate::explain::{explain, Explained, Subject};
use crate::file_types::{AC2, ACC, FILE_TYPES};
use crate::out_of_date::{covering, uncovered, OUT_OF_DATE};

const WRONG_KIND: u32 = 9;
const NOT_AS_DUE: u32 = 10;
const SLICE_NOT_AS_DUE: u32 = 11;

/// All findings but the verdict, file by file.
pub fn further(set: &SetOnDisk, verdict: Refusal) -> Vec<Explained> {
    let mut findings = Vec::new();
    for file in &FILE_TYPES {
        let number = file.number;
        let moot = verdict.number == SLICE_NOT_AS_DUE && verdict.file == number;
        if moot || !is_read(set, number) {
            continue;
        }
        let alone = Alone::of(set, number);
        let booking = match number {
            AC2 => alone.emptied.is_empty(),
            _ => booking_stands(set, verdict),
        };
        let due = match alone.is_read && booking {
            true => alone.not_as_due(set, number),
            false => Vec::new(),
        };
        findings.extend(alone.findings);
        findings.extend(due);
        findings.extend(out_of_date(set, number));
    }
    findings.retain(|finding| finding.refusal != verdict);
    findings
}

/// Whether the file is given and its lines are looked at, as those of an old booking with category L are not; not said
/// where that hangs on a new booking that is refused.
fn is_read(set: &SetOnDisk, number: u32) -> bool {
    if number != ACC {
        return set.is_given(number);
    }
    let mut places = Places::default();
    match mctc::due(number, set.text(AC2), set.text(number), &mut places) {
        Ok(column) => !column.entries.is_empty(),
        Err(refusal) => refusal.file == number && set.is_given(number),
    }
}

/// Whether the new booking passes by itself: only then does it say what is due in the others.
fn booking_stands(set: &SetOnDisk, verdict: Refusal) -> bool {
    let alone = Alone::of(set, AC2);
    verdict.file > AC2 && alone.findings.is_empty() && alone.not_as_due(set, AC2).is_empty()
}

/// A file read alone.
struct Alone {
    findings: Vec<Explained>,
    /// Without the values of the wrong kind.
    text: Vec<u8>,
    /// The lines of these values.
    emptied: Vec<u32>,
    /// Whether nothing else is found in it.
    is_read: bool,
}

impl Alone {
    /// 3 to 8, and 14, end the reading, and each value of the wrong kind is taken out to find the next.
    fn of(set: &SetOnDisk, number: u32) -> Alone {
        let mut alone = Alone {
            findings: Vec::new(),
            text: set.text(number).to_vec(),
            emptied: Vec::new(),
            is_read: false,
        };
        // A file has fewer entries than lines, and each is taken out once.
        for _ in 0..=alone.text.iter().filter(|byte| **byte == b'\n').count() {
            let case = Case::one_of(set, number).with_text(number, &alone.text);
            let Some(refusal) = case.refusal() else {
                alone.is_read = true;
                break;
            };
            let found = explain(case, refusal, Subject::of_set(set, number));
            alone.findings.push(found);
            if refusal.number != WRONG_KIND {
                break;
            }
            let emptied = Refused { case, refusal }.edit(Action::Empty);
            alone.text = emptied.apply(&alone.text);
            alone.emptied.push(refusal.line);
        }
        alone
    }

    /// The entries that are filled but not due, or due but empty, whatever is written for the values of the wrong kind.
    fn not_as_due(&self, set: &SetOnDisk, number: u32) -> Vec<Explained> {
        let mut places = Places::default();
        let Ok(column) = mctc::due(number, set.text(AC2), &self.text, &mut places) else {
            return Vec::new();
        };
        let line = |entry: usize| places.line(number, entry);
        let is_emptied =
            |entry: usize| line(entry).is_some_and(|line| self.emptied.contains(&line));
        let disagreeing = column.entries.iter().enumerate().filter(|(entry, due)| {
            let is_filled = places
                .value(number, *entry)
                .is_some_and(|value| !value.is_empty());
            let disagrees = DueAndFound::entry(**due, is_filled).disagrees();
            disagrees && !is_emptied(*entry) && !looks_at(number, *entry, is_emptied)
        });
        let case = Case::set(set);
        let case = case.with_text(number, &self.text);
        let refusals = disagreeing.filter_map(|(entry, _)| {
            Some(Refusal {
                number: NOT_AS_DUE,
                file: number,
                line: line(entry)?,
            })
        });
        refusals
            .map(|refusal| explain(case, refusal, Subject::of_set(set, number)))
            .collect()
    }
}

/// The devices of a file that are out of date. Beside the new booking the library judges that file alone; each due date
/// that it refuses is written as one that covers the measure, to find the next. Where no date does, all are found with
/// another text, and explained as they stand.
fn out_of_date(set: &SetOnDisk, number: u32) -> Vec<Explained> {
    let both = Case::set(set).only(&[AC2, number]);
    let uncovered = refused_device(both).and_then(|refused| uncovered(&refused));
    let mut text = uncovered.as_deref().unwrap_or(both.text(number)).to_vec();
    let mut findings = Vec::new();
    while let Some(refused) = refused_device(both.with_text(number, &text)) {
        let case = match &uncovered {
            Some(_) => both,
            None => refused.case,
        };
        let subject = Subject::of_set(set, number);
        findings.push(explain(case, refused.refusal, subject));
        let Some(edit) = covering(&refused) else {
            break;
        };
        text = edit.apply(&text);
    }
    findings
}

/// A device of these files that is out of date.
fn refused_device(case: Case) -> Option<Refused> {
    let refusal = case.refusal()?;
    (refusal.number == OUT_OF_DATE).then_some(Refused { case, refusal })
}

/// Whether the condition of an entry looks at one of these entries of its own file.
fn looks_at(number: u32, entry: usize, these: impl Fn(usize) -> bool) -> bool {
    let condition = u32::try_from(entry).map(|entry| mctc::condition(number, entry));
    let Ok(Ok(condition)) = condition else {
        return true;
    };
    let mut reasons = condition.groups.iter().flatten();
    reasons.any(|reason| reason.file == number && these(reason.entry as usize))
}
