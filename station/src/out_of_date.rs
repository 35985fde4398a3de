//! Refusal 19: which device is out of date, and the day on which the measure ended (02, 5/14). The day is found by
//! trial: it is the first that the library takes as the device's due date.

use std::iter;

use crate::candidates;
use crate::case::{Case, Refused};
use crate::edit::{Action, Edit};
use crate::file_types::{by_number, DRIFT, FILE_TYPES, GAS, OPACITY, SUSPENSION};
use crate::finding::Finding;
use crate::identification;
use crate::measure::{given, with_value, written, Measure, DAY, END, START};
use crate::shown;
use crate::table::Given;

/// The entries with a due date that the library holds to the day of the measure, and the device that each is of.
const DUE_DATES: [(u32, &str, &str); 7] = [
    (DRIFT, "DataScadenza", "drift tester"),
    (SUSPENSION, "DataScadenza", "suspension tester"),
    (GAS, "DataScadenzaAnalizzatore", "analyser"),
    (GAS, "DataScadenzaContagiri", "rev counter"),
    (GAS, "DataScadenzaProvaVelocita", "speed bench"),
    (OPACITY, "DataScadenzaOpacimetro", "opacimeter"),
    (OPACITY, "DataScadenzaContagiri", "rev counter"),
];

const ENDS: &str =
    "a measure whose FineMisura is below its InizioMisura ends on the day after DataMisura, any other on DataMisura";

/// The refusal of a device that is out of date.
pub const OUT_OF_DATE: u32 = 19;

/// The first day that there is.
pub const FIRST_DAY: &[u8] = b"01011900";

/// The device whose due date an entry is.
fn device(file: u32, entry: &[u8]) -> Option<&'static str> {
    let mut dates = DUE_DATES.into_iter();
    let date = dates.find(|(of, name, _)| *of == file && name.as_bytes() == entry);
    date.map(|(_, _, device)| device)
}

/// The rule at the entry of a due date.
pub fn rule(file: u32, entry: &[u8]) -> Option<String> {
    let device = device(file, entry)?;
    Some(format!(
        "the {device} is good through this date, which must not be before the day on which the measure ends"
    ))
}

/// The due dates that are held to the day on which a measure ends, where an entry is one that says when that is.
pub fn decided_by(file: u32, entry: &[u8]) -> Option<String> {
    let dates = DUE_DATES.iter().filter(|(of, ..)| *of == file);
    let names: Vec<String> = dates.map(|(_, name, _)| name.to_string()).collect();
    let is_of_measure = [DAY, START, END]
        .iter()
        .any(|name| name.as_bytes() == entry);
    (is_of_measure && !names.is_empty()).then(|| {
        format!(
            "{ENDS}; no {} may be before that day",
            shown::listed(&names, "or")
        )
    })
}

/// What is asked of due dates, and each of them with its file and device.
pub fn rules() -> Vec<String> {
    let rule = format!(
        "a device is good through its due date, which must not be before the day on which the measure ends; {ENDS}"
    );
    let dates = DUE_DATES.iter().filter_map(|(file, name, device)| {
        let ending = by_number(*file)?.ending;
        Some(format!("{ending}, {name}: the due date of the {device}"))
    });
    iter::once(rule).chain(dates).collect()
}

/// Refusal 19.
pub fn finding(refused: &Refused) -> Option<Finding> {
    let (name, due) = refused.entry()?;
    let found = OutOfDate {
        refused,
        device: device(refused.refusal.file, name)?,
        due,
        measure: measure(refused)?,
        ended: ended(refused),
        answer: Answer::at(refused),
    };
    let finding = Finding::cause(found.cause()).meaning(found.meaning());
    Some(finding.expected(found.right()).advice(found.advice()))
}

/// Whether the measure of a file that passes ended on the day after DataMisura: the library refuses the file with
/// DataMisura as its first due date.
pub fn is_over_midnight(case: &Case, file: u32) -> bool {
    let text = with_day_as_due_date(case.text(file), file);
    text.is_some_and(|text| {
        let refusal = case.with_text(file, &text).refusal();
        refusal.is_some_and(|refusal| (refusal.number, refusal.file) == (OUT_OF_DATE, file))
    })
}

/// The text of a result file whose first due date is its DataMisura.
fn with_day_as_due_date(text: &[u8], file: u32) -> Option<Vec<u8>> {
    let (_, name, _) = DUE_DATES.into_iter().find(|(of, ..)| *of == file)?;
    let due = given(file, text, name)?;
    let day = given(file, text, DAY)?;
    Some(with_value(file, &due, day.value).apply(text))
}

fn measure<'a>(refused: &Refused<'a>) -> Option<Measure<'a>> {
    Measure::of(refused.refusal.file, refused.text())
}

/// The due date at the refusal's line, written as the day on which the measure ended; None where no date covers that.
pub fn covering(refused: &Refused) -> Option<Edit> {
    let days = candidates::day_and_next(measure(refused)?.day.value)?;
    let mut edits = days
        .iter()
        .filter_map(|day| refused.with_value(day.as_bytes()));
    edits.find(|edit| refused.helps(edit))
}

/// A file whose measure ended behind the last day that there is, so that all its devices are out of date: with this
/// text they are so on a day that dates cover. None of any other file.
pub fn uncovered(refused: &Refused) -> Option<Vec<u8>> {
    if covering(refused).is_some() {
        return None;
    }
    let file = refused.refusal.file;
    let text = measure(refused)?.on_its_day().apply(refused.text());
    let dates = DUE_DATES.iter().filter(|(of, ..)| *of == file);
    Some(dates.fold(text, |text, (_, name, _)| {
        let due = given(file, &text, name).filter(|due| !due.value.is_empty());
        let edit = due.map(|due| with_value(file, &due, FIRST_DAY));
        edit.map_or(text.clone(), |edit| edit.apply(&text))
    }))
}

/// The day on which the measure ended.
fn ended(refused: &Refused) -> Option<Vec<u8>> {
    match covering(refused)?.action {
        Action::Replace(line) => shown::entry(&line).map(|(_, day)| day.to_vec()),
        _ => None,
    }
}

/// What the analyser says of its due date.
enum Answer<'a> {
    /// Nothing: there is no answer of the form, or the device is another.
    None,
    /// What stands in gas.
    Same,
    InDate(&'a [u8]),
    OutOfDate(&'a [u8]),
}

impl<'a> Answer<'a> {
    fn at(refused: &Refused<'a>) -> Answer<'a> {
        let entry = refused.entry();
        let answered = entry.and_then(|(name, due)| {
            let day = identification::answered(&refused.case, name)?;
            Some((day, due))
        });
        let helps = |day| {
            let edit = refused.with_value(day);
            edit.is_some_and(|edit| refused.helps(&edit))
        };
        match answered {
            None => Answer::None,
            Some((day, due)) if day == due => Answer::Same,
            Some((day, _)) if helps(day) => Answer::InDate(day),
            Some((day, _)) => Answer::OutOfDate(day),
        }
    }

    /// Behind the due date; nothing where that may be mistyped.
    fn words(&self) -> String {
        match self {
            Answer::None | Answer::InDate(_) => String::new(),
            Answer::Same => " (the identification answer has the same date)".to_string(),
            Answer::OutOfDate(day) => {
                let day = shown::value(day);
                format!(" (the identification answer has {day}, which is not in date either)")
            }
        }
    }
}

/// What is found out about the refusal.
struct OutOfDate<'a> {
    refused: &'a Refused<'a>,
    device: &'static str,
    /// The due date as it stands.
    due: &'a [u8],
    measure: Measure<'a>,
    /// The day on which the measure ended; None behind the last day that there is.
    ended: Option<Vec<u8>>,
    answer: Answer<'a>,
}

impl OutOfDate<'_> {
    fn meaning(&self) -> String {
        let device = self.device;
        format!("the {device} is out of date on the day on which the measure ends")
    }

    fn is_over_midnight(&self) -> bool {
        self.ended.as_deref() != Some(self.measure.day.value)
    }

    fn cause(&self) -> String {
        let (device, due) = (self.device, shown::day(self.due));
        let answer = self.answer.words();
        let midnight = match self.is_over_midnight() {
            true => "went over midnight and ",
            false => "",
        };
        let day = match &self.ended {
            Some(day) => shown::day(day),
            None => {
                let day = shown::day(self.measure.day.value);
                format!("the day after {day}, which no date covers")
            }
        };
        let hangs_on = self.hangs_on().join(", ");
        format!(
            "the {device} is good through {due}{answer}, and the measure {midnight}ended on {day}; this hangs on \
             {hangs_on}"
        )
    }

    /// The entries that decide on which day the measure ended.
    fn hangs_on(&self) -> Vec<String> {
        let Measure {
            day, start, end, ..
        } = &self.measure;
        let deciding = match self.is_over_midnight() {
            true => vec![day, start, end],
            false => vec![day],
        };
        deciding.into_iter().map(Given::words).collect()
    }

    /// What passes at the refusal's line; None where nothing does, or only what the identification answer denies.
    fn right(&self) -> Option<String> {
        let passes = match self.answer {
            Answer::None => format!("{} or later", shown::day(self.ended.as_deref()?)),
            Answer::InDate(day) => {
                format!("{}, as in the identification answer", shown::day(day))
            }
            Answer::Same | Answer::OutOfDate(_) => return None,
        };
        let device = self.device;
        Some(format!(
            "the date of the {device}'s certificate, which must be {passes}"
        ))
    }

    /// Which line is mistyped is not known here, and the due date stands on the device's certificate, so no mending is
    /// given.
    fn advice(&self) -> String {
        let steps = [
            self.due_date_mistyped(),
            self.day_mistyped(),
            self.times_wrong(),
        ];
        let steps: String = steps
            .into_iter()
            .flatten()
            .map(|step| step + "; ")
            .collect();
        format!("{steps}else have the measure made again with a device in date")
    }

    fn due_date_mistyped(&self) -> Option<String> {
        let (line, right) = (self.refused.refusal.line, self.right()?);
        Some(format!("if line {line} is mistyped, write there {right}"))
    }

    /// None where no other day helps.
    fn day_mistyped(&self) -> Option<String> {
        let line = self.measure.day.line;
        let others = match self.other_days().as_slice() {
            [] => String::new(),
            days => format!(" ({})", days.join("; ")),
        };
        let helps = self.refused.helps(&self.measure.on_day(FIRST_DAY));
        helps.then(|| format!("if line {line} is mistyped, correct that{others}"))
    }

    /// The days of other files of the set that help here, of files too that the library does not read.
    fn other_days(&self) -> Vec<String> {
        let days = FILE_TYPES.iter().filter_map(|file| {
            let day = written(file.number, self.refused.case.beside(file.number), DAY)?;
            let helps = self.refused.helps(&self.measure.on_day(day.value));
            helps.then(|| format!("{} {}", file.ending, day.words()))
        });
        days.collect()
    }

    /// None where the times do not say that the measure went over midnight, or where this does not help.
    fn times_wrong(&self) -> Option<String> {
        let helps = self.refused.helps(&self.measure.exchanged());
        let times = self.measure.times();
        helps.then(|| format!("if {times} are exchanged or one of them is mistyped, correct that"))
    }
}
