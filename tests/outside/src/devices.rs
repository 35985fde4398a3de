//! The measures and due dates of devices that a run must meet (02, 5/14), by call.

use crate::dates::{self, Date};
use crate::entries::{due_dates, BENCH_DUE_DATE};
use crate::judge::{Call, Outcome, Set, SECONDS};
use crate::measures::{self, Measure};
use crate::met::{
    value_in, Met, Wanted, JUDGED, JUDGED_AGAIN, JUDGE_10, JUDGE_19, READ, READ_BACK,
};
use crate::reference::tables::{GAS, OPACITY, RESULT_FILES, SUSPENSION};
use crate::reference::Refusal;

/// Days on which a measure ends, about which calendars differ: 29 February, the day behind it or behind 28 February, ends
/// of years and of a month, the first days and the last.
pub const DAYS: [Date; 15] = [
    Date::new(29, 2, 1904),
    Date::new(29, 2, 2000),
    Date::new(29, 2, 2096),
    Date::new(1, 3, 1900),
    Date::new(1, 3, 1904),
    Date::new(1, 3, 2000),
    Date::new(1, 3, 2096),
    Date::new(1, 1, 1901),
    Date::new(1, 1, 2000),
    Date::new(1, 1, 2001),
    Date::new(31, 12, 2000),
    Date::new(1, 5, 2024),
    dates::FIRST,
    Date::new(2, 1, 1900),
    dates::LAST,
];

/// How a measure ends.
const OVER_MIDNIGHT: &str = "over midnight";
const WITHIN_A_DAY: &str = "within a day";
const WAYS: [&str; 2] = [OVER_MIDNIGHT, WITHIN_A_DAY];

fn way(measure: Measure) -> &'static str {
    if measure.is_over_midnight() {
        OVER_MIDNIGHT
    } else {
        WITHIN_A_DAY
    }
}

/// A due date beside the day on which the measure ends.
const THAT_DAY: &str = "that day";
const DAY_BEFORE: &str = "the day before";
const TWO_DAYS_BEFORE: &str = "two days before";

/// What is said of a due date, if it is none of these.
fn beside(due: Date, end: Date) -> Option<&'static str> {
    if due == end {
        Some(THAT_DAY)
    } else if due.next() == end {
        Some(DAY_BEFORE)
    } else if due.next().next() == end {
        Some(TWO_DAYS_BEFORE)
    } else {
        None
    }
}

fn device(file: u32, name: &str, way: &str, beside: &str) -> String {
    format!("file {file}, {name}: ends {way}, due {beside}")
}

fn day(end: Date, way: &str, beside: &str) -> String {
    let digits = end.digits();
    let end = String::from_utf8_lossy(&digits);
    format!("ends on {end} {way}, due {beside}")
}

fn past_last_day(file: u32) -> String {
    format!("file {file} ends past the last day")
}

/// The length of a measure: none, the longest, or another.
fn length(file: u32, way: &str, seconds: u32) -> String {
    match seconds {
        0 | 86_399 => format!("file {file}, {seconds} seconds {way}"),
        _ => format!("file {file}, some seconds {way}"),
    }
}

fn not_given(file: u32) -> String {
    format!("file {file} not given, 0 seconds")
}

fn bench(is_filled: bool) -> String {
    let filled = if is_filled { "filled" } else { "empty" };
    format!("due date of the bench {filled}")
}

fn error_code(file: u32, is_filled: bool) -> String {
    let filled = if is_filled { "filled" } else { "empty" };
    format!("file {file}, CodErrore {filled}")
}

fn counter(file: u32, link: &str) -> String {
    format!("file {file}, rev counter {link}")
}

fn out_of_date(file: u32, names: &[&str]) -> String {
    format!("file {file}, {} out of date", names.join(" and "))
}

const WRONG_DIFFERENCE: &str = "a wrong Differenza%";

/// Where no due date is judged, or not yet.
fn not_judged(file: u32) -> String {
    format!("file {file} with a device out of date")
}

/// What a run must meet.
pub fn wanted() -> Vec<Wanted> {
    let accepted = [of_devices(THAT_DAY), of_days(THAT_DAY), lengths()].concat();
    let refused = [
        of_devices(DAY_BEFORE),
        of_days(DAY_BEFORE),
        days_between(),
        of_refused_files(),
        several_out_of_date(),
    ]
    .concat();
    let mut wanted = Vec::new();
    for (call, all) in [
        (JUDGED, accepted.clone()),
        (JUDGED_AGAIN, accepted),
        (JUDGE_19, refused),
        (JUDGE_10, RESULT_FILES.map(not_judged).to_vec()),
        (READ, RESULT_FILES.map(not_judged).to_vec()),
        (READ_BACK, RESULT_FILES.map(not_judged).to_vec()),
    ] {
        wanted.extend(all.into_iter().map(|what| (call, what)));
    }
    wanted
}

/// Each due date of each file, over midnight and not.
fn of_devices(beside: &str) -> Vec<String> {
    let mut wanted = Vec::new();
    for file in RESULT_FILES {
        for name in due_dates(file) {
            wanted.extend(WAYS.map(|way| device(file, name, way, beside)));
        }
    }
    wanted
}

/// Each day likewise. No measure ends on the first over midnight, and no due date is before it.
fn of_days(beside: &str) -> Vec<String> {
    let mut wanted = Vec::new();
    for end in DAYS.into_iter().filter(|end| *end != dates::FIRST) {
        wanted.extend(WAYS.map(|way| day(end, way, beside)));
    }
    if beside == THAT_DAY {
        wanted.push(day(dates::FIRST, WITHIN_A_DAY, beside));
    }
    wanted
}

/// 29 February as the day between due date and end.
fn days_between() -> Vec<String> {
    let ends = [1904, 2000, 2096].map(|year| Date::new(1, 3, year));
    let both = ends.into_iter().flat_map(|end| WAYS.map(|way| (end, way)));
    both.map(|(end, way)| day(end, way, TWO_DAYS_BEFORE))
        .collect()
}

/// 02, 5/14: "Acceptance gives the length for each result file, 0 for one not given."
fn lengths() -> Vec<String> {
    let mut wanted = vec![bench(true), bench(false)];
    for file in RESULT_FILES {
        wanted.extend([not_given(file), length(file, WITHIN_A_DAY, 0)]);
        for way in WAYS {
            wanted.extend([1, 86_399].map(|seconds| length(file, way, seconds)));
        }
    }
    wanted
}

fn of_refused_files() -> Vec<String> {
    let mut wanted = vec![WRONG_DIFFERENCE.to_string()];
    for file in RESULT_FILES {
        wanted.push(past_last_day(file));
        wanted.extend([true, false].map(|is_filled| error_code(file, is_filled)));
    }
    for file in [GAS, OPACITY] {
        wanted.extend(["ESTERNO", "INTEGRATO"].map(|link| counter(file, link)));
    }
    wanted
}

/// Two and three devices of one file.
fn several_out_of_date() -> Vec<String> {
    let [analyser, counter, bench] = due_dates(GAS) else {
        panic!("three devices of gas");
    };
    vec![
        out_of_date(GAS, &[analyser, counter]),
        out_of_date(GAS, &[analyser, bench]),
        out_of_date(GAS, &[counter, bench]),
        out_of_date(GAS, due_dates(GAS)),
        out_of_date(OPACITY, due_dates(OPACITY)),
    ]
}

/// The measure of a result file that passed 3 to 9, if its values are filled.
pub fn measure_in(text: &[u8]) -> Option<Measure> {
    let values = measures::ENTRIES.map(|name| value_in(text, name).as_bytes());
    let filled = values.iter().all(|value| !value.is_empty());
    filled.then(|| Measure::new(values))
}

/// The filled due dates of a result file that passed 3 to 9, in entry order.
fn due_dates_in(file: u32, text: &[u8]) -> Vec<(&'static str, Date)> {
    let dates = due_dates(file)
        .iter()
        .map(|name| (*name, value_in(text, name)));
    let filled = dates.filter(|(_, value)| !value.is_empty());
    filled
        .map(|(name, value)| (name, Date::from_digits(value.as_bytes())))
        .collect()
}

/// The due dates that do not cover the day on which a measure ends, in entry order.
fn expired(file: u32, text: &[u8], measure: Measure) -> Vec<(&'static str, Date)> {
    let mut dates = due_dates_in(file, text);
    dates.retain(|(_, due)| *due < measure.end());
    dates
}

/// The line of an entry of a text.
pub fn line_of(text: &[u8], name: &str) -> u32 {
    let start = format!("{name}=");
    let text = String::from_utf8_lossy(text);
    let at = text.lines().position(|line| line.starts_with(&start));
    at.expect("the entry is there") as u32 + 1
}

/// Whether an acceptance has the lengths of measures on which all devices are good, and a refusal by 19 names the first
/// due date that does not cover its measure.
pub fn is_right(set: &Set, outcome: &Outcome) -> bool {
    let Refusal { number, file, line } = outcome.refusal();
    let mut seconds = RESULT_FILES.into_iter().zip(&outcome.answer[SECONDS..]);
    match number {
        0 => seconds.all(|(file, seconds)| is_length(file, set.slice(file), *seconds)),
        19 => first_expired(file, set.slice(file)) == Some(line),
        _ => true,
    }
}

fn is_length(file: u32, text: &[u8], seconds: u32) -> bool {
    if text.is_empty() {
        return seconds == 0;
    }
    let length = measure_in(text).map(Measure::seconds);
    length == Some(seconds) && first_expired(file, text).is_none()
}

/// The line of the first due date that does not cover the day on which the file's measure ends.
fn first_expired(file: u32, text: &[u8]) -> Option<u32> {
    let expired = expired(file, text, measure_in(text)?);
    expired.first().map(|(name, _)| line_of(text, name))
}

/// Notes the measures and due dates of an accepted set, or of a result file read alone.
pub fn note(met: &mut Met, what: &'static str, call: &Call, outcome: &Outcome) {
    match call {
        Call::Judge { set, .. } => note_set(met, what, set, outcome),
        Call::Read { file, text, .. } => note_not_judged(met, what, *file, text),
        _ => {}
    }
}

fn note_set(met: &mut Met, what: &'static str, set: &Set, outcome: &Outcome) {
    for (file, number) in RESULT_FILES.into_iter().zip(SECONDS..) {
        let (text, seconds) = (set.slice(file), outcome.answer[number]);
        match text {
            [] if seconds == 0 => met.count(what, not_given(file)),
            [] => {}
            _ => note_accepted(met, what, file, text, seconds),
        }
    }
}

fn note_accepted(met: &mut Met, what: &'static str, file: u32, text: &[u8], seconds: u32) {
    let measure = measure_in(text).expect("a measure is due");
    let (end, way) = (measure.end(), way(measure));
    met.count(what, length(file, way, seconds));
    for (name, due) in due_dates_in(file, text) {
        if let Some(beside) = beside(due, end) {
            met.count(what, device(file, name, way, beside));
            met.count(what, day(end, way, beside));
        }
    }
    if file == GAS {
        met.count(what, bench(!value_in(text, BENCH_DUE_DATE).is_empty()));
    }
}

/// Notes a set that is refused by 19.
pub fn note_refused(met: &mut Met, set: &Set, refusal: Refusal) {
    let (file, text) = (refusal.file, set.slice(refusal.file));
    let measure = measure_in(text).expect("10 is judged before 19");
    let expired = expired(file, text, measure);
    let (end, way) = (measure.end(), way(measure));
    let mut refused = |what| met.count(JUDGE_19, what);
    let names: Vec<&str> = expired.iter().map(|(name, _)| *name).collect();
    refused(out_of_date(file, &names));
    refused(error_code(file, !value_in(text, "CodErrore").is_empty()));
    if end > dates::LAST {
        refused(past_last_day(file));
    }
    // The first in entry order is the one for which the file is refused.
    let Some((name, due)) = expired.first().copied() else {
        return;
    };
    if let Some(beside) = beside(due, end) {
        refused(device(file, name, way, beside));
        refused(day(end, way, beside));
    }
    if name == "DataScadenzaContagiri" {
        refused(counter(file, value_in(text, "TipoCollegamentoContagiri")));
    }
    if file == SUSPENSION && has_wrong_difference(text) {
        refused(WRONG_DIFFERENCE.to_string());
    }
}

/// Notes a set that is refused by 10, if a device of that file is out of date.
pub fn note_refused_by_10(met: &mut Met, set: &Set, refusal: Refusal) {
    note_not_judged(met, JUDGE_10, refusal.file, set.slice(refusal.file));
}

/// Notes a file that passed 3 to 9 if a device is out of date all the same.
fn note_not_judged(met: &mut Met, what: &'static str, file: u32, text: &[u8]) {
    let is_expired = |measure| !expired(file, text, measure).is_empty();
    if RESULT_FILES.contains(&file) && measure_in(text).is_some_and(is_expired) {
        met.count(what, not_judged(file));
    }
}

/// Whether an axle of a suspension file that passed 3 to 10 has another difference than its grips.
fn has_wrong_difference(text: &[u8]) -> bool {
    let text = format!("\r\n{}", String::from_utf8_lossy(text));
    let mut axles = text.split("\r\n[SospensioniAsse_").skip(1);
    let is_wrong = |axle: &str| {
        let [left, right, difference] = ["Aderenza%Sx", "Aderenza%Dx", "Differenza%"]
            .map(|name| value_in(axle.as_bytes(), name).parse::<u32>());
        left.expect("digits").abs_diff(right.expect("digits")) != difference.expect("digits")
    };
    axles.any(is_wrong)
}
