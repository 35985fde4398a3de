//! 02, 5/14: day numbers, the day on which a measure ends, its length, and devices in date: row 19.

use std::iter::successors;
use std::sync::OnceLock;

use super::files::FileRead;
use super::kinds::{date_number, days_in_month, number};
use super::Refusal;

/// 02, 5/14: a length is "the difference in seconds modulo 86,400".
const SECONDS_OF_A_DAY: u32 = 86_400;

/// Day, month and year.
type Day = (u32, u32, u32);

const FIRST_DAY: Day = (1, 1, 1900);
const LAST_DAY: Day = (31, 12, 2099);

/// The day after one that has one.
fn next_day((day, month, year): Day) -> Day {
    if day < days_in_month(month, year) {
        (day + 1, month, year)
    } else if month < 12 {
        (1, month + 1, year)
    } else {
        (1, 1, year + 1)
    }
}

/// All days in their order, as the numbers yyyymmdd, counted one by one.
fn days() -> &'static [u32] {
    static DAYS: OnceLock<Vec<u32>> = OnceLock::new();
    DAYS.get_or_init(|| {
        let days = successors(Some(FIRST_DAY), |day| {
            (*day != LAST_DAY).then(|| next_day(*day))
        });
        days.map(|(day, month, year)| year * 10_000 + month * 100 + day)
            .collect()
    })
}

/// 02, 5/14: "a calendar of day numbers: 01011900 is 1, each next day one more, 31122099 is 73,049", of a value of kind D.
pub fn day_number(date: &[u8]) -> u32 {
    let before = days().binary_search(&date_number(date));
    before.expect("a day of kind D") as u32 + 1
}

/// The seconds of a value of kind H since midnight.
fn seconds(time: &[u8]) -> u32 {
    let [hours, minutes, seconds] = [0, 2, 4].map(|at| number(&time[at..at + 2]));
    hours * 3_600 + minutes * 60 + seconds
}

/// The entries of a result file that say when its measure begins and ends.
pub const TIMES: [&str; 2] = ["InizioMisura", "FineMisura"];

/// Beginning and end of a result file's measure, in seconds since the midnight before each.
fn times(read: &FileRead) -> [u32; 2] {
    TIMES.map(|name| seconds(read.value(name)))
}

/// 02, 5/14: "A measure whose FineMisura is below its InizioMisura ends the day after DataMisura, any other on it". After
/// 31122099 over midnight it is a day that no due date covers.
pub fn ending_day(read: &FileRead) -> u32 {
    let [start, finish] = times(read);
    day_number(read.value("DataMisura")) + u32::from(finish < start)
}

/// 02, 5/14: "a measure's length is the difference in seconds modulo 86,400".
pub fn length(read: &FileRead) -> u32 {
    let [start, finish] = times(read);
    (SECONDS_OF_A_DAY + finish - start) % SECONDS_OF_A_DAY
}

/// 02, 5/14: "This holds for the drift tester, suspension tester, analyser, opacimeter and rev counter, and for the speed
/// bench". Neither the version's date nor those of the keys are due dates.
fn is_due_date(name: &str) -> bool {
    matches!(
        name,
        "DataScadenza"
            | "DataScadenzaAnalizzatore"
            | "DataScadenzaContagiri"
            | "DataScadenzaProvaVelocita"
            | "DataScadenzaOpacimetro"
    )
}

/// 02, 5/14: "A device is good through its due date, and that date must cover the day on which the measure ends"; row 19,
/// "at its due-date line (the first such in entry order)". The bench's is filled exactly "where condition P holds", by 10.
pub fn judge_devices(read: &FileRead) -> Result<(), Refusal> {
    let end = ending_day(read);
    let due_dates = read
        .entries()
        .filter(|(entry, found)| is_due_date(&entry.name) && found.length > 0);
    for (_, found) in due_dates {
        if day_number(read.bytes(found)) < end {
            return Err(Refusal::new(19, read.table.file, found.line));
        }
    }
    Ok(())
}
