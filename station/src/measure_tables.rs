//! The day on which a measure ends, and its length, as a table for `mctc rules`: drift files are made up and judged.

use mctc::Acceptance;

use crate::file_types::DRIFT;
use crate::made_up;
use crate::out_of_date::FIRST_DAY;
use crate::shown::{self, length};
use crate::trial_set::TrialSet;

/// DataMisura, InizioMisura and FineMisura.
type When<'a> = [&'a str; 3];

/// Measures of a day and over midnight: within a month, at the end of a February and of a year, and on the last day.
const MEASURES: [When; 8] = [
    ["12052026", "091500", "091742"],
    ["12052026", "091500", "091500"],
    ["12052026", "235930", "000010"],
    ["28022027", "235930", "000010"],
    ["28022028", "235930", "000010"],
    ["31122026", "235930", "000010"],
    ["31122099", "091500", "235959"],
    ["31122099", "235930", "000010"],
];

/// What a drift file has besides its due date and its measure.
const PLAIN: [(&str, &str); 11] = [
    ("Marca", "A"),
    ("Tipo", "A"),
    ("NumOmologa", "A"),
    ("NumSerie", "A"),
    ("NumVersioneSoftware", "A"),
    ("NumVersioneProtocollo", "1"),
    ("DataVersioneProtocollo", "01012000"),
    ("TipoCollegamento", "RETE"),
    ("CircolareApplicata", "A"),
    ("Operatore", "A"),
    ("Deriva", "0.00"),
];

/// A drift file of this measure whose device was good on the first day alone.
fn drift([day, start, end]: When) -> Vec<u8> {
    let first = String::from_utf8_lossy(FIRST_DAY);
    let measure = [
        ("DataScadenza", first.as_ref()),
        ("DataMisura", day),
        ("InizioMisura", start),
        ("FineMisura", end),
    ];
    made_up::text(DRIFT, &[&measure[..], &PLAIN].concat())
}

/// The first due date that passes, and what the library then accepts the set with.
fn passing(when: When) -> Option<(Vec<u8>, Acceptance)> {
    let (day, set) = TrialSet::new(drift(when)).covered()?;
    Some((day, set.acceptance()?))
}

/// When each measure was, the first due date that passes, and its length.
pub fn measures() -> Vec<[String; 5]> {
    let rows = MEASURES.into_iter().map(|when| {
        let (due, length) = match passing(when) {
            Some((day, acceptance)) => {
                let due = format!("{} or later", shown::value(&day));
                (due, length(acceptance.drift_seconds))
            }
            None => ("none".to_string(), String::new()),
        };
        let [day, start, end] = when.map(|value| shown::value(value.as_bytes()));
        [day, start, end, due, length]
    });
    rows.collect()
}

#[cfg(test)]
mod tests {
    use super::passing;

    fn first_due_date(day: &str, start: &str, end: &str) -> Option<String> {
        let (due, _) = passing([day, start, end])?;
        Some(String::from_utf8(due).expect("a day"))
    }

    /// 02, 5/14: over midnight the day after DataMisura, at the end of each month and of the calendar.
    #[test]
    fn due_dates_cover_the_day_on_which_a_measure_ends() {
        for (day, next) in [
            ("02011900", Some("03011900")),
            ("28021900", Some("01031900")),
            ("28021904", Some("29021904")),
            ("29021904", Some("01031904")),
            ("28022000", Some("29022000")),
            ("29022000", Some("01032000")),
            ("31012027", Some("01022027")),
            ("31032027", Some("01042027")),
            ("30042027", Some("01052027")),
            ("30112027", Some("01122027")),
            ("31121999", Some("01012000")),
            ("31122098", Some("01012099")),
            ("30122099", Some("31122099")),
            ("31122099", None),
        ] {
            let over_midnight = first_due_date(day, "235959", "235958");
            assert_eq!(over_midnight.as_deref(), next, "{day}");
            for [start, end] in [["000000", "000000"], ["000000", "235959"]] {
                let same_day = first_due_date(day, start, end);
                assert_eq!(same_day.as_deref(), Some(day), "{start} to {end}");
            }
        }
    }

    #[test]
    fn measures_have_lengths() {
        for (start, end, seconds) in [
            ("091500", "091500", 0),
            ("091500", "091742", 162),
            ("000000", "235959", 86_399),
            ("235930", "000010", 40),
            ("235959", "000000", 1),
            ("000001", "000000", 86_399),
        ] {
            let (_, acceptance) = passing(["12052026", start, end]).expect("it is accepted");
            assert_eq!(acceptance.drift_seconds, seconds, "{start} to {end}");
        }
    }
}
