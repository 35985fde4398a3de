//! The idle speeds of gas that a run must meet (02, 1/14), by call.

use crate::judge::{Call, Outcome, BY_HAND};
use crate::met::{Met, Wanted, JUDGED, JUDGED_AGAIN, JUDGE_9, READ, READ_9, READ_BACK};
use crate::reference::places::triples_of;
use crate::reference::tables::{table, GAS};

/// With the mark in the answer; without it; none that could have it.
const MARKED: &str = "idle speed by hand";
const MEASURED: &str = "idle speed measured";
const EMPTY: &str = "idle speed empty";
const NOT_GIVEN: &str = "idle speed of no gas";

/// Speeds that are refused.
const TWICE: &str = "idle speed `##`";
const ALONE: &str = "idle speed `#` alone";

const WANTED: [(&str, &[&str]); 6] = [
    (JUDGED, &[MARKED, MEASURED, NOT_GIVEN]),
    (JUDGED_AGAIN, &[MARKED, MEASURED, NOT_GIVEN]),
    (READ, &[MARKED, MEASURED, EMPTY]),
    (READ_BACK, &[MARKED, MEASURED, EMPTY]),
    (JUDGE_9, &[TWICE, ALONE]),
    (READ_9, &[TWICE, ALONE]),
];

/// The speeds that a run must meet.
pub fn wanted() -> Vec<Wanted> {
    let speeds = |(call, speeds): (&'static str, &'static [&'static str])| {
        speeds.iter().map(move |speed| (call, speed.to_string()))
    };
    WANTED.into_iter().flat_map(speeds).collect()
}

/// The entry that holds the idle speed.
const ENTRY: &str = "NumGiriMotoreMin";

/// The idle speed in a text of gas, by its places.
pub fn idle_speed<'a>(text: &'a [u8], places: &[u32]) -> &'a [u8] {
    let sections = table(GAS).sections.iter();
    let mut entries = sections.flat_map(|section| &section.entries);
    let at = entries.position(|entry| entry.name == ENTRY);
    let triple = triples_of(GAS, places).nth(at.expect("an entry of gas"));
    triple.expect("one for each entry").value(text)
}

/// Notes the speed of an accepted set, or of gas read alone.
pub fn note(met: &mut Met, what: &'static str, call: &Call, outcome: &Outcome) {
    let text = match call {
        Call::Judge { set, .. } => set.slice(GAS),
        Call::Read {
            file: GAS, text, ..
        } => text,
        _ => return,
    };
    let speed = if text.is_empty() {
        NOT_GIVEN
    } else if idle_speed(text, &outcome.places).is_empty() {
        EMPTY
    } else if outcome.answer[BY_HAND] == 0 {
        MEASURED
    } else {
        MARKED
    };
    met.count(what, speed);
}

/// Notes a value that is refused by 9, if it is a speed.
pub fn note_refused(met: &mut Met, what: &'static str, name: &str, value: &str) {
    match value {
        _ if name != ENTRY => {}
        "#" => met.count(what, ALONE),
        _ if value.starts_with("##") => met.count(what, TWICE),
        _ => {}
    }
}
