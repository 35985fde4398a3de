//! What a run must meet of opacity (02, 2/14), by call.

use crate::judge::{Call, Outcome, Set, OPACITY_MARK};
use crate::met::{
    value_in, Met, Wanted, JUDGED, JUDGED_AGAIN, JUDGE_11, JUDGE_9, READ, READ_9, READ_BACK,
};
use crate::reference::tables::{AC2, IDENTIFICATION, OPACITY};
use crate::reference::Refusal;

/// Temperatures about the limits of their kind.
const RIGHT_TEMPERATURES: [&str; 4] = ["-0", "-05", "007", "#-99"];
const WRONG_TEMPERATURES: [&str; 4] = ["-100", "5.5", "+5", "-#9"];

/// The mark in the answer to a set: of opacity with CodErrore filled, empty, and of none.
const MARKED: &str = "opacity marked";
const UNMARKED: &str = "opacity without a mark";
const NOT_GIVEN: &str = "no opacity";

/// Slice 6 hangs on gas alone: not asked for, and refused.
const SERIAL_ALONE: &str = "opacity RS SENZA ESITO without slice 6";
const SERIAL_WITH_ANSWER: &str = "opacity RS SENZA ESITO with slice 6";

/// Category and fuel for which opacity is missing, or given and not due.
const MISSING: [(char, &str); 2] = [('M', "DIESEL"), ('N', "DIESEL")];
const NOT_DUE: [(char, &str); 8] = [
    ('L', "DIESEL"),
    ('L', "BENZINA"),
    ('M', "BENZINA"),
    ('N', "BENZINA"),
    ('L', OTHER_FUEL),
    ('M', OTHER_FUEL),
    ('N', OTHER_FUEL),
    ('O', NO_FUEL),
];
const OTHER_FUEL: &str = "another fuel";
const NO_FUEL: &str = "no fuel";

const LINKS: [&str; 3] = ["DIR", "RETE", "RS SENZA ESITO"];
const VERSIONS: [&str; 3] = ["200", "210", OTHER_VERSION];
const OTHER_VERSION: &str = "another";
const NO_VERSION: &str = "none";

fn plate(length: usize) -> String {
    format!("opacity, Targa of {length} bytes")
}

fn temperature(value: &str) -> String {
    format!("opacity, TempAmbiente `{value}`")
}

fn link(link: &str, version: &str) -> String {
    format!("opacity, {link}, version {version}")
}

fn given(given: bool, category: char, fuel: &str) -> String {
    let given = if given { "given" } else { "missing" };
    format!("opacity {given} with {category} and {fuel}")
}

/// What a run must meet.
pub fn wanted() -> Vec<Wanted> {
    let mut wanted = Vec::new();
    let mut want = |calls: &[&'static str], what: String| {
        wanted.extend(calls.iter().map(|call| (*call, what.clone())));
    };
    for mark in [MARKED, UNMARKED, NOT_GIVEN] {
        want(&[JUDGED, JUDGED_AGAIN], mark.to_string());
    }
    want(&[JUDGED], SERIAL_ALONE.to_string());
    want(&[JUDGE_11], SERIAL_WITH_ANSWER.to_string());
    for version in VERSIONS {
        for own in LINKS {
            want(&[JUDGED], link(own, version));
        }
        want(&[JUDGED], link("ESTERNO", version));
    }
    want(&[JUDGED], link("INTEGRATO", NO_VERSION));
    for length in 4..=10 {
        want(&[JUDGED, READ, READ_BACK], plate(length));
    }
    want(&[JUDGE_9, READ_9], plate(3));
    for value in RIGHT_TEMPERATURES {
        want(&[JUDGED, READ, READ_BACK], temperature(value));
    }
    for value in WRONG_TEMPERATURES {
        want(&[JUDGE_9, READ_9], temperature(value));
    }
    for (category, fuel) in MISSING {
        want(&[JUDGE_11], given(false, category, fuel));
    }
    for (category, fuel) in NOT_DUE {
        want(&[JUDGE_11], given(true, category, fuel));
    }
    wanted
}

/// A version by what hangs on it.
fn version(value: &str) -> &str {
    match value {
        "" => NO_VERSION,
        "200" | "210" => value,
        _ => OTHER_VERSION,
    }
}

/// Notes the opacity of an accepted set, or read alone.
pub fn note(met: &mut Met, what: &'static str, call: &Call, outcome: &Outcome) {
    match call {
        Call::Judge { set, .. } => {
            met.count(what, mark(set, outcome));
            if !set.slice(OPACITY).is_empty() {
                note_links(met, what, set);
                note_values(met, what, set.slice(OPACITY));
            }
        }
        Call::Read {
            file: OPACITY,
            text,
            ..
        } => note_values(met, what, text),
        _ => {}
    }
}

fn mark(set: &Set, outcome: &Outcome) -> &'static str {
    match (set.slice(OPACITY), outcome.answer[OPACITY_MARK]) {
        ([], _) => NOT_GIVEN,
        (_, 0) => UNMARKED,
        _ => MARKED,
    }
}

fn note_links(met: &mut Met, what: &'static str, set: &Set) {
    let value = |name| value_in(set.slice(OPACITY), name);
    let own = value("TipoCollegamento");
    met.count(what, link(own, version(value("NumVersioneProtocollo"))));
    let counter = version(value("NumVersioneProtocolloContagiri"));
    met.count(what, link(value("TipoCollegamentoContagiri"), counter));
    if own == "RS SENZA ESITO" && set.slice(IDENTIFICATION).is_empty() {
        met.count(what, SERIAL_ALONE);
    }
}

fn note_values(met: &mut Met, what: &'static str, text: &[u8]) {
    met.count(what, plate(value_in(text, "Targa").len()));
    met.count(what, temperature(value_in(text, "TempAmbiente")));
}

/// Notes a value of opacity that is refused by 9.
pub fn note_refused(met: &mut Met, what: &'static str, name: &str, value: &str) {
    match name {
        "Targa" => met.count(what, plate(value.len())),
        "TempAmbiente" => met.count(what, temperature(value)),
        _ => {}
    }
}

/// Notes a set that is refused by 11 for opacity, or for slice 6 besides opacity.
pub fn note_not_as_due(met: &mut Met, set: &Set, refusal: Refusal) {
    let opacity = set.slice(OPACITY);
    match refusal.file {
        OPACITY => {
            let category = value_in(set.slice(AC2), "CategoriaInternazionale");
            let fuel = match value_in(set.slice(AC2), "Alimentazione_1") {
                "" => NO_FUEL,
                fuel @ ("DIESEL" | "BENZINA") => fuel,
                _ => OTHER_FUEL,
            };
            let category = category.chars().next().unwrap_or(' ');
            met.count(JUDGE_11, given(!opacity.is_empty(), category, fuel));
        }
        IDENTIFICATION if has_serial_link(opacity) => met.count(JUDGE_11, SERIAL_WITH_ANSWER),
        _ => {}
    }
}

/// Whether a text that nobody has read yet has opacity's link RS SENZA ESITO.
fn has_serial_link(opacity: &[u8]) -> bool {
    let line = b"\nTipoCollegamento=RS SENZA ESITO\r\n";
    opacity.windows(line.len()).any(|part| part == line)
}
