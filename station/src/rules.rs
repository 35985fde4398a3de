//! Refusals 12 and 13: what would pass in place of the value, found by trial, and what that hangs on.

use std::collections::BTreeSet;

use mctc::Refusal;

use crate::booking_tables;
use crate::candidates;
use crate::case::{Case, Refused};
use crate::edit::{Action, Edit};
use crate::file_types::AC2;
use crate::finding::Finding;
use crate::fuels;
use crate::near::nearest;
use crate::not_as_due::{correction, then_lacking, Correction};
use crate::placed::{self, EntryRead};
use crate::reasons::{doubtful, Looked};
use crate::shown;
use crate::table::{self, Given};
use crate::unknown_day::{self, Zeros};
use crate::words;

/// Refusal 12.
pub fn booking(refused: &Refused) -> Option<Finding> {
    let (name, value) = refused.entry()?;
    let names = hangs_on(refused.refusal.file, name);
    let found = format!("found {}", shown::value(value));
    let doubtful = doubtful(&refused.case);
    if let Some(doubt) = doubtful.iter().find(|looked| looked.has_name(names)) {
        return Some(doubted(refused, doubt, &found));
    }
    let deciding = deciding(refused, names);
    let contradiction = other_fuel(refused, name, value);
    let zeros = match contradiction {
        Some(_) => None,
        None => unknown_day::zeros(&texts(&deciding), value),
    };
    let behind = behind(&deciding) + &how_zeros_count(zeros.as_ref());
    let passing = passing(refused);
    if passing.is_empty() {
        let first = contradiction.as_deref();
        if let Some(finding) = no_fuel_fits(&deciding, first, zeros.as_ref(), &found) {
            return Some(finding);
        }
        let rule = words::booking_rule(refused.refusal.file, name)?;
        let finding = Finding::cause(format!("{found}, and no value fits here{behind}"));
        return Some(finding.advice(format!("correct what it hangs on: {rule}")));
    }
    let near = match passing.as_slice() {
        [one] => Some(one.as_str()),
        several => nearest(value, several.iter().map(String::as_str)),
    };
    let mend = near.and_then(|near| refused.with_value(near.as_bytes()));
    let advice = mend.as_ref().map(Edit::words);
    let advice = advice.unwrap_or("write the one of these that is right".to_string());
    let expected: Vec<String> = passing.iter().map(|value| format!("`{value}`")).collect();
    let expected = shown::listed(&expected, "or");
    let finding = Finding::cause(format!("{found}{behind}")).expected(Some(expected));
    if let Some(first) = contradiction {
        let advice = advice.replacen("write line", "write ACC line", 1);
        return Some(finding.advice(format!("{first}; only if AC2 is right, {advice}")));
    }
    let advice = format!("{advice}, or correct what it hangs on if that is wrong");
    Some(Finding {
        mend,
        ..finding.advice(advice)
    })
}

/// `AC2 line 8: Alimentazione_1=..`.
fn in_booking(given: &Given) -> String {
    format!("AC2 {}", given.words())
}

/// Those of the new booking's entries that are filled and decide. Of those that the fuel hangs on, not all do.
fn deciding<'a>(refused: &Refused<'a>, names: &[&'static str]) -> Vec<Given<'a>> {
    let given = names.iter().filter_map(|name| {
        let (line, value) = filled(&refused.case, name)?;
        Some(Given { name, line, value })
    });
    let given: Vec<Given> = given.collect();
    let texts = texts(&given);
    let decides = |given: &Given| {
        given.name == fuels::ENTRY || booking_tables::changes_fuel(&texts, given.name)
    };
    match names.contains(&fuels::ENTRY) {
        true => given.into_iter().filter(decides).collect(),
        false => given,
    }
}

/// Their names and values, for trials.
fn texts<'a>(given: &[Given<'a>]) -> Vec<(&'static str, &'a str)> {
    let texts = given.iter();
    texts
        .filter_map(|given| Some((given.name, std::str::from_utf8(given.value).ok()?)))
        .collect()
}

/// The values that decide, behind what is found.
fn behind(deciding: &[Given]) -> String {
    let hangs: Vec<String> = deciding.iter().map(in_booking).collect();
    match hangs.as_slice() {
        [] => String::new(),
        hangs => format!("; this hangs on {}", hangs.join(", ")),
    }
}

/// How zeros of the day count, behind these.
fn how_zeros_count(zeros: Option<&Zeros>) -> String {
    zeros.map_or(String::new(), |zeros| format!("; {}", zeros.words))
}

/// Where two values of the new booking leave no fuel for the old one. Before them the fuel itself is looked at, where the
/// bookings contradict each other in it.
fn no_fuel_fits(
    deciding: &[Given],
    first: Option<&str>,
    zeros: Option<&Zeros>,
    found: &str,
) -> Option<Finding> {
    let others = deciding.iter().filter(|given| given.name != fuels::ENTRY);
    let others: Vec<&Given> = others.collect();
    let [one, other] = others.as_slice() else {
        return None;
    };
    let cause = format!(
        "{found}, and no value fits here: {} does not go with {} ({}, {}){}",
        shown::value(one.value),
        shown::value(other.value),
        in_booking(one),
        in_booking(other),
        how_zeros_count(zeros)
    );
    let in_vain = zeros.and_then(|zeros| zeros.in_vain);
    let in_vain = in_vain.map_or(String::new(), |what| format!("; {what}"));
    let first = first.map_or(String::new(), |first| {
        format!("{first}; only if AC2's fuel is right, ")
    });
    let (one, other) = (one.line, other.line);
    let advice = format!("{first}correct AC2 line {one} or {other}{in_vain}");
    Some(Finding::cause(cause).advice(advice))
}

/// What the rule hangs on is itself written otherwise than a word that counts. That is mended first: to write the same
/// here would hide a test that the vehicle needs.
fn doubted(refused: &Refused, doubt: &Looked, found: &str) -> Finding {
    let finding = Finding::cause(format!("{found}, and {}", doubt.failure()));
    match correction(refused, doubt) {
        Some(Correction { edit, advice }) => Finding {
            mend: Some(edit),
            ..finding.advice(advice)
        },
        None => finding.advice(format!("correct {} first", doubt.place())),
    }
}

/// Where the bookings contradict each other in fuel: which is right is not known, and to write the new booking's fuel
/// here may leave out the gas test. So the new booking is looked at first, and no mending is given.
fn other_fuel(refused: &Refused, name: &[u8], value: &[u8]) -> Option<String> {
    if name != fuels::ENTRY.as_bytes() || value.is_empty() {
        return None;
    }
    let (line, new) = filled(&refused.case, fuels::ENTRY)?;
    if fuels::agree(new, value) {
        return None;
    }
    let start = "find out which fuel is right";
    let Some(fuel) = fuels::spoken_of(value) else {
        return Some(format!("{start}: correct AC2 line {line} if it is wrong"));
    };
    let edit = Edit {
        file: AC2,
        line,
        action: Action::Replace(format!("{}={fuel}", fuels::ENTRY).into_bytes()),
    };
    let then = then_lacking(&refused.case, &edit);
    Some(format!(
        "{start}: if AC2 line {line} must be `{fuel}`, correct it{then}"
    ))
}

/// What the library lets pass at the refusal's line: words, the new booking's own values, years and digits.
fn passing(refused: &Refused) -> Vec<String> {
    let lines = shown::lines_from(refused.case.text(AC2), 1)
        .into_iter()
        .flatten();
    let values = lines.filter_map(shown::entry).map(|(_, value)| value);
    let values = values.filter_map(|value| String::from_utf8(value.to_vec()).ok());
    let all: BTreeSet<String> = candidates::words()
        .chain(values)
        .chain(candidates::years())
        .chain(candidates::numbers(10))
        .filter(|value| !value.is_empty())
        .collect();
    let passes = |value: &String| {
        let edit = refused.with_value(value.as_bytes());
        edit.is_some_and(|edit| refused.helps(&edit))
    };
    all.into_iter().filter(passes).collect()
}

/// The entries of the new booking that the rule at an entry of a booking looks at.
fn hangs_on(file: u32, name: &[u8]) -> &'static [&'static str] {
    match (file, name) {
        (1, _) | (2, b"DescrizioneVeicolo") => &["CategoriaInternazionale"],
        (2, b"TipoVeicolo") => &["TipoVeicolo"],
        (2, b"AnnoPrimaImm") => &["DataPrimaImm"],
        (2, b"Alimentazione_1") => &[
            "Alimentazione_1",
            "DirettivaEmissioniGasBenzinaAuto",
            "DataPrimaImm",
            "Turbo",
            "CorrettorePressione",
        ],
        (2, b"FrenoStazionamento") => &["AzionamentoFrenoStazionamento"],
        (2, b"NumAssiStazionamento") => &["PosAssiStaz"],
        _ => &[],
    }
}

/// Line and value of a filled entry of the new booking.
fn filled<'a>(case: &Case<'a>, name: &str) -> Option<(u32, &'a [u8])> {
    let entry = table::entry_named(AC2, name)?;
    let found = placed::value(AC2, entry, case.text(AC2));
    found.filter(|(_, value)| !value.is_empty())
}

/// Refusal 13.
pub fn difference(refused: &Refused) -> Option<Finding> {
    let (_, value) = refused.entry()?;
    let axle = axle(refused)?;
    let heading = &axle.first()?.heading;
    let others: Vec<String> = axle
        .iter()
        .filter(|entry| entry.line != refused.refusal.line)
        .map(|entry| shown::entry_at(entry.line, entry.name.as_bytes(), entry.value.as_bytes()))
        .collect();
    let mut edits =
        candidates::numbers(100).filter_map(|number| refused.with_value(number.as_bytes()));
    let mend = edits.find(|edit| refused.helps(edit))?;
    let expected = match &mend.action {
        Action::Replace(line) => shown::entry(line).map(|(_, value)| shown::value(value)),
        _ => None,
    }?;
    let cause = format!(
        "{}: found {}; this hangs on {}",
        shown::value(heading.as_bytes()),
        shown::value(value),
        others.join(", ")
    );
    let advice = format!("{}, if both grips are right", mend.words());
    let finding = Finding::cause(cause).expected(Some(expected));
    Some(Finding {
        mend: Some(mend),
        ..finding.advice(advice)
    })
}

/// The entries of the axle that the refusal is about, in the order of their lines.
fn axle(refused: &Refused) -> Option<Vec<EntryRead>> {
    let Refusal { file, line, .. } = refused.refusal;
    let text = refused.text();
    let mut entries = placed::entries(file, text, &placed::read(file, text)?);
    let heading = entries
        .iter()
        .find(|entry| entry.line == line)?
        .heading
        .clone();
    entries.retain(|entry| entry.heading == heading);
    entries.sort_by_key(|entry| entry.line);
    Some(entries)
}
