//! What is asked of the lines beside values (02, 7/14), by further calls too.

use super::{compare, difference, first_not_as_due, Case};
use crate::judge::{column_before, places_before, Call, Judge, Outcome, Reference, Set};
use crate::lines_beside;
use crate::met::{COLUMN_TURNED, JUDGED_TURNED, READ_TURNED};
use crate::mutator::files::turned;
use crate::mutator::writings::OtherLines;
use crate::reference::tables::{table, AC2, FILES};
use crate::reference::{Refusal, PLACES};
use crate::report::{can_be_refused, entry_at, values_of, EntryOf, Report};

/// What is said of places apart from the reference: where values stand is what their texts say, and all else is 0.
pub fn check_places(case: &Case, outcome: &Outcome) -> Result<(), String> {
    if lines_beside::is_right(&case.call, outcome) {
        return Ok(());
    }
    let both = (Reference.name(), outcome);
    let wrong = "the places are not those that the texts say";
    Err(difference(wrong, case, both, both))
}

/// Two accepted calls whose files have the same lines in two orders: the answer, the column and the values are the same.
/// 02, 7/14: "The record that an accepted set stands for has values only, so line numbers may differ".
pub fn compare_orders(
    subject: &dyn Judge,
    report: &mut Report,
    what: &'static str,
    (one, before): (&Case, &Outcome),
    (other, after): (&Case, &Outcome),
) -> Result<(), String> {
    let same_answer = before.answer == after.answer && before.column == after.column;
    let both = [(&one.call, before), (&other.call, after)];
    if same_answer && lines_beside::have_same_values(both) {
        report.meet_orders(what, both);
        return Ok(());
    }
    let name = subject.name();
    Err(difference(
        "the same lines in another order have another answer, column or value",
        other,
        (name, after),
        (name, before),
    ))
}

/// The lines of the entries of a written file, behind the headings of their sections.
pub fn written_lines(file: u32, axles: usize) -> impl Iterator<Item = u32> {
    let sections = table(file).sections(axles).iter();
    let lines = sections.scan(0, |last, section| {
        let heading = *last + 1;
        *last = heading + section.entries.len() as u32;
        Some(heading + 1..=*last)
    });
    lines.flatten()
}

/// An accepted call made again with the lines of its files in the opposite order.
pub fn compare_turned(
    subject: &dyn Judge,
    report: &mut Report,
    case: &Case,
    outcome: &Outcome,
) -> Result<(), String> {
    let Some((call, what)) = turned_call(&case.call) else {
        return Ok(());
    };
    let again = case.further(call, "lines in the opposite order");
    let found = compare(subject, &again)?;
    compare_orders(subject, report, what, (case, outcome), (&again, &found))
}

/// The call with the lines of its files in the opposite order, and as what it is met.
fn turned_call(call: &Call) -> Option<(Call, &'static str)> {
    let turn = |text: &mut Vec<u8>| *text = turned(text);
    let mut call = call.clone();
    let what = match &mut call {
        Call::Judge { set, .. } => {
            FILES.iter().for_each(|file| turn(set.slice_mut(*file)));
            JUDGED_TURNED
        }
        Call::Read { text, .. } => {
            turn(text);
            READ_TURNED
        }
        Call::Due { ac2, text, .. } => {
            turn(ac2);
            turn(text);
            COLUMN_TURNED
        }
        _ => return None,
    };
    Some((call, what))
}

/// A set that is refused at the line of an entry by 10, 12, 13 or 19, so that its file passed 3 to 9: read alone, it has
/// this line beside this entry and no other.
pub fn compare_refused_line(
    subject: &dyn Judge,
    report: &mut Report,
    case: &Case,
    outcome: &Outcome,
) -> Result<(), String> {
    let Refusal { number, file, line } = outcome.refusal();
    let (Call::Judge { set, .. }, 10 | 12 | 13 | 19) = (&case.call, number) else {
        return Ok(());
    };
    let text = set.slice(file);
    let call = Call::Read {
        file,
        text: text.to_vec(),
        places: places_before(PLACES),
    };
    let alone = case.further(call, "file of a refused set");
    let read = compare(subject, &alone)?;
    let on_line = values_of(file, &read).filter(|(_, triple)| triple.line == line);
    let beside: Vec<EntryOf> = on_line.map(|(entry, _)| entry).collect();
    let there = entry_at(file, text, line).map(|(entry, _)| entry);
    if !beside.iter().eq(&there) || !there.is_some_and(|entry| can_be_refused(number, &entry)) {
        let name = subject.name();
        return Err(difference(
            "the line of a refusal is not beside its entry where its file is read alone",
            &alone,
            (name, &read),
            (name, outcome),
        ));
    }
    if number == 10 {
        compare_not_as_due(subject, case, set, outcome)?;
    }
    report.meet_refused_line(number, file);
    Ok(())
}

/// A set that is refused by 10: the line is that beside the first entry that is not as its column says.
fn compare_not_as_due(
    subject: &dyn Judge,
    case: &Case,
    set: &Set,
    outcome: &Outcome,
) -> Result<(), String> {
    let Refusal { file, line, .. } = outcome.refusal();
    let call = Call::Due {
        file,
        ac2: set.slice(AC2).to_vec(),
        text: set.slice(file).to_vec(),
        places: places_before(PLACES),
        column: column_before(table(file).most_entries()),
    };
    let due = case.further(call, "column of a refused set");
    let column = compare(subject, &due)?;
    if first_not_as_due(file, &column).is_some_and(|entry| entry.line == line) {
        return Ok(());
    }
    let name = subject.name();
    Err(difference(
        "the line of 10 is not beside the first entry that is not as its column says",
        &due,
        (name, &column),
        (name, outcome),
    ))
}

/// A writing made again with other third numbers: the answer and the bytes are the same.
pub fn compare_other_lines(
    subject: &dyn Judge,
    report: &mut Report,
    case: &Case,
    outcome: &Outcome,
    lines: OtherLines,
) -> Result<(), String> {
    let mut call = case.call.clone();
    let Call::Write { text, places, .. } = &mut call else {
        return Ok(());
    };
    *places = lines.put(places, text);
    let again = case.further(call, lines.name());
    let found = compare(subject, &again)?;
    if (&found.answer, &found.output) == (&outcome.answer, &outcome.output) {
        report.meet_other_lines(&again.call, lines, found.answer[0]);
        return Ok(());
    }
    let name = subject.name();
    Err(difference(
        "with other third numbers a writing is another",
        &again,
        (name, &found),
        (name, outcome),
    ))
}
