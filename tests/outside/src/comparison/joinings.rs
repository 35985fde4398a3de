//! What is asked of joinings (02, 8/14), by further calls too.

use super::lines::written_lines;
use super::{check_set, compare, difference, Case};
use crate::dates::{self, Date};
use crate::devices::line_of;
use crate::generator;
use crate::joinings::{self, axles_together, joined_measure, Input, Inputs, TURNED};
use crate::judge::{places_before, Call, Judge, Outcome, Reference, Set};
use crate::met::value_in;
use crate::mutator::files::{set_value, turned};
use crate::random::Random;
use crate::reference::tables::DRIFT;
use crate::reference::{Refusal, PLACES};
use crate::report::{entry_at, Report};

/// Drift's only due date.
const DUE_DATE: &str = "DataScadenza";

/// A joining beside its inputs read alone, beside itself with other line orders, and what becomes of a joined file.
pub fn compare_joining(
    subject: &dyn Judge,
    report: &mut Report,
    case: &Case,
    outcome: &Outcome,
) -> Result<(), String> {
    let Call::Join { first, second, .. } = &case.call else {
        return Ok(());
    };
    let reads = [
        read_alone(subject, case, first)?,
        read_alone(subject, case, second)?,
    ];
    let inputs = [Input::new(first, &reads[0]), Input::new(second, &reads[1])];
    check_refusal(case, &inputs, outcome)?;
    report.meet_joining(&inputs, outcome);
    for (name, which) in TURNED {
        compare_turned_inputs(subject, report, case, outcome, name, which)?;
    }
    if outcome.accepted() {
        compare_joined(subject, report, case, &inputs, outcome)?;
        compare_in_sets(subject, report, case, &inputs)?;
    }
    Ok(())
}

/// A drift file read alone.
fn read_alone(subject: &dyn Judge, case: &Case, text: &[u8]) -> Result<Outcome, String> {
    let call = Call::Read {
        file: DRIFT,
        text: text.to_vec(),
        places: places_before(PLACES),
    };
    compare(subject, &case.further(call, "file of a joining"))
}

/// 02, 8/14: "The inputs are judged first, the first one before the second, by 11 and 3 to 10".
fn check_refusal(case: &Case, inputs: &Inputs, outcome: &Outcome) -> Result<(), String> {
    if joinings::is_right(inputs, outcome) {
        return Ok(());
    }
    let both = (Reference.name(), outcome);
    let wrong = "a joining is not refused as its inputs are alone";
    Err(difference(wrong, case, both, both))
}

/// 02, 8/14: "Joining gives the same bytes for any order of the inputs' sections and of the entries inside each". Where
/// both files pass 3 to 9, or the first is refused by 10, the answer is the same too, but for the line, which is that of the
/// same entry.
fn compare_turned_inputs(
    subject: &dyn Judge,
    report: &mut Report,
    case: &Case,
    outcome: &Outcome,
    name: &str,
    which: [bool; 2],
) -> Result<(), String> {
    if !matches!(outcome.answer[0], 0 | 10 | 18 | 20 | 21) {
        return Ok(());
    }
    let mut call = case.call.clone();
    if let Call::Join { first, second, .. } = &mut call {
        for (text, is_turned) in [first, second].into_iter().zip(which) {
            if is_turned {
                *text = turned(text);
            }
        }
    }
    let again = case.further(call, "lines of inputs in the opposite order");
    let found = compare(subject, &again)?;
    let mut answer = found.answer.clone();
    answer[2] = outcome.answer[2];
    let same = answer == outcome.answer && found.output == outcome.output;
    if same && entry_refused(case, outcome) == entry_refused(&again, &found) {
        report.meet_turned_inputs(name, outcome.refusal());
        return Ok(());
    }
    let name = subject.name();
    Err(difference(
        "the same lines in another order are joined otherwise",
        &again,
        (name, &found),
        (name, outcome),
    ))
}

/// The heading and the name of the entry at whose line a joining is refused, if it is by 10 or 20; else the line.
fn entry_refused(case: &Case, outcome: &Outcome) -> Result<(String, String), u32> {
    let Refusal { number, file, line } = outcome.refusal();
    let text = match (&case.call, number, file) {
        (Call::Join { first, .. }, 10, 1) => first,
        (Call::Join { second, .. }, 10 | 20, 2) => second,
        _ => return Err(line),
    };
    let entry = entry_at(DRIFT, text, line).ok_or(line)?;
    let ((_, heading, name), _) = entry;
    Ok((heading, name))
}

/// A joined file reads back with the values of both inputs, each on the line that it has in the table's order, and with the
/// axles of both: "the result passes 3 to 10 as a drift file".
fn compare_joined(
    subject: &dyn Judge,
    report: &mut Report,
    case: &Case,
    inputs: &Inputs,
    outcome: &Outcome,
) -> Result<(), String> {
    let text = joined(outcome);
    let read = read_alone(subject, case, text)?;
    let file = Input::new(text, &read);
    let axles = axles_together(inputs);
    if joinings::is_joined(inputs, &file) && file.lines().eq(written_lines(DRIFT, axles)) {
        report.meet_joined(axles);
        return Ok(());
    }
    let name = subject.name();
    Err(difference(
        "a joined file has not the values and axles of its inputs",
        case,
        (name, outcome),
        (name, &read),
    ))
}

/// The bytes of a joined file.
fn joined(outcome: &Outcome) -> &[u8] {
    &outcome.output[..outcome.answer[3] as usize]
}

/// The joined file in place of the drift file of a lawful set: with its due date, with the day on which the joined measure
/// begins, and with the next day.
fn compare_in_sets(
    subject: &dyn Judge,
    report: &mut Report,
    case: &Case,
    inputs: &Inputs,
) -> Result<(), String> {
    let set = generator::record(&mut Random::new(case.seed)).set;
    let day = joined_measure(inputs).day;
    let mut calls = vec![case.call.clone()];
    calls.extend([day, day.next().min(dates::LAST)].map(|due| due_on(&case.call, due)));
    for call in calls {
        let again = case.further(call, "due date of both inputs");
        let outcome = compare(subject, &again)?;
        if !outcome.accepted() {
            let both = (subject.name(), &outcome);
            let wrong = "with another due date inputs are not joined";
            return Err(difference(wrong, &again, both, both));
        }
        compare_in_set(
            subject,
            report,
            &again,
            set.clone(),
            inputs,
            joined(&outcome),
        )?;
    }
    Ok(())
}

/// The joining with this due date in both inputs.
fn due_on(call: &Call, due: Date) -> Call {
    let mut call = call.clone();
    if let Call::Join { first, second, .. } = &mut call {
        for text in [first, second] {
            set_value(text, DUE_DATE, &due.digits());
        }
    }
    call
}

/// 02, 8/14: "The due date is checked when the joined file comes in a set: a joined end below the joined start then counts
/// as the next day."
fn compare_in_set(
    subject: &dyn Judge,
    report: &mut Report,
    case: &Case,
    mut set: Set,
    inputs: &Inputs,
    joined: &[u8],
) -> Result<(), String> {
    *set.slice_mut(DRIFT) = joined.to_vec();
    let call = Call::Judge {
        set,
        places: places_before(PLACES),
    };
    let case = case.further(call, "joined file in a set");
    let outcome = compare(subject, &case)?;
    check_set(&case, &outcome)?;
    let measure = joined_measure(inputs);
    let due = Date::from_digits(value_in(joined, DUE_DATE).as_bytes());
    let right = if due < measure.end() {
        outcome.refusal() == Refusal::new(19, DRIFT, line_of(joined, DUE_DATE))
    } else {
        outcome.accepted() && outcome.axles(DRIFT) as usize == axles_together(inputs)
    };
    if right {
        report.meet_joined_in_set(measure, due, &outcome);
        return Ok(());
    }
    let both = (subject.name(), &outcome);
    let wrong = "a joined file is not judged in a set by its measure and due date";
    Err(difference(wrong, &case, both, both))
}
