//! Generated calls, made by a judge and by the reference and compared: the answer, every
//! place, every number of a column, every output byte.
//!
//! - `lines`: what is asked of the lines beside values. - `joinings`: what is asked of two drift files joined. - `commits`:
//!   what is asked of quotes and commits.

mod commits;
mod joinings;
mod lines;

use crate::devices;
use crate::generator::{self, Record};
use crate::judge::{
    answer_before, column_before, make, make_with_answer, places_before, Call, Judge, Outcome,
    Reference, ANSWER, BY_HAND, NAMES_COMPARED, OUTPUT_BEFORE, SECONDS, SHORT_ANSWER,
};
use crate::look_ups;
use crate::met::{JUDGED_AGAIN, READ_BACK};
use crate::mutator;
use crate::mutator::writings::OtherLines;
use crate::random::Random;
use crate::reference::places::{is_read, put_triples, triples_of, Triple};
use crate::reference::tables::{
    entry_name, entry_word, heading_name, DRIFT, FILES, GAS, OPACITY, RESULT_FILES, SUSPENSION,
};
use crate::reference::{Refusal, PLACES};
use crate::replay::to_text;
use crate::report::Report;
use crate::speeds::idle_speed;

use commits::compare_split;
use joinings::compare_joining;
use lines::{
    check_places, compare_orders, compare_other_lines, compare_refused_line, compare_turned,
    written_lines,
};

/// How many calls of each sort are generated.
#[derive(Clone, Copy)]
pub struct Amounts {
    pub sets: u64,
    pub reads: u64,
    pub writes: u64,
    pub columns: u64,
    pub joinings: u64,
}

/// Calls of each sort in one run.
pub const ONE_RUN: Amounts = Amounts {
    sets: 120_000,
    reads: 30_000,
    writes: 30_000,
    columns: 40_000,
    joinings: 20_000,
};

impl Amounts {
    /// So many times as many.
    pub fn times(self, runs: u64) -> Amounts {
        Amounts {
            sets: runs * self.sets,
            reads: runs * self.reads,
            writes: runs * self.writes,
            columns: runs * self.columns,
            joinings: runs * self.joinings,
        }
    }
}

/// Calls of each sort that are also made with answer arrays of other lengths.
const OTHER_ANSWERS: u64 = 500;

/// One accepted set in so many is written anew and judged again.
const REWRITTEN: u64 = 5;

/// One accepted set, file read alone or column in so many is made again with its lines in the opposite order.
const TURNED: u64 = 5;

const FIRST_SET: u64 = 1 << 40;
const FIRST_READ: u64 = 2 << 40;
const FIRST_WRITE: u64 = 3 << 40;
const FIRST_COLUMN: u64 = 4 << 40;
const FIRST_JOINING: u64 = 5 << 40;

/// A generated call.
pub struct Case {
    pub seed: u64,
    pub call: Call,
    /// What was changed in it, by name.
    pub changes: Vec<&'static str>,
    /// What the generator itself says that it must give, where it knows.
    pub known: Option<Outcome>,
}

impl Case {
    /// A call that follows from this case.
    fn further(&self, call: Call, change: &'static str) -> Case {
        Case {
            seed: self.seed,
            call,
            changes: vec![change],
            known: None,
        }
    }
}

/// A refusal after which all that was lent is as it was.
fn refused_untouched(refusal: Refusal, before: Outcome) -> Outcome {
    let Refusal { number, file, line } = refusal;
    let mut answer = vec![0; ANSWER];
    answer[..3].copy_from_slice(&[number, file, line]);
    Outcome {
        returned: number,
        answer,
        ..before
    }
}

/// An acceptance with the values from [3] on; what stands at a number of its own is 0.
fn accepted(values: &[u32], places: Vec<u32>, output: Vec<u8>) -> Outcome {
    let mut answer = vec![0; ANSWER];
    answer[3..3 + values.len()].copy_from_slice(values);
    Outcome {
        answer,
        places,
        output,
        ..Outcome::default()
    }
}

/// Places lent of which the first ones are set to these.
fn places_after(before: &[u32], first: &[u32]) -> Vec<u32> {
    let mut places = before.to_vec();
    places[..PLACES].copy_from_slice(first);
    places
}

fn known_of_record(record: &Record, before: &[u32]) -> Outcome {
    let mut values = vec![record.axles(DRIFT), record.axles(SUSPENSION)];
    let marks = RESULT_FILES.map(|file| record.mark(file));
    values.extend(marks.map(u32::from));
    let places = places_after(before, &record.places);
    let mut known = accepted(&values, places, Vec::new());
    known.answer[BY_HAND] = u32::from(record.by_hand());
    known.answer[NAMES_COMPARED] = record.names_compared();
    let seconds = RESULT_FILES.map(|file| record.seconds(file));
    known.answer[SECONDS..SECONDS + seconds.len()].copy_from_slice(&seconds);
    known
}

/// A whole set, lawful or changed.
pub fn set_case(seed: u64) -> Case {
    let mut random = Random::new(seed);
    let record = generator::record(&mut random);
    let mut set = record.set.clone();
    let mut changes = Vec::new();
    if !random.chance(25) {
        changes = mutator::sets::change_set(&mut random, &record, &mut set);
    }
    let places = places_before(mutator::places_length(&mut random));
    let known =
        (changes.is_empty() && places.len() >= PLACES).then(|| known_of_record(&record, &places));
    Case {
        seed,
        call: Call::Judge { set, places },
        changes,
        known,
    }
}

/// A file to be read alone.
pub fn read_case(seed: u64) -> Case {
    let mut random = Random::new(seed);
    let alone = mutator::files::alone(&mut random);
    let places = places_before(mutator::places_length(&mut random));
    let known = match &alone.lawful {
        Some((values, triples)) if places.len() >= PLACES => {
            let mut first = vec![0; PLACES];
            put_triples(&mut first, values.file, triples.iter().copied());
            let after = places_after(&places, &first);
            let mut known = accepted(&[values.axles as u32], after, Vec::new());
            known.answer[BY_HAND] = u32::from(values.by_hand());
            Some(known)
        }
        _ => None,
    };
    Case {
        seed,
        call: Call::Read {
            file: alone.file,
            text: alone.text,
            places,
        },
        changes: alone.changes,
        known,
    }
}

/// A file written to an output, whose later bytes stay.
fn known_of_written(written: &[u8], places: Vec<u32>, before: &[u8]) -> Outcome {
    let mut after = before.to_vec();
    after[..written.len()].copy_from_slice(written);
    accepted(&[written.len() as u32], places, after)
}

/// A writing.
pub fn write_case(seed: u64) -> Case {
    let mut random = Random::new(seed);
    let writing = mutator::writings::writing(&mut random);
    let output = vec![OUTPUT_BEFORE; writing.output_length];
    let known = writing.lawful.as_ref().and_then(|values| {
        let written = values.text_in_table_order();
        if writing.places.len() < PLACES || output.len() < written.len() {
            return None;
        }
        Some(known_of_written(&written, writing.places.clone(), &output))
    });
    Case {
        seed,
        call: Call::Write {
            text: writing.text,
            places: writing.places,
            file: writing.file,
            axles: writing.axles,
            output,
        },
        changes: writing.changes,
        known,
    }
}

/// The due column of one file.
pub fn column_case(seed: u64) -> Case {
    let mut random = Random::new(seed);
    let column = mutator::columns::column(&mut random);
    let places = places_before(mutator::places_length(&mut random));
    let call = Call::Due {
        file: column.file,
        ac2: column.ac2,
        text: column.text,
        places,
        column: column_before(column.length),
    };
    Case {
        seed,
        call,
        changes: column.changes,
        known: None,
    }
}

/// Two drift files to be joined.
pub fn join_case(seed: u64) -> Case {
    let mut random = Random::new(seed);
    let joining = mutator::joinings::joining(&mut random);
    let output = vec![OUTPUT_BEFORE; joining.output_length];
    let [first, second] = joining.inputs;
    let call = Call::Join {
        first,
        second,
        output,
    };
    let before = call.before();
    let known = joining.known.map(|known| match known {
        Ok(joined) => known_of_written(&joined, Vec::new(), &before.output),
        Err(refusal) => refused_untouched(refusal, before),
    });
    Case {
        seed,
        call,
        changes: joining.changes,
        known,
    }
}

/// Numbers that are no entry's, no section's and no word's in any file.
const PAST_ALL: [u32; 5] = [64, 255, 256, 65_536, u32::MAX];

/// Every name and heading, numbers past the last, and files that have none; the output too short, just long enough
/// and longer.
pub fn name_cases() -> Vec<Case> {
    files_and_numbers()
        .flat_map(|(file, number)| {
            let entry = entry_name(file, number).map_or(0, |(name, _)| name.len());
            let heading = heading_name(file, number).map_or(0, str::len);
            let entries = output_sizes(entry).map(move |size| Call::EntryName {
                file,
                entry: number,
                output: vec![OUTPUT_BEFORE; size],
            });
            let headings = output_sizes(heading).map(move |size| Call::HeadingName {
                file,
                section: number,
                output: vec![OUTPUT_BEFORE; size],
            });
            entries.chain(headings)
        })
        .map(case_of)
        .collect()
}

/// The kind of every entry, and numbers out of range as for names.
pub fn kind_cases() -> Vec<Case> {
    files_and_numbers()
        .map(|(file, entry)| case_of(Call::Kind { file, entry }))
        .collect()
}

/// Every word of every entry, numbers out of range and sizes of the output as for names.
pub fn word_cases() -> Vec<Case> {
    let words = |(file, entry)| (0..20).chain(PAST_ALL).map(move |word| (file, entry, word));
    files_and_numbers()
        .flat_map(words)
        .flat_map(|(file, entry, word)| {
            let length = entry_word(file, entry, word).map_or(0, |(word, _)| word.len());
            output_sizes(length).map(move |size| Call::Word {
                file,
                entry,
                word,
                output: vec![OUTPUT_BEFORE; size],
            })
        })
        .map(case_of)
        .collect()
}

/// Files and numbers of entries or sections, in and out of range.
fn files_and_numbers() -> impl Iterator<Item = (u32, u32)> {
    let files = (0..=OPACITY + 1).chain(PAST_ALL);
    files.flat_map(|file| (0..60).chain(PAST_ALL).map(move |number| (file, number)))
}

fn case_of(call: Call) -> Case {
    Case {
        seed: 0,
        call,
        changes: Vec::new(),
        known: None,
    }
}

/// Sizes of the output about the length of a name.
fn output_sizes(length: usize) -> impl Iterator<Item = usize> {
    [0, length.saturating_sub(1), length, length + 1, 64].into_iter()
}

/// Answer, and what differs from the other outcome.
fn describe(name: &str, outcome: &Outcome, other: &Outcome) -> String {
    let mut text = format!(
        "{name}: returned {}, answer {:?}{}\n",
        outcome.returned,
        outcome.answer,
        if outcome.touched_outside {
            ", WROTE OUTSIDE A LENT ARRAY"
        } else {
            ""
        }
    );
    for (at, (a, b)) in outcome.places.iter().zip(&other.places).enumerate() {
        if a != b {
            text += &format!("  place {at}: {a}\n");
        }
    }
    for (at, (a, b)) in outcome.column.iter().zip(&other.column).enumerate() {
        if a != b {
            text += &format!("  column {at}: {a}\n");
        }
    }
    for (at, (a, b)) in outcome.output.iter().zip(&other.output).enumerate() {
        if a != b {
            text += &format!("  output byte {at}: {a:02x}\n");
        }
    }
    text
}

fn difference(what: &str, case: &Case, a: (&str, &Outcome), b: (&str, &Outcome)) -> String {
    format!(
        "DIFFERENCE: {what}\nseed {}, changes {:?}\n{}{}call (for `replay`):\n{}",
        case.seed,
        case.changes,
        describe(a.0, a.1, b.1),
        describe(b.0, b.1, a.1),
        to_text(&case.call)
    )
}

/// Makes the call by both and compares; the reference's outcome.
pub fn compare(subject: &dyn Judge, case: &Case) -> Result<Outcome, String> {
    let right = make(&Reference, &case.call);
    let found = make(subject, &case.call);
    if found != right {
        let reference = (Reference.name(), &right);
        let subject = (subject.name(), &found);
        return Err(difference("judge and reference", case, reference, subject));
    }
    if let Some(known) = &case.known {
        if *known != right {
            let generator = ("generator", known);
            let reference = (Reference.name(), &right);
            return Err(difference(
                "generator and reference",
                case,
                generator,
                reference,
            ));
        }
    }
    check_places(case, &right)?;
    Ok(right)
}

/// The call with answer arrays that are too short, or longer than needed.
fn compare_other_answers(subject: &dyn Judge, case: &Case) -> Result<(), String> {
    for length in [0, 1, 15] {
        let untouched = Outcome {
            returned: SHORT_ANSWER,
            answer: answer_before(length),
            ..case.call.before()
        };
        let found = make_with_answer(subject, &case.call, length);
        if found != untouched {
            return Err(difference(
                &format!("answer array of {length}"),
                case,
                ("untouched", &untouched),
                (subject.name(), &found),
            ));
        }
    }
    for length in [17, 40] {
        let right = make(&Reference, &case.call);
        let mut found = make_with_answer(subject, &case.call, length);
        // Numbers past 16 may be set to 0 or stay.
        let past = found.answer.split_off(ANSWER);
        let stay = past == answer_before(length)[ANSWER..];
        let zero = past.iter().all(|number| *number == 0);
        if found != right || !(stay || zero) {
            return Err(difference(
                &format!("answer array of {length}, its numbers past 16 are {past:?}"),
                case,
                (Reference.name(), &right),
                (subject.name(), &found),
            ));
        }
    }
    Ok(())
}

/// 01, Writing: "By this call a written file reads back", with the same values, each on the line that it has in the
/// table's order, and so with the mark of the idle speed that was written (02, 1/14).
fn compare_read_back(
    subject: &dyn Judge,
    report: &mut Report,
    case: &Case,
    outcome: &Outcome,
) -> Result<(), String> {
    let Call::Write {
        text,
        places,
        file,
        axles,
        ..
    } = &case.call
    else {
        return Ok(());
    };
    let written = &outcome.output[..outcome.answer[3] as usize];
    let call = Call::Read {
        file: *file,
        text: written.to_vec(),
        places: places_before(PLACES),
    };
    let again = case.further(call, "read after write");
    let read = compare(subject, &again)?;
    let wrong = |what: &str| {
        let name = subject.name();
        Err(difference(what, &again, (name, &read), (name, outcome)))
    };
    if !read.accepted() || read.answer[3] != *axles {
        return wrong("a written file does not read back");
    }
    let lent = triples_of(*file, places).zip(triples_of(*file, &read.places));
    for (line, (before, after)) in written_lines(*file, *axles as usize).zip(lent) {
        if before.value(text) != after.value(written) {
            return wrong("a value read back differs");
        }
        if after.line != line {
            return wrong("a line read back is not that of the table's order");
        }
    }
    let by_hand = *file == GAS && idle_speed(text, places).starts_with(b"#");
    if read.answer[BY_HAND] != u32::from(by_hand) {
        return wrong("the mark of an idle speed read back differs");
    }
    report.meet(READ_BACK, &again.call, &read);
    report.read_back += 1;
    Ok(())
}

/// The files of an accepted set written from its places: the set of the written files is
/// accepted with the same answer, all marks and the names compared included, and the same values.
fn compare_rewritten(
    subject: &dyn Judge,
    report: &mut Report,
    case: &Case,
    outcome: &Outcome,
) -> Result<(), String> {
    let Call::Judge { set, .. } = &case.call else {
        return Ok(());
    };
    let mut rewritten = set.clone();
    for file in FILES
        .into_iter()
        .filter(|file| is_read(*file, &outcome.places))
    {
        let call = Call::Write {
            text: set.slice(file).to_vec(),
            places: outcome.places.clone(),
            file,
            axles: outcome.axles(file),
            output: vec![OUTPUT_BEFORE; set.slice(file).len()],
        };
        let written = compare(subject, &case.further(call, "file of an accepted set"))?;
        let slice = rewritten.slice_mut(file);
        *slice = written.output[..written.answer[3] as usize].to_vec();
    }
    let call = Call::Judge {
        set: rewritten,
        places: places_before(PLACES),
    };
    let again = case.further(call, "all files written");
    let judged = compare(subject, &again)?;
    compare_orders(
        subject,
        report,
        JUDGED_AGAIN,
        (case, outcome),
        (&again, &judged),
    )?;
    report.meet(JUDGED_AGAIN, &again.call, &judged);
    report.meet_rewritten(set, outcome);
    report.rewritten += 1;
    Ok(())
}

/// What is said of a set apart from the reference: of an accepted one, the names compared are as many as 02, 4/14 says that
/// its sections add, and within its bound; of an accepted one, and of one refused by 19, devices and lengths are those of
/// its dates and times.
fn check_set(case: &Case, outcome: &Outcome) -> Result<(), String> {
    let Call::Judge { set, .. } = &case.call else {
        return Ok(());
    };
    let wrong = if outcome.accepted() && !look_ups::is_right(set, outcome) {
        "the names compared are not the sum over the sections, or above the bound"
    } else if !devices::is_right(set, outcome) {
        "devices out of date or lengths are not those of the dates and times"
    } else {
        return Ok(());
    };
    let both = (Reference.name(), outcome);
    Err(difference(wrong, case, both, both))
}

/// The first entry of a file, in entry order, that is not filled or empty as its accepted column says.
fn first_not_as_due(file: u32, outcome: &Outcome) -> Option<Triple> {
    let column = &outcome.column[..outcome.answer[4] as usize];
    let mut entries = column.iter().zip(triples_of(file, &outcome.places));
    let disagrees = |(due, triple): &(&u32, Triple)| match triple.length {
        0 => **due == 1,
        _ => **due == 2,
    };
    entries.find(disagrees).map(|(_, triple)| triple)
}

/// In a lawful file each entry is filled or empty as the column says.
fn check_column_of_lawful(case: &Case, outcome: &Outcome) -> Result<(), String> {
    let Call::Due { file, .. } = &case.call else {
        return Ok(());
    };
    if first_not_as_due(*file, outcome).is_none() {
        return Ok(());
    }
    let name = Reference.name();
    let both = (name, outcome);
    Err(difference(
        "a lawful file disagrees with its column",
        case,
        both,
        both,
    ))
}

/// Makes the cases of one sort, with answer arrays of other lengths too; `then` looks at each outcome, given the number of
/// its case.
fn run_sort(
    subject: &dyn Judge,
    report: &mut Report,
    cases: impl Iterator<Item = Case>,
    mut then: impl FnMut(&mut Report, u64, &Case, &Outcome) -> Result<(), String>,
) -> Result<(), String> {
    for (case, at) in cases.zip(0..) {
        let outcome = compare(subject, &case)?;
        report.add(&case.call, outcome.refusal());
        report.add_values(&case.call, &outcome);
        then(report, at, &case, &outcome)?;
        if outcome.accepted() && at % TURNED == 0 {
            compare_turned(subject, report, &case, &outcome)?;
        }
        if at < OTHER_ANSWERS {
            compare_other_answers(subject, &case)?;
        }
    }
    Ok(())
}

/// Makes and compares so many calls of each sort, and those for every name, heading, kind and word.
pub fn run_of(subject: &dyn Judge, amounts: Amounts) -> Result<Report, String> {
    let mut report = Report::default();
    let sets = (0..amounts.sets).map(|at| set_case(FIRST_SET + at));
    run_sort(subject, &mut report, sets, |report, at, case, outcome| {
        check_set(case, outcome)?;
        compare_refused_line(subject, report, case, outcome)?;
        if outcome.accepted() && at % REWRITTEN == 0 {
            compare_rewritten(subject, report, case, outcome)?;
        }
        Ok(())
    })?;
    let reads = (0..amounts.reads).map(|at| read_case(FIRST_READ + at));
    run_sort(subject, &mut report, reads, |_, _, _, _| Ok(()))?;
    let writes = (0..amounts.writes).map(|at| write_case(FIRST_WRITE + at));
    run_sort(subject, &mut report, writes, |report, at, case, outcome| {
        if outcome.accepted() {
            compare_read_back(subject, report, case, outcome)?;
        }
        let lines = OtherLines::ALL[at as usize % OtherLines::ALL.len()];
        compare_other_lines(subject, report, case, outcome, lines)?;
        compare_split(subject, report, at, case, outcome, lines)
    })?;
    let columns = (0..amounts.columns).map(|at| column_case(FIRST_COLUMN + at));
    run_sort(subject, &mut report, columns, |report, _, case, outcome| {
        if outcome.accepted() {
            report.add_column(&case.call, outcome);
            if case.changes.is_empty() {
                check_column_of_lawful(case, outcome)?;
            }
        }
        Ok(())
    })?;
    let joinings = (0..amounts.joinings).map(|at| join_case(FIRST_JOINING + at));
    run_sort(
        subject,
        &mut report,
        joinings,
        |report, _, case, outcome| compare_joining(subject, report, case, outcome),
    )?;
    for cases in [name_cases(), kind_cases(), word_cases()] {
        run_sort(subject, &mut report, cases.into_iter(), |_, _, _, _| Ok(()))?;
    }
    Ok(report)
}
