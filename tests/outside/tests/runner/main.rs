//! The runner itself: it finds the faults of wrong judges, and its calls can be made again.

mod commits;
mod devices;
mod joining;
mod lines_beside;
mod look_up;
mod old_fuel;
mod opacity;

use outside::commits as met_commits;
use outside::comparison::{
    column_case, join_case, kind_cases, name_cases, read_case, run_of, set_case, word_cases,
    write_case, Amounts, ONE_RUN,
};
use outside::devices as met_devices;
use outside::joinings::{self as met_joinings, Input, Inputs};
use outside::judge::{
    make, Arrays, Call, Judge, Outcome, Reference, BY_HAND, NAMES_COMPARED, SECONDS,
};
use outside::lines_beside as met_lines;
use outside::look_ups;
use outside::old_fuels;
use outside::reference::places::Triple;
use outside::reference::tables::{table, DRIFT, GAS, OPACITY};
use outside::reference::PLACES;
use outside::replay;

use commits::Commits;
use devices::Devices;
use joining::Joining;
use lines_beside::Lines;
use look_up::LookUp;
use old_fuel::OldFuel;
use opacity::Opacity;

/// The fault of a wrong judge.
#[derive(Clone, Copy, Debug)]
enum Fault {
    RefusesAll,
    AcceptsAll,
    ZeroPlaces,
    FixedLine,
    StopsAfterAxle1,
    PlacesPastLeast,
    WritesNothing,
    OutputBytesBehind,
    AnswerTooShort,
    ReadsNoMark,
    AllDue,
    ColumnPastEntries,
    NameCut,
    HeadingOfFirstSection,
    WiderByOne,
    WordsFirstByte,
    Mark(Mark),
    Opacity(Opacity),
    OldFuel(OldFuel),
    LookUp(LookUp),
    Devices(Devices),
    Lines(Lines),
    Joining(Joining),
    Commits(Commits),
}

/// A fault in the mark of the idle speed (02, 1/14): where it is set, or whence it is taken.
#[derive(Clone, Copy, Debug)]
enum Mark {
    Never,
    NeverAlone,
    AlwaysWithGas,
    AlwaysWithoutGas,
    OfAnyValue,
    OfEntry(&'static str),
    OfEmptySpeed,
    OfOtherFilesAlone,
    OfWriting,
    OfColumn,
    OfRefusal,
    InNumber8,
}

const MARKS: [Mark; 15] = [
    Mark::Never,
    Mark::NeverAlone,
    Mark::AlwaysWithGas,
    Mark::AlwaysWithoutGas,
    Mark::OfAnyValue,
    Mark::OfEntry("MarcaAnalizzatore"),
    Mark::OfEntry("Note"),
    Mark::OfEntry("CodErrore"),
    Mark::OfEntry("Operatore"),
    Mark::OfEmptySpeed,
    Mark::OfOtherFilesAlone,
    Mark::OfWriting,
    Mark::OfColumn,
    Mark::OfRefusal,
    Mark::InNumber8,
];

fn holds(text: &[u8], part: &str) -> bool {
    String::from_utf8_lossy(text).contains(part)
}

impl Mark {
    /// Spoils the answer to a call.
    fn spoil(self, call: &Call, answer: &mut [u32]) {
        let refused = answer[0] != 0;
        let gas: &[u8] = match call {
            Call::Judge { set, .. } => set.slice(GAS),
            Call::Read {
                file: GAS, text, ..
            } => text,
            _ => &[],
        };
        let mark = match (self, call) {
            (Mark::OfRefusal, _) if refused => true,
            _ if refused => return,
            (Mark::Never, _) => false,
            (Mark::NeverAlone, Call::Read { .. }) => false,
            (Mark::AlwaysWithGas, _) if !gas.is_empty() => true,
            (Mark::AlwaysWithoutGas, Call::Judge { .. }) if gas.is_empty() => true,
            (Mark::OfAnyValue, _) if !gas.is_empty() => holds(gas, "=#"),
            (Mark::OfEntry(name), _) if !gas.is_empty() => holds(gas, &format!("\n{name}=#")),
            (Mark::OfEmptySpeed, _) if holds(gas, "\nNumGiriMotoreMin=\r") => true,
            (Mark::OfOtherFilesAlone, Call::Read { text, .. }) if gas.is_empty() => {
                holds(text, "=#")
            }
            (Mark::OfWriting, Call::Write { text, .. }) => text.contains(&b'#'),
            (Mark::OfColumn, Call::Due { text, .. }) => text.contains(&b'#'),
            (Mark::InNumber8, _) => return answer.swap(8, BY_HAND),
            _ => return,
        };
        answer[BY_HAND] = u32::from(mark);
    }
}

/// Enough to find each fault but some of opacity's and of old fuels'.
const FEW: Amounts = Amounts {
    sets: 500,
    reads: 200,
    writes: 200,
    columns: 200,
    joinings: 200,
};

/// Opacity is seldom given, and the values that some of its faults hang on are seldom in it.
const MORE: Amounts = Amounts {
    sets: 10_000,
    reads: 30_000,
    ..FEW
};

const NONE: Amounts = Amounts {
    sets: 0,
    reads: 0,
    writes: 0,
    columns: 0,
    joinings: 0,
};

/// Old fuels and due dates are judged in sets alone; a day that a fault hangs on is seldom in them.
const SETS: Amounts = Amounts {
    sets: ONE_RUN.sets,
    ..NONE
};

/// Joined files stand in sets too; only joinings are wrong.
const JOININGS: Amounts = Amounts {
    joinings: ONE_RUN.joinings,
    ..NONE
};

/// Quotes and commits follow on writings.
const WRITES: Amounts = Amounts {
    writes: ONE_RUN.writes,
    ..NONE
};

struct Wrong(Fault);

impl Judge for Wrong {
    fn name(&self) -> &'static str {
        "wrong"
    }

    /// The reference's answer, spoilt.
    fn answer(&self, call: &Call, lent: Arrays) -> u32 {
        let Arrays {
            places,
            column,
            output,
            answer,
        } = lent;
        let lent = Arrays {
            places: &mut *places,
            column: &mut *column,
            output: &mut *output,
            answer: &mut *answer,
        };
        let taken = match (self.0, call) {
            (Fault::OldFuel(fault), Call::Judge { set, places }) => Some(Call::Judge {
                set: fault.taken(set),
                places: places.clone(),
            }),
            (Fault::Joining(fault), call) => Some(fault.taken(call)),
            _ => None,
        };
        let number = Reference.answer(taken.as_ref().unwrap_or(call), lent);
        if answer.len() < 16 {
            if let (Fault::AnswerTooShort, Some(first)) = (self.0, answer.first_mut()) {
                *first = 0;
            }
            match (self.0, call) {
                (Fault::Joining(fault), Call::Join { .. }) => fault.spoil_short(answer, output),
                (Fault::Commits(fault), call) => fault.spoil_short(call, answer, output),
                _ => {}
            }
            return number;
        }
        let accepted = number == 0;
        match (self.0, call) {
            (Fault::RefusesAll, Call::Judge { .. }) => answer[0] = 4,
            (Fault::AcceptsAll, Call::Judge { .. }) => answer.fill(0),
            (Fault::ZeroPlaces, Call::Judge { .. }) => places.fill(0),
            (Fault::FixedLine, Call::Judge { .. }) => answer[2] = answer[2].min(1),
            (Fault::StopsAfterAxle1, Call::Judge { .. }) => answer[3] = answer[3].min(1),
            (Fault::PlacesPastLeast, Call::Judge { .. }) if places.len() > PLACES => {
                places[PLACES] = 0;
            }
            (Fault::ReadsNoMark, Call::Judge { .. }) => answer[7] = 0,
            (Fault::WritesNothing, Call::Write { output: before, .. }) => {
                output.copy_from_slice(before);
            }
            (Fault::OutputBytesBehind, Call::Write { .. }) if accepted => {
                output[answer[3] as usize..].fill(0);
            }
            (Fault::AllDue, Call::Due { .. }) if accepted => {
                column[..answer[4] as usize].fill(1);
            }
            (Fault::ColumnPastEntries, Call::Due { .. }) if accepted => {
                column[answer[4] as usize..].fill(0);
            }
            (Fault::NameCut, Call::EntryName { .. }) if accepted => answer[3] -= 1,
            (Fault::HeadingOfFirstSection, Call::HeadingName { .. }) => answer[4] = 0,
            (Fault::WiderByOne, Call::Kind { .. }) if accepted => answer[4] += 1,
            (Fault::WordsFirstByte, Call::Word { .. }) if accepted => output[0] = b'M',
            (Fault::Mark(mark), call) => mark.spoil(call, answer),
            (Fault::Opacity(fault), call) => fault.spoil(call, places, column, answer),
            (Fault::LookUp(fault), call) => fault.spoil(call, places, answer),
            (Fault::Devices(fault), call) => fault.spoil(call, answer),
            (Fault::Lines(fault), call) => fault.spoil(call, places, output, answer),
            (Fault::Joining(fault), call) => fault.spoil(call, output, answer),
            (Fault::Commits(fault), call) => fault.spoil(call, places, output, answer),
            _ => {}
        }
        answer[0]
    }
}

#[test]
fn the_reference_agrees_with_itself() {
    let report = run_of(&Reference, FEW).expect("no difference");
    // Too few calls to reach everything.
    assert!(!report.missing().is_empty());
}

#[test]
fn what_was_not_reached_in_opacity_is_missing() {
    let report = run_of(&Reference, NONE).expect("no difference");
    let missing = report.missing();
    let entries = &table(OPACITY).sections[0].entries;
    for number in ["8", "9", "10, due and empty", "10, filled and not due"] {
        let start = format!("judge {number}: never at file 7, [AnalisiOpacita], ");
        let named = missing.iter().filter_map(|line| line.strip_prefix(&start));
        let count = match number {
            // All but the free ones, and those that are not always due.
            "10, due and empty" => 46,
            "10, filled and not due" => 11,
            _ => 55,
        };
        let known = |name: &&str| entries.iter().any(|entry| entry.name == *name);
        assert_eq!(named.filter(known).count(), count, "{number}");
    }
    for line in [
        "judge: never file 7 refused by 11",
        "judge 9: never opacity, Targa of 3 bytes",
        "read 9: never opacity, TempAmbiente `-100`",
        "judge 11: never opacity given with L and DIESEL",
        "judge 0: never opacity marked",
    ] {
        assert!(missing.contains(&line.to_string()), "{line}");
    }
}

#[test]
fn what_was_not_reached_of_old_fuels_is_missing() {
    let report = run_of(&Reference, NONE).expect("no difference");
    let missing = report.missing();
    for line in [
        "judge 0: never RT1902, 00101986 and `BENZINA NO CAT`, day behind directive",
        "judge 0: never NESSUNA, 00001986 and `BENZINA<86`, day before directive",
        "judged again: never RT1902, 00002002 and `BENZINA NO CAT`, day before directive",
        "judge 12: never RT1902, 00101986 and `BENZINA<86`, day before directive",
        "judge 12: never NESSUNA, 00101986 and `BENZINA NO CAT`, day behind directive",
        "judge 12: never RT1902, 00072002 and `BENZINA NO CAT`, day behind directive",
    ] {
        assert!(missing.contains(&line.to_string()), "{line}");
    }
    let wanted = old_fuels::wanted();
    let never = |(call, what): &(&str, String)| missing.contains(&format!("{call}: never {what}"));
    // Of ten days, two directives and three old fuels 11 fit, each in two orders and judged again; 49 do not.
    assert_eq!(wanted.len(), 3 * 11 + 2 * 49);
    assert!(wanted.iter().all(never));
}

#[test]
fn what_was_not_reached_of_look_ups_is_missing() {
    let report = run_of(&Reference, NONE).expect("no difference");
    let missing = report.missing();
    for line in [
        "judge 0: never file 5, [AnalisiGas] in table order",
        "judge 0: never file 7, [AnalisiOpacita] last entry first",
        "written in table order: never file 4, [SospensioniAsse_9] last entry first",
        "judge 0: never file 2 given and not read",
        "judge 0: never file 3 of 9 axles",
        "judged again: never 78 names compared",
        "judge 0: never 1974 names compared",
    ] {
        assert!(missing.contains(&line.to_string()), "{line}");
    }
    let wanted = look_ups::wanted();
    let never = |(call, what): &(&str, String)| missing.contains(&format!("{call}: never {what}"));
    // 25 sections, of which 16 have a second order; 12 of files, 18 of axles and 2 sums. Each before and after writing.
    assert_eq!(wanted.len(), 2 * (25 + 16) + 2 * (12 + 18 + 2));
    assert!(wanted.iter().all(never));
}

#[test]
fn what_was_not_reached_of_devices_is_missing() {
    let report = run_of(&Reference, NONE).expect("no difference");
    let missing = report.missing();
    for line in [
        "judge 19: never at file 5, [AnalisiGas], DataScadenzaProvaVelocita",
        "judge: never file 7 refused by 19",
        "judge 0: never file 7, DataScadenzaContagiri: ends over midnight, due that day",
        "judge 19: never file 4, DataScadenza: ends within a day, due the day before",
        "judge 0: never ends on 29022000 over midnight, due that day",
        "judge 19: never ends on 01032000 within a day, due two days before",
        "judge 19: never file 3 ends past the last day",
        "judge 19: never file 5, DataScadenzaContagiri and DataScadenzaProvaVelocita out of date",
        "judge 19: never a wrong Differenza%",
        "judge 19: never file 7, rev counter INTEGRATO",
        "judge 19: never file 5, CodErrore filled",
        "judge 10: never file 4 with a device out of date",
        "read 0: never file 3 with a device out of date",
        "judged again: never file 5, 86399 seconds over midnight",
        "judged again: never ends on 01011900 within a day, due that day",
        "judge 0: never file 7 not given, 0 seconds",
        "judge 0: never due date of the bench empty",
    ] {
        assert!(missing.contains(&line.to_string()), "{line}");
    }
    let wanted = met_devices::wanted();
    let never = |(call, what): &(&str, String)| missing.contains(&format!("{call}: never {what}"));
    // Seven due dates and 14 days in two ways, the first day in one; four files with six lengths each, and the bench. Of
    // refusals besides: three days between, a wrong difference, three and once more two of files, and several devices.
    let accepted = 2 * 7 + 2 * 14 + 1 + 4 * 6 + 2;
    let refused = 2 * 7 + 2 * 14 + 2 * 3 + 1 + 4 * 3 + 2 * 2 + 5;
    assert_eq!(wanted.len(), 2 * accepted + refused + 3 * 4);
    assert!(wanted.iter().all(never));
}

#[test]
fn what_was_not_reached_of_lines_is_missing() {
    let report = run_of(&Reference, NONE).expect("no difference");
    let missing = report.missing();
    for line in [
        "judge 0: never file 1, [DatiLibrettoVeicolo] an entry on line 2",
        "read 0: never file 4, [SospensioniAsse_9] an entry on the last line",
        "due 0: never file 5, [AnalisiGasAlimentazione_1] behind another section",
        "judge 0: never file 3, [Deriva] behind a section that the table has later",
        "judge 0: never file 7 not given, 0",
        "due 0: never file 2 given and not read, 0",
        "read 0: never file 3 without axle 9, 0",
        "due: never refused, 0",
        "write: never one place less than the least",
        "judge: never as many places as before 7/14, too few",
        "judged again: never file 7 with the same values on other lines",
        "judged in the opposite order: never file 5 with the same values on other lines",
        "judge 13: never file 4 at the line that it has read alone",
        "write: never each line the largest number, answered by 17",
        "quote: never each line 0, answered by 9",
        "commit: never each line past the last, answered by 18",
        "commit: never one place less than the least",
    ] {
        assert!(missing.contains(&line.to_string()), "{line}");
    }
    let wanted = met_lines::wanted();
    let never = |(call, what): &(&str, String)| missing.contains(&format!("{call}: never {what}"));
    // Of sets, files read alone and columns: 25 sections in two places, 22 that can stand behind another, 19 of them behind
    // a later one, and 16 axles that need not be there. Files not given or not read, and refusals. Numbers of places by six
    // calls; each file in two orders by four; lines of refusals; six other third numbers with six answers of writings and of
    // commits and five of quotes.
    let read = 3 * (2 * 25 + 22 + 19 + 16) + (5 + 2 * 6 + 2) + 3;
    let lines_of_refusals = 6 + 2 + 1 + 4;
    let others = 6 * (6 + 6 + 5);
    assert_eq!(
        wanted.len(),
        read + 5 * 6 + 6 * 4 + lines_of_refusals + others
    );
    assert!(wanted.iter().all(never));
}

#[test]
fn what_was_not_reached_of_joinings_is_missing() {
    let report = run_of(&Reference, NONE).expect("no difference");
    let missing = report.missing();
    for line in [
        "join: number 21 was never reached",
        "join 0: never 4 and 5 axles",
        "join 0: never just the length",
        "join 0: never second's end, second's start, first's end, first's start",
        "join 0: never out of date for the measure of the joined file",
        "join 0: never input 1 in another order, input 2 in the table's",
        "join 3 to 11: never input 1 by 4, where input 2 alone is by 11",
        "join 3 to 11: never input 2 by 9, the other one right",
        "join 20: never CodErrore filled in input 2 alone",
        "join 20: never Marca in case alone",
        "join 20: never DataMisura and others behind it in the table",
        "join 20: never and more than nine axles",
        "join 21: never 9 and 9 axles",
        "join 21: never an output of 0 bytes",
        "join 18: never one byte less",
        "join in the opposite order: never both inputs, answered by 20 with file 2",
        "joined and read: never 9 axles together",
        "joined and judged 0: never joined over midnight, due the next day",
        "joined and judged 19: never joined over midnight, due the day on which it begins",
    ] {
        assert!(missing.contains(&line.to_string()), "{line}");
    }
    let wanted = met_joinings::wanted();
    let never = |(call, what): &(&str, String)| missing.contains(&format!("{call}: never {what}"));
    // Pairs of axles, sizes, inputs alike and the longest, orders of lines, free entries, orders of times, due dates.
    let accepted = 36 + 4 + 3 + 4 + 4 + 24 + 3;
    // By 10 beside headings; each number by each input alone, and with each number of the other.
    let inputs = 2 + 9 * 2 + 9 * 9;
    // Output and axles; each entry but the last with others; each alone and by its line; nine texts, a number, three
    // dates and a word in their ways, and two free entries.
    let headings = 2 + 2 * 13 + 2 * 14 + (9 * 4 + 3 + 3 * 2 + 1) + 2 * 2;
    let joined_in_sets = 8 + 2 + 4;
    assert_eq!(
        wanted.len(),
        accepted + inputs + headings + (45 + 2) + 3 + 3 * 6 + 8 + joined_in_sets
    );
    assert!(wanted.iter().all(never));
}

#[test]
fn what_was_not_reached_of_commits_is_missing() {
    let report = run_of(&Reference, NONE).expect("no difference");
    let missing = report.missing();
    for line in [
        "quote: number 17 was never reached",
        "commit: number 22 was never reached",
        "quote: never file 7, answered by 9",
        "quote: never a file that is not written, answered by 16",
        "commit: never file 3, the quoted length and an output of just its length, answered by 0",
        "commit: never file 1, the quoted length and an output of 0 bytes, answered by 18",
        "commit: never file 7, one less and an output one byte short, answered by 22",
        "commit: never file 4, the largest number and a longer output, answered by 22",
        "commit: never file 5, one more and an output of 0 bytes, answered by 17",
        "commit: never file 2, the quoted length and a longer output, answered by 9",
        "commit: never file 2, a length of 0 and an output one byte short, answered by 1",
        "commit: never file 4, several more and an output of just its length, answered by 16",
        "commit: never file 7, the length that was quoted for file 1, answered by 22",
        "write: never file 5, an output of the quoted length in place of one too short",
    ] {
        assert!(missing.contains(&line.to_string()), "{line}");
    }
    let wanted = met_commits::wanted();
    let never = |(call, what): &(&str, String)| missing.contains(&format!("{call}: never {what}"));
    // Of each file: quotes, commits of each length with each output, those with the length of another file, and outputs of
    // the quoted length; of others a quote and a commit.
    let answers = 1 + 4;
    assert_eq!(wanted.len(), 6 * (answers + 7 * 4 * answers + 5 + 1) + 2);
    assert!(wanted.iter().all(never));
}

#[test]
fn names_compared_are_held_to_the_sum_over_the_sections() {
    let mut accepted = 0;
    for case in (0..50).map(set_case) {
        let Call::Judge { set, .. } = &case.call else {
            panic!("a set");
        };
        let mut outcome = make(&Reference, &case.call);
        if outcome.accepted() {
            accepted += 1;
            assert!(look_ups::is_right(set, &outcome));
            for number in [0, 1, u32::MAX] {
                outcome.answer[NAMES_COMPARED] = number;
                assert!(!look_ups::is_right(set, &outcome), "{number}");
            }
        }
    }
    assert!(accepted > 5);
}

#[test]
fn devices_and_lengths_are_held_to_dates_and_times() {
    let (mut accepted, mut refused) = (0, 0);
    for case in (0..500).map(set_case) {
        let Call::Judge { set, .. } = &case.call else {
            panic!("a set");
        };
        let mut outcome = make(&Reference, &case.call);
        assert!(met_devices::is_right(set, &outcome));
        match outcome.answer[0] {
            0 => {
                accepted += 1;
                for number in SECONDS..SECONDS + 4 {
                    outcome.answer[number] += 1;
                    assert!(!met_devices::is_right(set, &outcome), "{number}");
                    outcome.answer[number] -= 1;
                }
            }
            19 => {
                refused += 1;
                outcome.answer[2] += 1;
                assert!(!met_devices::is_right(set, &outcome));
                outcome.answer[..3].fill(0);
                assert!(!met_devices::is_right(set, &outcome));
            }
            _ => {}
        }
    }
    assert!(accepted > 50 && refused > 5);
}

#[test]
fn places_are_held_to_the_texts() {
    let (mut used, mut unused, mut refused) = (0, 0, 0);
    let cases = (0..60).flat_map(|seed| [set_case(seed), read_case(seed), column_case(seed)]);
    for case in cases {
        let outcome = make(&Reference, &case.call);
        assert!(met_lines::is_right(&case.call, &outcome));
        let is_right = |place: usize, number: u32| {
            let mut places = outcome.places.clone();
            places[place] = number;
            let spoilt = Outcome {
                places,
                ..outcome.clone()
            };
            met_lines::is_right(&case.call, &spoilt)
        };
        for place in 0..outcome.places.len() {
            let number = outcome.places[place];
            assert!(!is_right(place, number.wrapping_add(1)), "place {place}");
        }
        // A line that another entry has, and none.
        let triples = outcome
            .places
            .chunks_exact(Triple::NUMBERS)
            .take(PLACES / Triple::NUMBERS);
        for (triple, at) in triples.zip(0..) {
            let line = Triple::NUMBERS * at + 2;
            match (outcome.answer[0], triple[0]) {
                (0, 0) => unused += 1,
                (0, _) => {
                    used += 1;
                    assert!(!is_right(line, 0) && !is_right(line, triple[2] - 1));
                }
                _ => refused += 1,
            }
        }
    }
    assert!(used > 1_000 && unused > 1_000 && refused > 1_000);
}

#[test]
fn joinings_are_held_to_their_inputs() {
    let (mut refused, mut joined) = (0, 0);
    for case in (0..300).map(join_case) {
        let Call::Join { first, second, .. } = &case.call else {
            panic!("a joining");
        };
        let reads = [read_drift(first), read_drift(second)];
        let inputs = [Input::new(first, &reads[0]), Input::new(second, &reads[1])];
        let outcome = make(&Reference, &case.call);
        assert!(met_joinings::is_right(&inputs, &outcome));
        let is_right = |at: usize, number: u32| {
            let mut spoilt = outcome.clone();
            spoilt.answer[at] = number;
            met_joinings::is_right(&inputs, &spoilt)
        };
        match outcome.answer[0] {
            0 => {
                joined += 1;
                assert!(!is_right(0, 4) && !is_right(0, 19));
                let text = &outcome.output[..outcome.answer[3] as usize];
                assert!(is_joined(&inputs, text));
                for at in 0..text.len() {
                    let mut other = text.to_vec();
                    other[at] ^= 1;
                    assert!(!is_joined(&inputs, &other), "byte {at}");
                }
            }
            3..=11 => {
                refused += 1;
                for at in 0..3 {
                    assert!(!is_right(at, outcome.answer[at] + 1));
                }
                assert!(!is_right(0, 0) && !is_right(0, 20) && !is_right(1, 3));
            }
            _ => assert!(!is_right(0, 10)),
        }
    }
    assert!(refused > 50 && joined > 20);
}

/// A drift file read alone.
fn read_drift(text: &[u8]) -> Outcome {
    let call = Call::Read {
        file: DRIFT,
        text: text.to_vec(),
        places: vec![0; PLACES],
    };
    make(&Reference, &call)
}

fn is_joined(inputs: &Inputs, text: &[u8]) -> bool {
    met_joinings::is_joined(inputs, &Input::new(text, &read_drift(text)))
}

#[cfg(feature = "library")]
#[test]
fn the_library_agrees_with_the_reference() {
    let amounts = Amounts {
        sets: 2000,
        reads: 500,
        writes: 500,
        columns: 500,
        joinings: 500,
    };
    if let Err(difference) = run_of(&outside::library::Library, amounts) {
        panic!("{difference}");
    }
}

#[test]
fn faults_are_found() {
    let faults = [
        Fault::RefusesAll,
        Fault::AcceptsAll,
        Fault::ZeroPlaces,
        Fault::FixedLine,
        Fault::StopsAfterAxle1,
        Fault::PlacesPastLeast,
        Fault::WritesNothing,
        Fault::OutputBytesBehind,
        Fault::AnswerTooShort,
        Fault::ReadsNoMark,
        Fault::AllDue,
        Fault::ColumnPastEntries,
        Fault::NameCut,
        Fault::HeadingOfFirstSection,
        Fault::WiderByOne,
        Fault::WordsFirstByte,
    ];
    for fault in faults.into_iter().chain(MARKS.map(Fault::Mark)) {
        assert_found(fault, FEW);
    }
}

#[test]
fn faults_of_opacity_are_found() {
    for fault in opacity::FAULTS.map(Fault::Opacity) {
        assert_found(fault, MORE);
    }
}

#[test]
fn faults_of_the_old_fuel_are_found() {
    for fault in old_fuel::FAULTS {
        let call = assert_found(Fault::OldFuel(fault), SETS);
        let right = make(&Reference, &call).refusal();
        let found = make(&Wrong(Fault::OldFuel(fault)), &call).refusal();
        // One of both refuses the set for what the fault is one in, the other does not.
        let reason = fault.reason(&call);
        assert_ne!(right, found, "{fault:?}");
        assert!(reason == right || reason == found, "{fault:?}");
    }
}

#[test]
fn faults_of_look_ups_are_found() {
    for fault in look_up::FAULTS.map(Fault::LookUp) {
        let call = assert_found(fault, FEW);
        let [right, found] = [make(&Reference, &call), make(&Wrong(fault), &call)];
        // By the number and nothing before it.
        assert_eq!(right.answer[..BY_HAND], found.answer[..BY_HAND]);
        assert_ne!(right.answer[NAMES_COMPARED], found.answer[NAMES_COMPARED]);
    }
}

#[test]
fn faults_of_devices_are_found() {
    let faults = devices::FAULTS
        .into_iter()
        .chain(devices::faults_of_files());
    for fault in faults {
        assert_found_by_19_or_length(fault, SETS);
    }
    for fault in devices::FAULTS_OF_OTHER_CALLS {
        assert_found_by_19_or_length(fault, FEW);
    }
}

#[test]
fn faults_of_lines_are_found() {
    for fault in lines_beside::FAULTS {
        let call = assert_found(Fault::Lines(fault), FEW);
        let [right, found] = [
            make(&Reference, &call),
            make(&Wrong(Fault::Lines(fault)), &call),
        ];
        match fault {
            Lines::Writing(_) => assert!(matches!(call, Call::Write { .. }), "{fault:?}"),
            Lines::LeastAsBefore => assert_eq!((right.answer[0], found.answer[0]), (1, 0)),
            // By the places and nothing else.
            _ => {
                assert_eq!(
                    (&right.answer, &right.column),
                    (&found.answer, &found.column)
                );
                assert_ne!(right.places, found.places, "{fault:?}");
            }
        }
    }
}

#[test]
fn faults_of_joinings_are_found() {
    let compared = joining::faults_of_entries();
    for fault in joining::FAULTS.into_iter().chain(compared) {
        let fault = Fault::Joining(fault);
        let call = assert_found(fault, JOININGS);
        assert!(matches!(call, Call::Join { .. }), "{fault:?}");
        // By the answer or the bytes, but for an answer array that is too short.
        let [right, found] = [make(&Reference, &call), make(&Wrong(fault), &call)];
        let is_short = matches!(fault, Fault::Joining(Joining::ShortAnswer(_)));
        assert_eq!(right == found, is_short, "{fault:?}");
    }
}

#[test]
fn faults_of_commits_are_found() {
    for fault in commits::FAULTS {
        let call = assert_found(Fault::Commits(fault), WRITES);
        assert!(fault.is_in(&call), "{fault:?}");
        // By the answer, the places or the bytes, but for an answer array that is too short.
        let wrong = Wrong(Fault::Commits(fault));
        let [right, found] = [make(&Reference, &call), make(&wrong, &call)];
        assert_eq!(right == found, fault.is_short(), "{fault:?}");
    }
}

#[test]
fn what_gives_the_right_answers_is_no_fault() {
    let amounts = Amounts {
        sets: 3_000,
        ..NONE
    };
    for right in [
        // The rule and the lengths as they are.
        Devices::Grace(0),
        Devices::Length(devices::Length::InBits(17)),
        // A number left out: which of two days is the later one stays, and no answer carries a day's number.
        Devices::FromYear(1901, 1),
    ] {
        if let Err(difference) = run_of(&Wrong(Fault::Devices(right)), amounts) {
            panic!("{right:?}: {difference}");
        }
    }
}

/// One of both refuses by 19, or nothing before the lengths differs.
fn assert_found_by_19_or_length(fault: Devices, amounts: Amounts) {
    let fault = Fault::Devices(fault);
    let call = assert_found(fault, amounts);
    let [right, found] = [make(&Reference, &call), make(&Wrong(fault), &call)];
    assert_ne!(right.answer, found.answer);
    let by_19 = right.answer[0] == 19 || found.answer[0] == 19;
    assert!(
        by_19 || right.answer[..SECONDS] == found.answer[..SECONDS],
        "{fault:?}"
    );
}

/// The call at which a fault is found.
fn assert_found(fault: Fault, amounts: Amounts) -> Call {
    match run_of(&Wrong(fault), amounts) {
        Ok(_) => panic!("{fault:?} was not found"),
        Err(text) => {
            // The last line is the call.
            let call = text.lines().last().expect("a line");
            replay::from_text(call).expect("a call that can be made again")
        }
    }
}

#[test]
fn calls_as_text_come_back() {
    let generated = (0..200).flat_map(|seed| {
        [
            set_case(seed),
            read_case(seed),
            write_case(seed),
            column_case(seed),
            join_case(seed),
        ]
    });
    let split = (0..200).flat_map(|seed| quote_and_commit(&write_case(seed).call));
    let listed = [name_cases(), kind_cases(), word_cases()];
    let cases = generated.chain(listed.into_iter().flatten());
    for call in cases.map(|case| case.call).chain(split) {
        let text = replay::to_text(&call);
        let again = replay::from_text(&text).expect("a call");
        assert!(again == call, "{text}");
    }
}

/// A writing quoted and committed.
fn quote_and_commit(call: &Call) -> [Call; 2] {
    let Call::Write {
        text,
        places,
        file,
        axles,
        output,
    } = call.clone()
    else {
        panic!("a writing");
    };
    let quote = Call::Quote {
        text: text.clone(),
        places: places.clone(),
        file,
        axles,
    };
    let commit = Call::Commit {
        text,
        places,
        file,
        axles,
        length: u32::MAX - output.len() as u32,
        output,
    };
    [quote, commit]
}
