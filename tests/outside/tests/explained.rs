//! What the library says to explain a refusal, against the implementation: the reasons of an entry give its due column,
//! those of a file say when it is given, and the fields of the identification answer are gas's values.
#![cfg(feature = "library")]

use std::collections::BTreeSet;

use mctc::{Asked, Condition, Reason, Test, TESTS};
use outside::comparison::{column_case, set_case};
use outside::judge::{make, places_before, Call, Outcome, Reference, Set};
use outside::reference::places::{triples_of, Triple};
use outside::reference::tables::{table, AC2, ACC, FILES, GAS, IDENTIFICATION, OPACITY};
use outside::reference::PLACES;

/// Enough to meet every test passed and failed.
const COLUMNS: u64 = 20_000;
const SETS: u64 = 20_000;

/// The values of a file by the implementation's places.
struct Values<'a> {
    text: &'a [u8],
    triples: Vec<Triple>,
}

impl<'a> Values<'a> {
    fn new(file: u32, text: &'a [u8], places: &[u32]) -> Values<'a> {
        let triples = triples_of(file, places).collect();
        Values { text, triples }
    }

    /// A file read alone by the implementation.
    fn alone(file: u32, text: &'a [u8]) -> Option<Values<'a>> {
        let places = places_before(PLACES);
        let call = Call::Read {
            file,
            text: text.to_vec(),
            places,
        };
        let read = make(&Reference, &call);
        read.accepted()
            .then(|| Values::new(file, text, &read.places))
    }

    fn value(&self, entry: u32) -> &'a [u8] {
        self.triples[entry as usize].value(self.text)
    }
}

/// Whether the reasons hold; which tests passed and failed is noted.
fn hold<'a>(
    condition: &Condition,
    value: impl Fn(&Reason) -> &'a [u8],
    met: &mut BTreeSet<(u32, bool)>,
) -> bool {
    let mut each = true;
    for group in &condition.groups {
        let mut one = false;
        for reason in group {
            let passes = reason.test.passes(value(reason));
            met.insert((number(reason.test), passes));
            one |= passes;
        }
        each &= one;
    }
    each
}

fn number(test: Test) -> u32 {
    TESTS.iter().position(|other| *other == test).unwrap() as u32
}

#[test]
fn reasons_give_the_due_column() {
    let mut met = BTreeSet::new();
    let mut entries = BTreeSet::new();
    for seed in 0..COLUMNS {
        let Call::Due {
            file, ac2, text, ..
        } = column_case(seed).call
        else {
            panic!("a due column");
        };
        let call = Call::Due {
            file,
            ac2: ac2.clone(),
            text: text.clone(),
            places: places_before(PLACES),
            column: vec![0; 64],
        };
        let outcome = make(&Reference, &call);
        if !outcome.accepted() {
            continue;
        }
        let booking = Values::alone(AC2, &ac2).expect("AC2 was read");
        let own = Values::new(file, &text, &outcome.places);
        let count = outcome.answer[4];
        for entry in 0..count {
            let condition = mctc::condition(file, entry).expect("an entry");
            let value = |reason: &Reason| match reason.file {
                AC2 => booking.value(reason.entry),
                other => {
                    assert_eq!(other, file, "a file looks at AC2 and itself");
                    own.value(reason.entry)
                }
            };
            let due = match condition.asked {
                Asked::Always => 1,
                Asked::Free => 3,
                Asked::When if hold(&condition, value, &mut met) => 1,
                _ => 2,
            };
            assert_eq!(
                due, outcome.column[entry as usize],
                "seed {seed}, file {file}, entry {entry}"
            );
            entries.insert((file, entry));
        }
    }
    let numbers = Triple::NUMBERS * entries.len();
    assert_eq!(numbers, PLACES, "every entry was met");
    // NotL and NineStem are of files
    let own = |test: &u32| ![number(Test::NotL), number(Test::NineStem)].contains(test);
    for test in (0..TESTS.len() as u32).filter(own) {
        assert!(met.contains(&(test, true)) && met.contains(&(test, false)));
    }
}

/// Whether a file is given as the library's reasons ask; the identification answer besides only where gas is given.
fn is_right(set: &Set, file: u32, met: &mut BTreeSet<(u32, bool)>) -> bool {
    let given = !set.slice(file).is_empty();
    let condition = mctc::file_condition(file).expect("a file");
    let value = |reason: &Reason| match reason.file {
        0 => &set.stem,
        other => match Values::alone(other, set.slice(other)) {
            Some(values) => values.value(reason.entry),
            None => &[],
        },
    };
    let holds = hold(&condition, value, met);
    let gas = file != IDENTIFICATION || !set.slice(GAS).is_empty();
    match condition.asked {
        Asked::Always => given,
        Asked::Free => true,
        Asked::When => given == (gas && holds),
        Asked::OnlyWhen => !given || holds,
        Asked::Other(number) => panic!("asked {number}"),
    }
}

#[test]
fn reasons_say_when_a_file_is_given() {
    let mut met = BTreeSet::new();
    let mut refused = BTreeSet::new();
    for seed in 0..SETS {
        let Call::Judge { set, .. } = set_case(seed).call else {
            panic!("a set");
        };
        let outcome: Outcome = Reference.judge(&set);
        let (number, file) = (outcome.answer[0], outcome.answer[1]);
        if number == 0 {
            for file in AC2..=OPACITY {
                assert!(is_right(&set, file, &mut met), "seed {seed}, file {file}");
            }
        }
        if number == 11 {
            assert!(!is_right(&set, file, &mut met), "seed {seed}, file {file}");
            refused.insert(file);
        }
    }
    assert_eq!(
        refused,
        BTreeSet::from([AC2, ACC, GAS, IDENTIFICATION, OPACITY])
    );
    for test in [
        Test::NotL,
        Test::NineStem,
        Test::Petrol,
        Test::SerialLink,
        Test::Diesel,
        Test::MOrN,
    ] {
        let test = number(test);
        assert!(met.contains(&(test, true)) && met.contains(&(test, false)));
    }
}

#[test]
fn fields_are_gas_values() {
    let (mut accepted, mut malformed, mut different) = (0, 0, BTreeSet::new());
    for seed in 0..SETS {
        let Call::Judge { set, .. } = set_case(seed).call else {
            panic!("a set");
        };
        let outcome = Reference.judge(&set);
        let slices = set.as_slices();
        let fields = mctc::identification(slices.identification);
        let number = outcome.answer[0];
        if number == 14 {
            assert!(fields.is_err(), "seed {seed}");
            malformed += 1;
        }
        if slices.identification.is_empty() || !(number == 0 || number == 15) {
            continue;
        }
        let fields = fields.expect("a well-formed answer");
        let gas = Values::alone(GAS, slices.gas).expect("gas was read");
        let differs: Vec<u32> = (3..10)
            .filter(|field| {
                let entry = mctc::field_entry(*field).expect("one of the seven");
                let field = fields[*field as usize].clone();
                slices.identification[field] != *gas.value(entry)
            })
            .collect();
        assert_eq!(differs.is_empty(), number == 0, "seed {seed}");
        accepted += u32::from(number == 0);
        different.extend(differs);
    }
    assert!(accepted > 0 && malformed > 0);
    assert_eq!(different, BTreeSet::from_iter(3..10));
}

/// A call that is lent nothing but the answer array.
type Explaining = Box<dyn Fn(&mut [u32]) -> u32>;

/// Such calls by numbers in and out of range: whether there is what they ask for, and the file of the refusal.
fn calls() -> Vec<(bool, u32, Explaining)> {
    let mut calls: Vec<(bool, u32, Explaining)> = Vec::new();
    for file in 0..10 {
        let has_entries = FILES.contains(&file);
        let count = has_entries.then(|| table(file).most_entries() as u32);
        for entry in (0..70).chain([u32::MAX]) {
            let call = move |answer: &mut [u32]| mctc::lent::condition(file, entry, answer);
            let there = count.is_some_and(|count| entry < count);
            calls.push((there, file, Box::new(call)));
        }
    }
    for file in (0..10).chain([u32::MAX]) {
        let call = move |answer: &mut [u32]| mctc::lent::file_condition(file, answer);
        calls.push(((AC2..=OPACITY).contains(&file), file, Box::new(call)));
    }
    for number in (0..20).chain([u32::MAX]) {
        let test = move |answer: &mut [u32]| mctc::lent::test(number, b"", answer);
        calls.push(((1..=15).contains(&number), 0, Box::new(test)));
        let field = move |answer: &mut [u32]| mctc::lent::field(number, answer);
        calls.push(((3..=9).contains(&number), 0, Box::new(field)));
    }
    calls
}

#[test]
fn numbers_out_of_range_are_refused() {
    for (there, file, call) in calls() {
        let mut answer = [9; 16];
        let number = call(&mut answer);
        assert_eq!(number, answer[0]);
        if there {
            assert_eq!(answer[..3], [0, 0, 0]);
        } else {
            let refused: Vec<u32> = [16, file].into_iter().chain([0; 14]).collect();
            assert_eq!(answer, *refused);
        }
    }
    let mut answer = [9; 16];
    assert_eq!(mctc::lent::identification(b"", &mut answer), 14);
    assert_eq!(answer[..4], [14, 6, 0, 0]);
}

#[test]
fn answer_arrays_of_other_lengths() {
    for (_, _, call) in calls() {
        let mut right = [9; 16];
        call(&mut right);
        for length in [0, 1, 15] {
            let mut short = vec![9; length];
            assert_eq!(call(&mut short), u32::MAX);
            assert_eq!(short, vec![9; length]);
        }
        for length in [17, 40] {
            let mut long = vec![9; length];
            assert_eq!(call(&mut long), right[0]);
            assert_eq!(long[..16], right);
            assert_eq!(long[16..], vec![9; length - 16]);
        }
    }
}
