//! The samples of 02, 8/14: two drift files joined.

use outside::entries::entries_to_agree;
use outside::judge::{Call, Outcome, ANSWER};
use outside::mutator::files::{set_value, turned};
use outside::mutator::joinings::LONGEST;
use outside::reference::kinds::Kind;
use outside::reference::tables::{table, DRIFT};
use outside::reference::PLACES;

use super::{assert_refused, judged, made, read, refusal, sample, text, DRIFT_TEXT};

/// The second drive over the plate: later, with three axles.
const SECOND: &str = "[Deriva]
Marca=A
Tipo=B
NumOmologa=C
NumSerie=D
DataScadenza=01012030
NumVersioneSoftware=E
Note=
NumVersioneProtocollo=200
DataVersioneProtocollo=01012010
TipoCollegamento=DIR
CircolareApplicata=F
CodErrore=7
DataMisura=29022024
InizioMisura=082000
FineMisura=083000
Operatore=G
[DerivaAsse_1]
Deriva=1.00
[DerivaAsse_3]
Deriva=-3.25
[DerivaAsse_2]
Deriva=02.50
";

const JOINED: &str = "[Deriva]
Marca=A
Tipo=B
NumOmologa=C
NumSerie=D
DataScadenza=01012030
NumVersioneSoftware=E
Note=
NumVersioneProtocollo=200
DataVersioneProtocollo=01012010
TipoCollegamento=DIR
CircolareApplicata=F
CodErrore=7
DataMisura=29022024
InizioMisura=080000
FineMisura=083000
Operatore=G
[DerivaAsse_1]
Deriva=-5.00
[DerivaAsse_2]
Deriva=-0.00
[DerivaAsse_3]
Deriva=1.00
[DerivaAsse_4]
Deriva=02.50
[DerivaAsse_5]
Deriva=-3.25
";

fn join(first: &[u8], second: &[u8], output: usize) -> Outcome {
    made(&Call::Join {
        first: first.to_vec(),
        second: second.to_vec(),
        output: vec![0xAA; output],
    })
}

/// A drift file with other values.
fn with(file: &str, values: &[(&str, &str)]) -> Vec<u8> {
    let mut text = text(file);
    for (name, value) in values {
        set_value(&mut text, name, value.as_bytes());
    }
    text
}

/// A drift file with so many axles.
fn of_axles(count: usize) -> Vec<u8> {
    let (headings, _) = SECOND.split_once("[DerivaAsse_1]").expect("an axle");
    let axles = (1..=count).map(|axle| format!("[DerivaAsse_{axle}]\nDeriva={axle}.00\n"));
    text(&(headings.to_string() + &axles.collect::<String>()))
}

fn assert_not_joined(first: &[u8], second: &[u8], output: usize, right: (u32, u32, u32)) {
    let outcome = join(first, second, output);
    assert_eq!(refusal(&outcome), right);
    assert_eq!(outcome.returned, right.0);
    assert_eq!(outcome.answer[3..], [0; ANSWER - 3]);
    assert_eq!(outcome.output, vec![0xAA; output]);
}

#[test]
fn the_joined_file() {
    let (first, second, joined) = (text(DRIFT_TEXT), text(SECOND), text(JOINED));
    for output in [joined.len(), joined.len() + 1, 2_000] {
        for [one, other] in [
            [first.clone(), second.clone()],
            [turned(&first), second.clone()],
            [first.clone(), turned(&second)],
            [turned(&first), turned(&second)],
        ] {
            let outcome = join(&one, &other, output);
            let mut right = [0; ANSWER];
            right[3] = joined.len() as u32;
            assert_eq!(outcome.answer, right);
            let (written, past) = outcome.output.split_at(joined.len());
            assert_eq!(written, joined);
            assert!(past.iter().all(|byte| *byte == 0xAA));
        }
    }
    let outcome = read(DRIFT, &joined, PLACES);
    assert_eq!((outcome.answer[0], outcome.answer[3]), (0, 5));
}

#[test]
fn inputs_are_refused_by_their_numbers() {
    let right = text(DRIFT_TEXT);
    let too_long = [b'x'; 16_385];
    let unknown = text(&DRIFT_TEXT.replace("Marca=A", "marca=A"));
    let absent = text(&DRIFT_TEXT.replace("Tipo=B\n", ""));
    let without_axle_1 = text(&DRIFT_TEXT.replace("[DerivaAsse_1]\nDeriva=-5.00\n", ""));
    let suspension = text(&DRIFT_TEXT.replace("[DerivaAsse_1]", "[SospensioniAsse_1]"));
    let refused: [(&[u8], u32, u32); 9] = [
        (&too_long, 3, 0),
        (b"[Deriva]\r\nMarca\r\n", 4, 2),
        (&suspension, 5, 20),
        (&unknown, 6, 4),
        (&without_axle_1, 7, 0),
        (&absent, 8, 3),
        (&with(DRIFT_TEXT, &[("InizioMisura", "240000")]), 9, 17),
        (&with(DRIFT_TEXT, &[("Marca", "")]), 10, 4),
        (b"", 11, 0),
    ];
    for (wrong, number, line) in refused {
        for output in [0, 2_000] {
            assert_not_joined(wrong, &right, output, (number, 1, line));
            assert_not_joined(&right, wrong, output, (number, 2, line));
        }
        // The first one before the second.
        for (other, _, _) in refused {
            assert_not_joined(wrong, other, 2_000, (number, 1, line));
        }
        // Before 20: the other file disagrees.
        let disagrees = with(DRIFT_TEXT, &[("Operatore", "H")]);
        assert_not_joined(&disagrees, wrong, 2_000, (number, 2, line));
    }
}

#[test]
fn headings_that_disagree() {
    let first = text(DRIFT_TEXT);
    for (entry, place) in entries_to_agree().zip(0..) {
        let other = match entry.kind {
            Kind::Date => "28022024",
            Kind::Number(_) => "201",
            Kind::Word(_) => "RETE",
            // Capitals count.
            _ if entry.name == "Marca" => "a",
            _ => "x",
        };
        let second = with(SECOND, &[(&entry.name, other)]);
        // Two times stand before the last one.
        let line = if place < 13 { place + 2 } else { 17 };
        for output in [0, 2_000] {
            assert_not_joined(&first, &second, output, (20, 2, line));
        }
        // In the opposite order it stands as far from the last line.
        let last = 2 * 3 + 17;
        let turned = turned(&second);
        assert_not_joined(&first, &turned, 2_000, (20, 2, last - line + 2));
    }
    assert_eq!(entries_to_agree().count(), 14);
    // The first in table order, wherever it stands.
    let second = with(SECOND, &[("Tipo", "b"), ("Operatore", "g")]);
    assert_not_joined(&first, &second, 2_000, (20, 2, 3));
    assert_not_joined(&first, &turned(&second), 2_000, (20, 2, 22));
}

#[test]
fn empty_and_filled_disagree() {
    for (name, line) in [("Note", 8), ("CodErrore", 13)] {
        let [filled, empty] = ["x", ""].map(|value| with(SECOND, &[(name, value)]));
        assert_not_joined(&filled, &empty, 2_000, (20, 2, line));
        assert_not_joined(&empty, &filled, 2_000, (20, 2, line));
        for same in [filled, empty] {
            assert_eq!(join(&same, &same, 2_000).returned, 0);
        }
    }
}

#[test]
fn too_many_axles_and_a_short_output() {
    for (first, second) in [(1, 9), (9, 1), (5, 5), (9, 9)] {
        let (first, second) = (of_axles(first), of_axles(second));
        for output in [0, 2_000] {
            assert_not_joined(&first, &second, output, (21, 0, 0));
        }
        // After 20.
        let mut disagrees = second.clone();
        set_value(&mut disagrees, "Operatore", b"H");
        assert_not_joined(&first, &disagrees, 0, (20, 2, 17));
    }
    for (first, second) in [(1, 8), (8, 1), (4, 5)] {
        let outcome = join(&of_axles(first), &of_axles(second), 2_000);
        let length = outcome.answer[3] as usize;
        let read = read(DRIFT, &outcome.output[..length], PLACES);
        assert_eq!(read.answer[3], 9);
        for output in [0, 1, length - 1] {
            let files = [of_axles(first), of_axles(second)];
            assert_not_joined(&files[0], &files[1], output, (18, 0, 0));
        }
    }
}

#[test]
fn the_longest_joined_file() {
    let longest = |kind: Kind| match kind {
        Kind::Text(width) => "x".repeat(width),
        Kind::Number(width) => "9".repeat(width),
        Kind::Date => "01012030".to_string(),
        Kind::Time => "000000".to_string(),
        _ => "RETE".to_string(),
    };
    let entries = &table(DRIFT).sections[0].entries;
    let values = entries.iter().map(|entry| longest(entry.kind));
    let values: Vec<(&str, String)> = entries
        .iter()
        .map(|e| e.name.as_str())
        .zip(values)
        .collect();
    let values: Vec<(&str, &str)> = values.iter().map(|(name, v)| (*name, v.as_str())).collect();
    let axles = |count: usize| {
        let (headings, _) = SECOND.split_once("[DerivaAsse_1]").expect("an axle");
        let axles = (1..=count).map(|axle| format!("[DerivaAsse_{axle}]\nDeriva=-99.99\n"));
        with(
            &(headings.to_string() + &axles.collect::<String>()),
            &values,
        )
    };
    let outcome = join(&axles(4), &axles(5), LONGEST);
    assert_eq!((outcome.returned, outcome.answer[3]), (0, 1_401));
    assert_not_joined(&axles(4), &axles(5), LONGEST - 1, (18, 0, 0));
}

#[test]
fn times_may_come_in_any_order() {
    let times = ["000000", "115959", "235959"];
    for start in times {
        for end in times {
            let first = with(
                DRIFT_TEXT,
                &[("InizioMisura", start), ("FineMisura", "120000")],
            );
            let second = with(SECOND, &[("InizioMisura", "000001"), ("FineMisura", end)]);
            let outcome = join(&first, &second, 2_000);
            let joined = with(JOINED, &[("InizioMisura", start), ("FineMisura", end)]);
            assert_eq!(outcome.output[..outcome.answer[3] as usize], joined);
        }
    }
}

#[test]
fn the_due_date_is_checked_in_a_set() {
    // Two drives before midnight of which the second ends behind it.
    let files = |due: &str| {
        let due = ("DataScadenza", due);
        let first = [due, ("InizioMisura", "233000"), ("FineMisura", "233500")];
        let second = [due, ("InizioMisura", "235000"), ("FineMisura", "000500")];
        [with(DRIFT_TEXT, &first), with(SECOND, &second)]
    };
    for (due, is_accepted) in [
        ("28022024", false),
        ("29022024", false),
        ("01032024", true),
        ("31122099", true),
    ] {
        let [first, second] = files(due);
        let outcome = join(&first, &second, 2_000);
        assert_eq!(outcome.returned, 0);
        let mut set = sample();
        *set.slice_mut(DRIFT) = outcome.output[..outcome.answer[3] as usize].to_vec();
        if is_accepted {
            let outcome = judged(&set);
            // Five axles, 35 minutes.
            assert_eq!((outcome.answer[0], outcome.answer[3]), (0, 5));
            assert_eq!(outcome.answer[11], 2_100);
        } else {
            assert_refused(&set, (19, DRIFT, 6));
        }
    }
}
