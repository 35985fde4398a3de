//! The samples of 02, 7/14: the line beside each value.

use outside::judge::{column_before, places_before, Call, Outcome, Set, ANSWER};
use outside::mutator::files::{set_value, turned};
use outside::mutator::writings::OtherLines;
use outside::reference::places::triples_of;
use outside::reference::tables::{AC2, ACC, DRIFT, FILES, GAS, OPACITY, SUSPENSION};
use outside::reference::PLACES;

use super::opacity::diesel;
use super::{
    judged, judged_with, made, motorcycle, place, read, refusal, sample, triple, written,
    FIRST_ENTRIES, LENGTH, LINE, START,
};

/// The lines of a file's entries in entry order, 0 of those that are not there.
fn lines(places: &[u32], file: u32) -> Vec<u32> {
    let triples = triples_of(file, places);
    triples.map(|triple| triple.line).collect()
}

/// The values of a file's entries in entry order.
fn values<'a>(text: &'a [u8], places: &[u32], file: u32) -> Vec<&'a [u8]> {
    let triples = triples_of(file, places);
    triples.map(|triple| triple.value(text)).collect()
}

/// So many numbers from the first on.
fn from(first: u32, count: u32) -> Vec<u32> {
    (first..first + count).collect()
}

fn with_file(file: u32) -> Set {
    if file == OPACITY {
        diesel()
    } else {
        sample()
    }
}

/// The column of a file of a set.
fn column(set: &Set, file: u32, places: usize) -> Outcome {
    made(&Call::Due {
        file,
        ac2: set.slice(AC2).to_vec(),
        text: set.slice(file).to_vec(),
        places: places_before(places),
        column: column_before(55),
    })
}

#[test]
fn the_line_beside_each_value() {
    let places = judged(&sample()).places;
    assert_eq!(lines(&places, AC2), from(2, 12));
    assert_eq!(lines(&places, ACC), from(2, 6));
    // Axles by number: the second stands first in its file, the first behind the sixteen entries.
    let drift = [from(4, 16), vec![21, 2], vec![0; 7]].concat();
    assert_eq!(lines(&places, DRIFT), drift);
    let suspension = [from(2, 16), from(19, 3), vec![0; 24]].concat();
    assert_eq!(lines(&places, SUSPENSION), suspension);
    // A heading stands between.
    let gas = [from(2, 46), from(49, 7)].concat();
    assert_eq!(lines(&places, GAS), gas);
    assert_eq!(lines(&places, OPACITY), [0; 55]);
    let places = judged(&diesel()).places;
    assert_eq!(lines(&places, GAS), [0; 53]);
    assert_eq!(lines(&places, OPACITY), from(2, 55));
}

#[test]
fn all_calls_give_the_same_lines() {
    for (file, first) in FIRST_ENTRIES {
        let set = with_file(file);
        let places = judged(&set).places;
        let alone = read(file, set.slice(file), PLACES);
        let column = column(&set, file, PLACES);
        for outcome in [alone, column] {
            assert_eq!(refusal(&outcome), (0, 0, 0));
            let count = lines(&places, file).len();
            let own = place(first, START)..place(first + count, START);
            assert_eq!(outcome.places[own.clone()], places[own.clone()]);
            // The other files' stay 0.
            let others = [&outcome.places[..own.start], &outcome.places[own.end..]].concat();
            assert!(others.iter().all(|number| *number == 0), "file {file}");
        }
    }
}

#[test]
fn a_file_that_is_not_read_has_no_lines() {
    let mut set = motorcycle();
    set.stem = b"AA912345".to_vec();
    let places = judged(&set).places;
    assert_eq!(lines(&places, ACC), [0; 6]);
    let column = column(&set, ACC, PLACES);
    assert_eq!(column.answer, [0; ANSWER]);
    assert_eq!(column.places, [0; PLACES]);
    // Read alone it has.
    let alone = read(ACC, set.slice(ACC), PLACES);
    assert_eq!(lines(&alone.places, ACC), from(2, 6));
}

#[test]
fn two_orders_of_the_same_lines() {
    for set in [sample(), diesel()] {
        let mut other = set.clone();
        for file in FILES {
            *other.slice_mut(file) = turned(set.slice(file));
        }
        let (before, after) = (judged(&set), judged(&other));
        assert_eq!(before.answer, after.answer);
        for file in FILES
            .into_iter()
            .filter(|file| !set.slice(*file).is_empty())
        {
            let values = |set: &Set, outcome: &Outcome| {
                let values = values(set.slice(file), &outcome.places, file);
                values.concat()
            };
            assert_eq!(values(&set, &before), values(&other, &after));
            assert_ne!(lines(&before.places, file), lines(&after.places, file));
        }
        // The first axle, the sixteen entries from the last on, the second axle.
        let main: Vec<u32> = (4..=19).rev().collect();
        let drift = [main, vec![2, 21], vec![0; 7]].concat();
        assert_eq!(lines(&after.places, DRIFT), drift);
    }
}

#[test]
fn the_line_of_a_refusal_stands_beside_its_entry() {
    // Each with the number of its entry in the file.
    for (number, file, entry, name, value) in [
        (10, AC2, 0, "TargaNominale", ""),
        (10, GAS, 52, "COMinAcc", ""),
        (12, AC2, 1, "TipoVeicolo", "PESANTE"),
        (12, ACC, 5, "NumAssiStazionamento", "2"),
        (13, SUSPENSION, 18, "Differenza%", "6"),
        (19, DRIFT, 4, "DataScadenza", "28022024"),
        (19, OPACITY, 11, "DataScadenzaContagiri", "28022024"),
    ] {
        let mut set = with_file(file);
        set_value(set.slice_mut(file), name, value.as_bytes());
        for turn in [false, true] {
            if turn {
                *set.slice_mut(file) = turned(set.slice(file));
            }
            let alone = read(file, set.slice(file), PLACES);
            let line = lines(&alone.places, file)[entry];
            assert_eq!(refusal(&judged(&set)), (number, file, line), "{name}");
        }
    }
}

#[test]
fn a_written_file_has_the_lines_of_the_table_order() {
    for (file, _) in FIRST_ENTRIES {
        let text = turned(with_file(file).slice(file));
        let alone = read(file, &text, PLACES);
        let axles = alone.answer[3];
        let outcome = written(&text, &alone.places, file, axles, 4000);
        let output = &outcome.output[..outcome.answer[3] as usize];
        let again = read(file, output, PLACES);
        assert_ne!(lines(&alone.places, file), lines(&again.places, file));
        let mut right = match file {
            GAS => [from(2, 46), from(49, 7)].concat(),
            DRIFT => [from(2, 16), vec![19, 21]].concat(),
            SUSPENSION => [from(2, 16), from(19, 3)].concat(),
            _ => from(2, lines(&again.places, file).len() as u32),
        };
        right.resize(lines(&again.places, file).len(), 0);
        assert_eq!(lines(&again.places, file), right);
    }
}

#[test]
fn writing_ignores_the_third_number() {
    for (file, first) in FIRST_ENTRIES {
        let set = with_file(file);
        let text = set.slice(file);
        let alone = read(file, text, PLACES);
        let axles = alone.answer[3];
        let mut outside = alone.places.clone();
        outside[place(first + 1, START)] = u32::MAX;
        let mut wrong_kind = alone.places.clone();
        // Longer than any such value, and with a line end.
        wrong_kind[place(first + 1, LENGTH)] = 70;
        let written = |places: &[u32], output| written(text, places, file, axles, output);
        for (places, output, right) in [
            (&alone.places, 4000, (0, 0, 0)),
            (&alone.places, 0, (18, file, 0)),
            (&outside, 4000, (17, file, 3)),
            (&wrong_kind, 4000, (9, file, 3)),
        ] {
            let before = written(places, output);
            assert_eq!(refusal(&before), right);
            for lines in OtherLines::ALL {
                let others = lines.put(places, text);
                assert_ne!(others[place(first, LINE)], places[place(first, LINE)]);
                let after = written(&others, output);
                assert_eq!(
                    (&after.answer, &after.output),
                    (&before.answer, &before.output)
                );
                assert_eq!(after.places, others, "the places stay");
            }
        }
    }
}

#[test]
fn three_numbers_for_each_entry_must_be_lent() {
    let set = sample();
    let text = set.slice(DRIFT);
    let places = read(DRIFT, text, PLACES).places;
    let calls: [&dyn Fn(usize) -> Outcome; 4] = [
        &|lent| judged_with(&set, places_before(lent)),
        &|lent| read(DRIFT, text, lent),
        &|lent| column(&set, DRIFT, lent),
        &|lent| {
            let mut lent = places_before(lent);
            for (place, number) in lent.iter_mut().zip(&places) {
                *place = *number;
            }
            written(text, &lent, DRIFT, 2, 4000)
        },
    ];
    for call in calls {
        // 388 were enough before.
        for lent in [0, 388, 581] {
            assert_eq!(refusal(&call(lent)), (1, 0, 0), "{lent}");
        }
        for lent in [582, 583, 700] {
            let outcome = call(lent);
            assert_eq!(refusal(&outcome), (0, 0, 0), "{lent}");
            assert_eq!(triple(&outcome.places, 18), triple(&places, 18));
            assert_eq!(outcome.places[582..], places_before(lent)[582..]);
        }
    }
}
