//! The places of the binding beside those of the implementation: start, length and line of each entry.
#![cfg(feature = "library")]

use mctc::Places;
use outside::comparison::{read_case, set_case};
use outside::judge::{make, Call, Outcome, Reference};
use outside::library::set_of;
use outside::reference::places::{triples_of, Triple};
use outside::reference::tables::FILES;
use outside::reference::PLACES;

const CALLS: u64 = 2_000;

/// Asserts that the binding's places hold what the implementation's do, in and out of range.
fn assert_same(found: &Places, right: &Outcome, seed: u64) {
    assert_eq!(found.numbers()[..], right.places[..PLACES], "seed {seed}");
    for file in 0..10 {
        let triples: Vec<Triple> = match FILES.contains(&file) {
            true => triples_of(file, &right.places).collect(),
            false => Vec::new(),
        };
        for entry in 0..60 {
            let triple = triples.get(entry).filter(|triple| triple.is_used());
            let value = triple.map(|triple| {
                let start = triple.start as usize;
                start..start + triple.length as usize
            });
            let line = triple.map(|triple| triple.line);
            let both = (found.value(file, entry), found.line(file, entry));
            assert_eq!(
                both,
                (value, line),
                "seed {seed}, file {file}, entry {entry}"
            );
        }
    }
}

#[test]
fn as_many_places_are_lent() {
    assert_eq!(mctc::PLACES, PLACES);
    assert_eq!(Places::default().numbers()[..], [0; PLACES]);
}

#[test]
fn the_places_of_sets() {
    let mut accepted = 0;
    for seed in 0..CALLS {
        let Call::Judge { set, .. } = set_case(seed).call else {
            panic!("a set");
        };
        let right = Reference.judge(&set);
        let mut places = Places::default();
        let found = mctc::judge(&set_of(&set), &mut places);
        assert_eq!(found.is_ok(), right.accepted(), "seed {seed}");
        assert_same(&places, &right, seed);
        accepted += u32::from(right.accepted());
    }
    assert!(accepted > 100);
}

#[test]
fn the_places_of_files_read_alone() {
    let mut accepted = 0;
    for seed in 0..CALLS {
        let Call::Read { file, text, .. } = read_case(seed).call else {
            panic!("a file");
        };
        let call = Call::Read {
            file,
            text: text.clone(),
            places: vec![0; PLACES],
        };
        let right = make(&Reference, &call);
        let mut places = Places::default();
        let found = mctc::read(file, &text, &mut places);
        assert_eq!(found.is_ok(), right.accepted(), "seed {seed}");
        assert_same(&places, &right, seed);
        accepted += u32::from(right.accepted());
    }
    assert!(accepted > 100);
}
