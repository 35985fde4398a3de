//! The samples of 02, 4/14: the number of entry names compared.

use outside::judge::{column_before, make, places_before, Call, Reference, Set, NAMES_COMPARED};
use outside::mutator::files::turned;
use outside::reference::files::read_file;
use outside::reference::tables::{
    table, AC2, ACC, DRIFT, FILES, GAS, IDENTIFICATION, OPACITY, SUSPENSION,
};
use outside::reference::PLACES;
use outside::told_apart::{tried_in, Tried};

use super::opacity::diesel;
use super::{
    assert_accepted, assert_refused, judged, motorcycle, read, replace, sample, text, written,
};

/// What a main section of sixteen entries adds.
const SIXTEEN: u32 = 136;

/// What the files of the samples add: drift has 2 axles, suspension 1.
const FILES_OF_SAMPLES: [(u32, u32); 6] = [
    (AC2, 78),
    (ACC, 21),
    (DRIFT, SIXTEEN + 2),
    (SUSPENSION, SIXTEEN + 6),
    (GAS, 1_081 + 28),
    (OPACITY, 1_540),
];

fn names_compared(set: &Set) -> u32 {
    assert_accepted(set);
    judged(set).answer[NAMES_COMPARED]
}

/// What these files of the samples add.
fn sum_of(files: &[u32]) -> u32 {
    let given = FILES_OF_SAMPLES
        .iter()
        .filter(|(file, _)| files.contains(file));
    given.map(|(_, sum)| sum).sum()
}

/// A set without these files.
fn without(mut set: Set, files: &[u32]) -> Set {
    for file in files {
        set.slice_mut(*file).clear();
    }
    set
}

/// The texts of the samples, by file.
fn sample_text(file: u32) -> Vec<u8> {
    let set = if file == OPACITY { diesel() } else { sample() };
    set.slice(file).to_vec()
}

#[test]
fn each_file_adds_what_its_sections_add() {
    for (file, sum) in FILES_OF_SAMPLES {
        let text = sample_text(file);
        for text in [&text, &turned(&text)] {
            let read = read_file(file, text).expect("a right file");
            assert_eq!(read.names_compared, sum, "file {file}");
        }
    }
}

#[test]
fn a_section_of_n_entries_adds_the_numbers_1_to_n() {
    let added = |file: u32| -> Vec<u32> {
        let sections = table(file).sections.iter();
        let counts = sections.map(|section| section.entries.len() as u32);
        counts.map(|count| (1..=count).sum()).collect()
    };
    assert_eq!(added(AC2), [78]);
    assert_eq!(added(ACC), [21]);
    assert_eq!(added(DRIFT), [&[SIXTEEN][..], &[1; 9]].concat());
    assert_eq!(added(SUSPENSION), [&[SIXTEEN][..], &[6; 9]].concat());
    assert_eq!(added(GAS), [1_081, 28]);
    assert_eq!(added(OPACITY), [1_540]);
}

#[test]
fn a_set_adds_what_its_files_add() {
    assert_eq!(
        names_compared(&sample()),
        sum_of(&[AC2, ACC, DRIFT, SUSPENSION, GAS])
    );
    assert_eq!(
        names_compared(&diesel()),
        sum_of(&[AC2, ACC, DRIFT, SUSPENSION, OPACITY])
    );
    let all = names_compared(&sample());
    for file in [ACC, DRIFT, SUSPENSION] {
        let set = without(sample(), &[file]);
        assert_eq!(names_compared(&set), all - sum_of(&[file]), "file {file}");
    }
    let optional = [ACC, DRIFT, SUSPENSION];
    assert_eq!(
        names_compared(&without(diesel(), &optional)),
        sum_of(&[AC2, OPACITY])
    );
}

#[test]
fn a_set_with_ac2_alone() {
    let mut set = without(diesel(), &[ACC, DRIFT, SUSPENSION, OPACITY]);
    let diesel = "=DIESEL\nTurbo=S\nCorrettorePressione=N";
    replace(&mut set, AC2, diesel, "=GPL\nTurbo=\nCorrettorePressione=");
    assert_eq!(names_compared(&set), 78);
}

#[test]
fn the_order_of_lines_adds_nothing() {
    for set in [sample(), diesel()] {
        let mut all = set.clone();
        for file in FILES {
            let mut one = set.clone();
            *one.slice_mut(file) = turned(set.slice(file));
            assert_eq!(names_compared(&one), names_compared(&set), "file {file}");
            *all.slice_mut(file) = turned(set.slice(file));
        }
        assert_eq!(judged(&all).answer, judged(&set).answer);
    }
}

#[test]
fn each_axle_adds_the_same() {
    let alone = without(diesel(), &[ACC, DRIFT, SUSPENSION]);
    let before = names_compared(&alone);
    let (mut drift, mut suspension) = (alone.clone(), alone);
    *drift.slice_mut(DRIFT) = sample_text(DRIFT);
    *suspension.slice_mut(SUSPENSION) = sample_text(SUSPENSION);
    assert_eq!(names_compared(&drift), before + SIXTEEN + 2);
    assert_eq!(names_compared(&suspension), before + SIXTEEN + 6);
    for axle in 2..=9 {
        if axle > 2 {
            let lines = format!("[DerivaAsse_{axle}]\nDeriva=1.00\n");
            drift.slice_mut(DRIFT).extend(text(&lines));
        }
        let grips = "Aderenza%Sx=60\nAderenza%Dx=55\nDifferenza%=5\n";
        let lines = format!("[SospensioniAsse_{axle}]\n{grips}");
        suspension.slice_mut(SUSPENSION).extend(text(&lines));
        assert_eq!(names_compared(&drift), before + SIXTEEN + axle);
        assert_eq!(names_compared(&suspension), before + SIXTEEN + 6 * axle);
    }
}

#[test]
fn an_old_booking_that_is_not_read_adds_nothing() {
    let mut set = motorcycle();
    set.stem = b"AA912345".to_vec();
    let files = [AC2, DRIFT, SUSPENSION, GAS];
    assert_eq!(names_compared(&set), sum_of(&files));
    *set.slice_mut(ACC) = vec![b'x'; 16_385];
    assert_eq!(names_compared(&set), sum_of(&files));
    assert_eq!(names_compared(&without(set, &[ACC])), sum_of(&files));
}

#[test]
fn the_identification_answer_adds_nothing() {
    let mut set = without(sample(), &[IDENTIFICATION]);
    replace(&mut set, GAS, "RS SENZA ESITO", "DIR");
    replace(&mut set, GAS, "ChecksumRS=c", "ChecksumRS=");
    assert_eq!(names_compared(&set), names_compared(&sample()));
}

#[test]
fn a_refusal_has_no_number() {
    // All files but the last are right, and the last has all its entries.
    let mut set = diesel();
    replace(&mut set, OPACITY, "MarcaOpacimetro=MO", "MarcaOpacimetro=");
    assert_refused(&set, (10, OPACITY, 2));
    let mut set = sample();
    set.slice_mut(IDENTIFICATION).clear();
    assert_refused(&set, (11, IDENTIFICATION, 0));
}

#[test]
fn no_other_call_has_the_number() {
    for file in FILES {
        let text = sample_text(file);
        let alone = read(file, &text, PLACES);
        assert_eq!((alone.returned, alone.answer[NAMES_COMPARED]), (0, 0));
        let outcome = written(&text, &alone.places, file, alone.answer[3], 4000);
        assert_eq!((outcome.returned, outcome.answer[NAMES_COMPARED]), (0, 0));
        let call = Call::Due {
            file,
            ac2: sample_text(AC2),
            text,
            places: places_before(PLACES),
            column: column_before(55),
        };
        let outcome = make(&Reference, &call);
        assert_eq!((outcome.returned, outcome.answer[NAMES_COMPARED]), (0, 0));
    }
}

#[test]
fn twice_the_sum_is_at_most_56_times_the_entry_lines() {
    for (file, sum) in FILES_OF_SAMPLES {
        let text = sample_text(file);
        let read = read_file(file, &text).expect("a right file");
        let most = 56 * read.entries().count() as u32;
        // Opacity alone reaches it.
        assert_eq!(2 * sum == most, file == OPACITY);
        assert!(2 * sum <= most, "file {file}");
    }
}

#[test]
fn names_told_apart_by_length_and_first_byte() {
    // AnnoPrimaImm and Alimentazione_1 begin alike, and differ in length.
    let [acc] = &table(ACC).sections[..] else {
        panic!("one section");
    };
    let right = Tried {
        names: 21,
        others: 15,
        told_apart: 15,
    };
    assert_eq!(tried_in(acc), right);
    // Aderenza%Sx and Aderenza%Dx alone are alike.
    let right = Tried {
        names: 6,
        others: 3,
        told_apart: 2,
    };
    assert_eq!(tried_in(&table(SUSPENSION).sections[1]), right);
}
