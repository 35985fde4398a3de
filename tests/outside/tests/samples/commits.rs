//! The samples of 02, 9/14: the length quoted, then the file written.

use outside::generator::{value, Size};
use outside::judge::{Call, Outcome, ANSWER};
use outside::mutator::files::{lines_of, turned};
use outside::random::Random;
use outside::reference::kinds::Kind;
use outside::reference::places::{put_triples, Triple};
use outside::reference::tables::{table, AC2, DRIFT, FILES, GAS, OPACITY};
use outside::reference::PLACES;

use super::opacity::diesel;
use super::{made, place, read, refusal, sample, written, FIRST_ENTRIES, LENGTH, START};

/// What a writing is made of.
struct Writing {
    text: Vec<u8>,
    places: Vec<u32>,
    file: u32,
    axles: u32,
}

impl Writing {
    /// A file of a lawful set, read alone.
    fn of(file: u32) -> Writing {
        let set = if file == OPACITY { diesel() } else { sample() };
        let text = turned(set.slice(file));
        let alone = read(file, &text, PLACES);
        Writing {
            text,
            axles: alone.answer[3],
            places: alone.places,
            file,
        }
    }

    fn quote(&self) -> Outcome {
        made(&Call::Quote {
            text: self.text.clone(),
            places: self.places.clone(),
            file: self.file,
            axles: self.axles,
        })
    }

    fn commit(&self, length: u32, output: usize) -> Outcome {
        made(&Call::Commit {
            text: self.text.clone(),
            places: self.places.clone(),
            file: self.file,
            axles: self.axles,
            length,
            output: vec![0xAA; output],
        })
    }

    fn write(&self, output: usize) -> Outcome {
        written(&self.text, &self.places, self.file, self.axles, output)
    }

    /// Quoted, and committed with any length and output, it is refused alike.
    fn assert_refused(&self, right: (u32, u32, u32)) {
        assert_refused(&self.quote(), right);
        for length in [0, 1, 318, self.text.len() as u32, u32::MAX] {
            for output in [0, 1, 4000] {
                assert_refused(&self.commit(length, output), right);
            }
        }
    }
}

/// The length and nothing else in the answer.
fn assert_length(outcome: &Outcome, length: usize) {
    let mut right = [0; ANSWER];
    right[3] = length as u32;
    assert_eq!((outcome.returned, &outcome.answer[..]), (0, &right[..]));
}

fn assert_refused(outcome: &Outcome, right: (u32, u32, u32)) {
    assert_eq!(refusal(outcome), right);
    assert_eq!(outcome.returned, right.0);
    assert_eq!(outcome.answer[3..], [0; ANSWER - 3]);
    assert!(outcome.output.iter().all(|byte| *byte == 0xAA));
}

#[test]
fn the_quoted_file_is_written() {
    for file in FILES {
        let writing = Writing::of(file);
        // The same lines in another order.
        let length = writing.text.len();
        assert_length(&writing.quote(), length);
        for output in [length, length + 1, 4000] {
            let committed = writing.commit(length as u32, output);
            assert_length(&committed, length);
            assert_eq!(committed, writing.write(output));
            assert!(committed.output[length..].iter().all(|byte| *byte == 0xAA));
        }
    }
}

#[test]
fn a_quote_counts_the_values() {
    for file in FILES {
        let writing = Writing::of(file);
        let name_and_end = |line: &Vec<u8>| match line.iter().position(|byte| *byte == b'=') {
            Some(before_value) => before_value + 3,
            None => line.len() + 2,
        };
        let bare = lines_of(&writing.text).iter().map(name_and_end).sum();
        let empty = Writing {
            places: vec![0; PLACES],
            ..writing
        };
        assert_length(&empty.quote(), bare);
        assert_length(&empty.commit(bare as u32, bare), bare);
    }
}

#[test]
fn another_length_is_refused_before_the_output_is_looked_at() {
    for file in FILES {
        let writing = Writing::of(file);
        let right = writing.text.len() as u32;
        let others = [0, 1, right - 1, right + 1, right + 256, right + 65_536];
        for length in others.into_iter().chain([right + (1 << 31), u32::MAX]) {
            for output in [0, length.min(4000) as usize, right as usize, 4000] {
                assert_refused(&writing.commit(length, output), (22, file, 0));
            }
        }
        for output in [0, 1, right as usize - 1] {
            assert_refused(&writing.commit(right, output), (18, file, 0));
            // The old call never answers 22.
            assert_refused(&writing.write(output), (18, file, 0));
        }
    }
}

#[test]
fn the_length_of_another_file_is_refused() {
    for file in FILES {
        let writing = Writing::of(file);
        for other in FILES.into_iter().filter(|other| *other != file) {
            let quoted = Writing::of(other).quote().answer[3];
            assert_ne!(quoted, writing.quote().answer[3]);
            assert_refused(&writing.commit(quoted, 4000), (22, file, 0));
        }
    }
}

#[test]
fn quotes_and_commits_judge_1_16_17_9_in_this_order() {
    let mut writing = Writing::of(AC2);
    let short = Writing {
        places: writing.places[..PLACES - 1].to_vec(),
        file: 6,
        axles: 1,
        ..Writing::of(AC2)
    };
    short.assert_refused((1, 0, 0));
    for (file, axles) in [(0, 0), (6, 0), (8, 0), (AC2, 1), (DRIFT, 0), (DRIFT, 10)] {
        let wrong = Writing {
            file,
            axles,
            ..Writing::of(AC2)
        };
        wrong.assert_refused((16, file, 0));
    }
    writing.places[place(4, LENGTH)] -= 1; // DataPrimaImm of seven digits.
    writing.places[place(11, START)] = 1 << 20; // PosAssiStaz outside.
    writing.assert_refused((17, AC2, 13));
    writing.places[place(11, START)] = 0;
    writing.places[place(11, LENGTH)] = 0;
    writing.assert_refused((9, AC2, 6));
    // PosAssiStaz, of nine letters, is empty now.
    writing.places[place(4, LENGTH)] += 1;
    let length = writing.text.len() - 9;
    assert_length(&writing.quote(), length);
    assert_refused(&writing.commit(length as u32 + 9, 0), (22, AC2, 0));
    assert_refused(&writing.commit(length as u32, length - 1), (18, AC2, 0));
    assert_length(&writing.commit(length as u32, length), length);
}

#[test]
fn the_third_number_and_triples_of_others_are_not_looked_at() {
    for (file, first) in FIRST_ENTRIES {
        let writing = Writing::of(file);
        let mut other = Writing::of(file);
        let entries = table(file).entry_count(writing.axles as usize);
        for (at, numbers) in other.places.chunks_exact_mut(3).enumerate() {
            numbers[2] = !numbers[2];
            if !(first..first + entries).contains(&at) {
                numbers.fill(u32::MAX);
            }
        }
        let length = writing.text.len() as u32;
        assert_eq!(other.quote().answer, writing.quote().answer);
        let [before, after] = [writing, other].map(|writing| writing.commit(length, 4000));
        assert_eq!(before.answer, after.answer);
        assert_eq!(before.output, after.output);
    }
}

/// All values of a file as long as they can be.
fn longest(file: u32) -> Writing {
    let table = table(file);
    let axles = table.sections.len() - table.fixed;
    let mut random = Random::new(1);
    let mut text = Vec::new();
    let mut triples = Vec::new();
    for entry in table.sections.iter().flat_map(|section| &section.entries) {
        let value = match entry.kind {
            Kind::Word(words) => {
                let longest = words.iter().max_by_key(|word| word.len());
                longest.map_or(Vec::new(), |word| word.as_bytes().to_vec())
            }
            kind => value(&mut random, kind, Size::Longest),
        };
        triples.push(Triple {
            start: text.len() as u32,
            length: value.len() as u32,
            line: 0,
        });
        text.extend(value);
    }
    let mut places = vec![0; PLACES];
    put_triples(&mut places, file, triples);
    Writing {
        text,
        places,
        file,
        axles: axles as u32,
    }
}

#[test]
fn the_longest_files() {
    let lengths = [471, 396, 1401, 1748, 3597, 2957];
    assert_eq!(FILES[4], GAS);
    for (file, length) in FILES.into_iter().zip(lengths) {
        let writing = longest(file);
        assert_length(&writing.quote(), length);
        let committed = writing.commit(length as u32, length);
        assert_length(&committed, length);
        assert_eq!(committed, writing.write(length));
        assert_refused(&writing.commit(length as u32, length - 1), (18, file, 0));
    }
}
