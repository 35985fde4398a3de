//! The quotes and commits that a run must meet (02, 9/14).

use crate::judge::Call;
use crate::met::{Met, Wanted, COMMIT, QUOTE, WRITE};
use crate::mutator::commits::{Length, Output};
use crate::mutator::writings::named_length;
use crate::reference::tables::FILES;

/// The numbers by which a quote answers, acceptance among them.
const QUOTED: [u32; 5] = [0, 1, 9, 16, 17];

/// A file as handed in.
fn named(file: u32) -> String {
    if FILES.contains(&file) {
        format!("file {file}")
    } else {
        NO_FILE.to_string()
    }
}

const NO_FILE: &str = "a file that is not written";

fn quoted(file: &str, number: u32) -> String {
    format!("{file}, answered by {number}")
}

fn committed(file: &str, length: Length, output: Output, number: u32) -> String {
    let (length, output) = (length.name(), output.name());
    format!("{file}, {length} and {output}, answered by {number}")
}

fn of_other(file: &str, other: u32) -> String {
    format!("{file}, the length that was quoted for file {other}, answered by 22")
}

/// A writing that is refused by 18, and then lent an output of the quoted length.
fn at_quoted_length(file: &str) -> String {
    format!("{file}, an output of the quoted length in place of one too short")
}

/// What a run must meet.
pub fn wanted() -> Vec<Wanted> {
    let mut wanted = vec![(QUOTE, quoted(NO_FILE, 16)), (COMMIT, quoted(NO_FILE, 16))];
    for file in FILES.map(named) {
        wanted.extend(QUOTED.map(|number| (QUOTE, quoted(&file, number))));
        wanted.push((WRITE, at_quoted_length(&file)));
        for (length, output) in lengths_and_outputs() {
            for number in QUOTED {
                let number = answered(number, length, output);
                wanted.push((COMMIT, committed(&file, length, output, number)));
            }
        }
        let others = FILES.into_iter().filter(|other| named(*other) != file);
        wanted.extend(others.map(|other| (COMMIT, of_other(&file, other))));
    }
    wanted
}

fn lengths_and_outputs() -> impl Iterator<Item = (Length, Output)> {
    let lengths = Length::ALL.into_iter();
    lengths.flat_map(|length| Output::ALL.map(|output| (length, output)))
}

/// By what number a commit answers after a quote that answered by this one: "22, length differs from the quote, after 9 and
/// before 18".
fn answered(quoted: u32, length: Length, output: Output) -> u32 {
    match (quoted, length, output) {
        (0, Length::Quoted, Output::Longer | Output::Just) => 0,
        (0, Length::Quoted, _) => 18,
        (0, _, _) => 22,
        _ => quoted,
    }
}

/// Notes the answer to a quote.
pub fn note_quote(met: &mut Met, call: &Call, number: u32) {
    if let Call::Quote { file, .. } = call {
        met.count(QUOTE, quoted(&named(*file), number));
    }
}

/// Notes the answer to a commit, with this kind of output.
pub fn note_commit(met: &mut Met, call: &Call, output: Output, number: u32) {
    let Call::Commit {
        places,
        file,
        axles,
        length,
        ..
    } = call
    else {
        return;
    };
    let name = named(*file);
    if name == NO_FILE {
        met.count(COMMIT, quoted(&name, number));
        return;
    }
    let length = Length::of(*length, named_length(places, *file, *axles) as u32);
    met.count(COMMIT, committed(&name, length, output, number));
}

/// Notes a commit with the length that was quoted for another file.
pub fn note_other(met: &mut Met, file: u32, other: u32) {
    met.count(COMMIT, of_other(&named(file), other));
}

/// Notes a writing to an output of the quoted length, after an output that was too short.
pub fn note_at_quoted_length(met: &mut Met, file: u32) {
    met.count(WRITE, at_quoted_length(&named(file)));
}
