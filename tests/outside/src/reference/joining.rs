//! 02, 8/14: two drift files joined into one.

use super::devices::TIMES;
use super::files::FileRead;
use super::judging::{judge_drift, judge_given};
use super::places::{put_triples, Triple, PLACES};
use super::tables::{DRIFT, MOST_AXLES};
use super::writing::write_file;
use super::Refusal;

/// 02, 8/14: "Make one of them"; "It is written, and its length answered, as in Writing". "The inputs are judged first,
/// the first one before the second"; "Errors: 20 .. after both files are judged", "21, more than nine axles together,
/// after 20, with file and line 0; then 18, likewise, and any refusal leaves the output untouched."
pub fn join(first: &[u8], second: &[u8], output: &mut [u8]) -> Result<usize, Refusal> {
    let first = judge_input(1, first)?;
    let second = judge_input(2, second)?;
    judge_agreement(&first, &second)?;
    let axles = first.axles + second.axles;
    if axles > MOST_AXLES {
        return Err(Refusal::new(21, 0, 0));
    }
    let (text, places) = joined(&first, &second);
    let written = write_file(&text, &places, DRIFT, axles as u32, output);
    // All values are right by their kinds, so that 18 alone is left.
    written.map_err(|refusal| Refusal::new(refusal.number, 0, 0))
}

/// 02, 8/14: "by 11 and 3 to 10; a refusal names input 1 or 2 as its file". 19 is not judged: "The due date is checked
/// when the joined file comes in a set".
fn judge_input(input: u32, text: &[u8]) -> Result<FileRead<'_>, Refusal> {
    judge_given(!text.is_empty(), true, input)?;
    judge_drift(text).map_err(|refusal| Refusal::new(refusal.number, input, refusal.line))
}

/// 02, 8/14: "The values of their [Deriva] sections must agree byte for byte in all but InizioMisura and FineMisura"; 20
/// "at input 2's line of the first such entry in table order".
fn judge_agreement(first: &FileRead, second: &FileRead) -> Result<(), Refusal> {
    let fixed = first.table.sections(0).iter();
    let names = fixed.flat_map(|section| section.entries.iter().map(|entry| entry.name.as_str()));
    for name in names.filter(|name| !TIMES.contains(name)) {
        if first.value(name) != second.value(name) {
            return Err(Refusal::new(20, 2, second.line(name)));
        }
    }
    Ok(())
}

/// 02, 8/14: "The joined file has the first's start, the second's end and both files' axles, the second's numbered on."
/// The text of both files, one behind the other, and places that hold where the joined file's values stand in it.
fn joined(first: &FileRead, second: &FileRead) -> (Vec<u8>, Vec<u32>) {
    let [_, end] = TIMES;
    let in_second = |found: Triple| Triple {
        start: found.start + first.text.len() as u32,
        ..found
    };
    let with_end = first.entries().map(|(entry, found)| match &entry.name {
        name if name == end => in_second(second.entry(end)),
        _ => found,
    });
    let axles = (1..=second.axles).flat_map(|axle| second.axle(axle));
    let numbered_on = axles.copied().map(in_second);
    let mut places = vec![0; PLACES];
    put_triples(&mut places, DRIFT, with_end.chain(numbered_on));
    ([first.text, second.text].concat(), places)
}
