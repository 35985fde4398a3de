//! 01, Judging: a whole set, and one file alone.

use super::bookings::{judge_ac2, judge_acc};
use super::devices::{self, judge_devices};
use super::due::{due_column, is_gas_due, is_l, is_opacity_due, judge_due, judge_due_in_drift};
use super::files::{read_file, FileRead};
use super::identification::judge_identification;
use super::kinds::{number, revs};
use super::tables::{AC2, ACC, DRIFT, FILES, GAS, IDENTIFICATION, OPACITY, SUSPENSION};
use super::{Acceptance, FileAcceptance, Refusal, PLACES};

/// 01: "A set is a stem (the files' common name) and six lent byte slices"; 02, 2/14: "Add slice 7, the opacity file".
#[derive(Clone, Copy)]
pub struct Slices<'a> {
    pub stem: &'a [u8],
    pub ac2: &'a [u8],
    pub acc: &'a [u8],
    pub drift: &'a [u8],
    pub suspension: &'a [u8],
    pub gas: &'a [u8],
    pub identification: &'a [u8],
    pub opacity: &'a [u8],
}

/// The files of an accepted set that were read.
struct SetRead<'a> {
    ac2: FileRead<'a>,
    acc: Option<FileRead<'a>>,
    drift: Option<FileRead<'a>>,
    suspension: Option<FileRead<'a>>,
    gas: Option<FileRead<'a>>,
    opacity: Option<FileRead<'a>>,
}

/// 01, Judging: "The answer is acceptance .. or a refusal"; the places are filled. "Order:
/// 1, 2, then slices 1 to 6"; 02, 2/14: opacity "after slice 6".
pub fn judge_set(set: Slices, places: &mut [u32]) -> Result<Acceptance, Refusal> {
    clear_places(places)?;
    let read = read_set(set)?;
    let files = [
        Some(&read.ac2),
        read.acc.as_ref(),
        read.drift.as_ref(),
        read.suspension.as_ref(),
        read.gas.as_ref(),
        read.opacity.as_ref(),
    ];
    let mut names_compared = 0;
    for file in files.into_iter().flatten() {
        file.fill_places(places);
        // 02, 4/14: "A file that is not read adds nothing."
        names_compared += file.names_compared;
    }
    let axles = |file: &Option<FileRead>| file.as_ref().map_or(0, |f| f.axles as u32);
    let mark = |file: &Option<FileRead>| file.as_ref().is_some_and(|f| f.is_filled("CodErrore"));
    let seconds = |file: &Option<FileRead>| file.as_ref().map_or(0, devices::length);
    Ok(Acceptance {
        drift_axles: axles(&read.drift),
        suspension_axles: axles(&read.suspension),
        drift_mark: mark(&read.drift),
        suspension_mark: mark(&read.suspension),
        gas_mark: mark(&read.gas),
        opacity_mark: mark(&read.opacity),
        by_hand: read.gas.as_ref().is_some_and(speed_by_hand),
        names_compared,
        drift_seconds: seconds(&read.drift),
        suspension_seconds: seconds(&read.suspension),
        gas_seconds: seconds(&read.gas),
        opacity_seconds: seconds(&read.opacity),
    })
}

/// 02, 1/14: whether `#` stood before gas's idle speed; 02, 2/14: "the mark of 1/14 stays with gas alone".
fn speed_by_hand(read: &FileRead) -> bool {
    read.table.file == GAS && revs(read.value("NumGiriMotoreMin")).is_some_and(|revs| revs.by_hand)
}

/// 01, row 2: "stem not two capitals, six digits (file 0)".
fn judge_stem(stem: &[u8]) -> Result<(), Refusal> {
    let right = stem.len() == 8
        && stem[..2].iter().all(u8::is_ascii_uppercase)
        && stem[2..].iter().all(u8::is_ascii_digit);
    if right {
        Ok(())
    } else {
        Err(Refusal::new(2, 0, 0))
    }
}

fn read_set(set: Slices) -> Result<SetRead, Refusal> {
    judge_stem(set.stem)?;
    let ac2 = judge_slice_1(set.ac2)?;
    let acc = judge_slice_2(set.acc, set.stem, &ac2)?;
    let drift = judge_slice_3(set.drift)?;
    let suspension = judge_slice_4(set.suspension, &ac2)?;
    let gas = judge_slice_5(set.gas, &ac2)?;
    judge_slice_6(set.identification, gas.as_ref())?;
    let opacity = judge_slice_7(set.opacity, &ac2)?;
    Ok(SetRead {
        ac2,
        acc,
        drift,
        suspension,
        gas,
        opacity,
    })
}

/// 01, row 11: "slice missing or not due".
pub fn judge_given(given: bool, due: bool, file: u32) -> Result<(), Refusal> {
    if given == due {
        Ok(())
    } else {
        Err(Refusal::new(11, file, 0))
    }
}

/// New booking: always due; 3 to 10, then 12.
fn judge_slice_1(text: &[u8]) -> Result<FileRead<'_>, Refusal> {
    judge_given(!text.is_empty(), true, AC2)?;
    let ac2 = read_file(AC2, text)?;
    judge_due(&ac2, &ac2)?;
    judge_ac2(&ac2)?;
    Ok(ac2)
}

/// Old booking. 01, row 11: "ACC given with L and a stem whose first digit isn't 9";
/// Bookings: "With category L it is not read, even if too long."
fn judge_slice_2<'a>(
    text: &'a [u8],
    stem: &[u8],
    ac2: &FileRead,
) -> Result<Option<FileRead<'a>>, Refusal> {
    if text.is_empty() {
        return Ok(None);
    }
    if is_l(ac2) {
        judge_given(true, stem[2] == b'9', ACC)?;
        return Ok(None);
    }
    let acc = read_file(ACC, text)?;
    judge_due(&acc, ac2)?;
    judge_acc(&acc, ac2)?;
    Ok(Some(acc))
}

/// Drift: optional; 19 at its end.
fn judge_slice_3(text: &[u8]) -> Result<Option<FileRead<'_>>, Refusal> {
    if text.is_empty() {
        return Ok(None);
    }
    let drift = judge_drift(text)?;
    judge_devices(&drift)?;
    Ok(Some(drift))
}

/// A drift file, 3 to 10: all that is asked of it but 19.
pub fn judge_drift(text: &[u8]) -> Result<FileRead<'_>, Refusal> {
    let drift = read_file(DRIFT, text)?;
    judge_due_in_drift(&drift)?;
    Ok(drift)
}

/// Suspension: optional; 19 "after 10 and before 12 or 13 of that file" (02, 5/14), 13 at its end.
fn judge_slice_4<'a>(text: &'a [u8], ac2: &FileRead) -> Result<Option<FileRead<'a>>, Refusal> {
    if text.is_empty() {
        return Ok(None);
    }
    let suspension = read_file(SUSPENSION, text)?;
    judge_due(&suspension, ac2)?;
    judge_devices(&suspension)?;
    judge_differences(&suspension)?;
    Ok(Some(suspension))
}

/// 01, Results: "Differenza% is the larger grip less the smaller (ours)"; row 13: "its line,
/// lowest such axle".
fn judge_differences(suspension: &FileRead) -> Result<(), Refusal> {
    for axle in 1..=suspension.axles {
        let found = suspension.axle(axle);
        let [left, right, difference] = [0, 1, 2].map(|at| number(suspension.bytes(found[at])));
        if difference != left.abs_diff(right) {
            return Err(Refusal::new(13, SUSPENSION, found[2].line));
        }
    }
    Ok(())
}

/// Gas: given exactly when it is due.
fn judge_slice_5<'a>(text: &'a [u8], ac2: &FileRead) -> Result<Option<FileRead<'a>>, Refusal> {
    judge_when_due(GAS, text, is_gas_due(ac2), ac2)
}

/// Opacity: likewise.
fn judge_slice_7<'a>(text: &'a [u8], ac2: &FileRead) -> Result<Option<FileRead<'a>>, Refusal> {
    judge_when_due(OPACITY, text, is_opacity_due(ac2), ac2)
}

/// A file that is given exactly when it is due: 11, then 3 to 10, then 19.
fn judge_when_due<'a>(
    file: u32,
    text: &'a [u8],
    due: bool,
    ac2: &FileRead,
) -> Result<Option<FileRead<'a>>, Refusal> {
    judge_given(!text.is_empty(), due, file)?;
    if !due {
        return Ok(None);
    }
    let read = read_file(file, text)?;
    judge_due(&read, ac2)?;
    judge_devices(&read)?;
    Ok(Some(read))
}

/// 01, Due entries: "slice 6 exactly when gas has RS SENZA ESITO". "Slice 6: 11, 14, 15."
fn judge_slice_6(bytes: &[u8], gas: Option<&FileRead>) -> Result<(), Refusal> {
    let serial = gas.filter(|gas| gas.value("TipoCollegamento") == b"RS SENZA ESITO");
    judge_given(!bytes.is_empty(), serial.is_some(), IDENTIFICATION)?;
    match serial {
        Some(gas) => judge_identification(bytes, gas),
        None => Ok(()),
    }
}

/// 01, Writing: "One file can also be read alone, by its number: 1, 16 for the file, 11
/// where it is empty, then 3 to 9 as above, with the same places and axle count; other
/// files' pairs hold 0, after a refusal but 1 all pairs do".
pub fn read_alone(file: u32, text: &[u8], places: &mut [u32]) -> Result<FileAcceptance, Refusal> {
    clear_places(places)?;
    let read = read_by_number(file, text)?;
    read.fill_places(places);
    Ok(FileAcceptance {
        axles: read.axles as u32,
        by_hand: speed_by_hand(&read),
    })
}

/// 01, row 1: "places too short; they stay (file 0)"; otherwise all triples are 0 at first.
fn clear_places(places: &mut [u32]) -> Result<(), Refusal> {
    if places.len() < PLACES {
        return Err(Refusal::new(1, 0, 0));
    }
    places[..PLACES].fill(0);
    Ok(())
}

/// One file alone: 16, which lets file 7 through by 02, 2/14, 11, then 3 to 9.
fn read_by_number(file: u32, text: &[u8]) -> Result<FileRead<'_>, Refusal> {
    if !FILES.contains(&file) {
        return Err(Refusal::new(16, file, 0));
    }
    if text.is_empty() {
        return Err(Refusal::new(11, file, 0));
    }
    read_file(file, text)
}

/// What 01, Due entries, asks of each entry of one file: AC2 read alone, then the file, both as by `read_alone`; 18
/// where the column is shorter than the file's entries. Axle count and number of entries. An old booking with category L
/// is not read and has none.
pub fn due_alone(
    file: u32,
    ac2: &[u8],
    text: &[u8],
    places: &mut [u32],
    column: &mut [u32],
) -> Result<(u32, u32), Refusal> {
    clear_places(places)?;
    let ac2 = read_by_number(AC2, ac2)?;
    if file == ACC && is_l(&ac2) {
        return Ok((0, 0));
    }
    let read = read_by_number(file, text)?;
    let due = due_column(&read, &ac2);
    if column.len() < due.len() {
        return Err(Refusal::new(18, file, 0));
    }
    read.fill_places(places);
    column[..due.len()].copy_from_slice(&due);
    Ok((read.axles as u32, due.len() as u32))
}
