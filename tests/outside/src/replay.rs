//! A call as one line of text, to be printed at a difference and made again.
//!
//! - `judge stem slice1 .. slice7 | places lent`
//! - `read file text | places lent`
//! - `write text file axles | places | output size`
//! - `quote text file axles | places`, `commit text file axles | places | length | output size`
//! - `due file ac2 text | places lent | column lent`
//! - `entry_name file entry | output size`, `heading_name file section | output size`
//! - `kind file entry`, `word file entry word | output size`
//! - `join first second | output size`
//!
//! Bytes as hexadecimal digits, `-` for none.

use crate::hex::{from_hex, to_hex};
use crate::judge::{column_before, places_before, Call, Set, OUTPUT_BEFORE};

pub fn numbers_to_text(numbers: &[u32]) -> String {
    if numbers.is_empty() {
        return "-".to_string();
    }
    let numbers: Vec<String> = numbers.iter().map(u32::to_string).collect();
    numbers.join(" ")
}

pub fn number_from_text(text: &str) -> Result<u32, String> {
    text.trim()
        .parse()
        .map_err(|_| format!("no number: {text}"))
}

pub fn numbers_from_text(text: &str) -> Result<Vec<u32>, String> {
    if text.trim() == "-" {
        return Ok(Vec::new());
    }
    text.split_whitespace().map(number_from_text).collect()
}

/// Words of hexadecimal digits.
fn words_from_text(text: &str) -> Result<Vec<Vec<u8>>, String> {
    text.split_whitespace().map(from_hex).collect()
}

/// The two inputs of a joining, hexadecimal, as in the vectors.
pub fn inputs_from_text(text: &str) -> Result<[Vec<u8>; 2], String> {
    let words = words_from_text(text)?;
    words.try_into().map_err(|_| "not two inputs".to_string())
}

/// Text, file and axle count of a writing, as in the vectors.
pub fn writing_from_text(text: &str) -> Result<(Vec<u8>, u32, u32), String> {
    let words: Vec<&str> = text.split_whitespace().collect();
    let [text, file, axles] = words.as_slice() else {
        return Err("not text, file and axles".to_string());
    };
    Ok((
        from_hex(text)?,
        number_from_text(file)?,
        number_from_text(axles)?,
    ))
}

/// The stem and seven slices, hexadecimal, as in the vectors.
pub fn set_from_text(text: &str) -> Result<Set, String> {
    let words = words_from_text(text)?;
    let (stem, slices) = words.split_first().ok_or("no stem")?;
    Ok(Set {
        stem: stem.clone(),
        slices: slices.to_vec().try_into().map_err(|_| "not seven slices")?,
    })
}

pub fn to_text(call: &Call) -> String {
    match call {
        Call::Judge { set, places } => {
            let slices: Vec<String> = set.slices.iter().map(|slice| to_hex(slice)).collect();
            format!(
                "judge {} {} | {}",
                to_hex(&set.stem),
                slices.join(" "),
                places.len()
            )
        }
        Call::Read { file, text, places } => {
            format!("read {file} {} | {}", to_hex(text), places.len())
        }
        Call::Write {
            text,
            places,
            file,
            axles,
            output,
        } => format!(
            "write {} {file} {axles} | {} | {}",
            to_hex(text),
            numbers_to_text(places),
            output.len()
        ),
        Call::Quote {
            text,
            places,
            file,
            axles,
        } => format!(
            "quote {} {file} {axles} | {}",
            to_hex(text),
            numbers_to_text(places)
        ),
        Call::Commit {
            text,
            places,
            file,
            axles,
            length,
            output,
        } => format!(
            "commit {} {file} {axles} | {} | {length} | {}",
            to_hex(text),
            numbers_to_text(places),
            output.len()
        ),
        Call::Due {
            file,
            ac2,
            text,
            places,
            column,
        } => format!(
            "due {file} {} {} | {} | {}",
            to_hex(ac2),
            to_hex(text),
            places.len(),
            column.len()
        ),
        Call::EntryName {
            file,
            entry,
            output,
        } => format!("entry_name {file} {entry} | {}", output.len()),
        Call::HeadingName {
            file,
            section,
            output,
        } => format!("heading_name {file} {section} | {}", output.len()),
        Call::Kind { file, entry } => format!("kind {file} {entry}"),
        Call::Word {
            file,
            entry,
            word,
            output,
        } => format!("word {file} {entry} {word} | {}", output.len()),
        Call::Join {
            first,
            second,
            output,
        } => format!(
            "join {} {} | {}",
            to_hex(first),
            to_hex(second),
            output.len()
        ),
    }
}

fn two_numbers(text: &str) -> Result<(u32, u32), String> {
    match numbers_from_text(text)?.as_slice() {
        [first, second] => Ok((*first, *second)),
        _ => Err(format!("not two numbers: {text}")),
    }
}

pub fn from_text(line: &str) -> Result<Call, String> {
    let (word, rest) = line.split_once(' ').ok_or("no call")?;
    let columns: Vec<&str> = rest.split('|').map(str::trim).collect();
    let length = |text: &str| number_from_text(text).map(|n| n as usize);
    let lent = |text: &str| length(text).map(places_before);
    let output = |text: &str| length(text).map(|n| vec![OUTPUT_BEFORE; n]);
    match (word, columns.as_slice()) {
        ("judge", [set, places]) => Ok(Call::Judge {
            set: set_from_text(set)?,
            places: lent(places)?,
        }),
        ("read", [file_and_text, places]) => {
            let (file, text) = file_and_text.split_once(' ').ok_or("no text")?;
            Ok(Call::Read {
                file: number_from_text(file)?,
                text: from_hex(text.trim())?,
                places: lent(places)?,
            })
        }
        ("write", [what, places, size]) => {
            let (text, file, axles) = writing_from_text(what)?;
            Ok(Call::Write {
                text,
                places: numbers_from_text(places)?,
                file,
                axles,
                output: output(size)?,
            })
        }
        ("quote", [what, places]) => {
            let (text, file, axles) = writing_from_text(what)?;
            Ok(Call::Quote {
                text,
                places: numbers_from_text(places)?,
                file,
                axles,
            })
        }
        ("commit", [what, places, length, size]) => {
            let (text, file, axles) = writing_from_text(what)?;
            Ok(Call::Commit {
                text,
                places: numbers_from_text(places)?,
                file,
                axles,
                length: number_from_text(length)?,
                output: output(size)?,
            })
        }
        ("due", [what, places, column]) => {
            let words: Vec<&str> = what.split_whitespace().collect();
            let [file, ac2, text] = words.as_slice() else {
                return Err("not file and two texts".to_string());
            };
            Ok(Call::Due {
                file: number_from_text(file)?,
                ac2: from_hex(ac2)?,
                text: from_hex(text)?,
                places: lent(places)?,
                column: length(column).map(column_before)?,
            })
        }
        ("entry_name", [numbers, size]) => {
            let (file, entry) = two_numbers(numbers)?;
            let output = output(size)?;
            Ok(Call::EntryName {
                file,
                entry,
                output,
            })
        }
        ("heading_name", [numbers, size]) => {
            let (file, section) = two_numbers(numbers)?;
            let output = output(size)?;
            Ok(Call::HeadingName {
                file,
                section,
                output,
            })
        }
        ("kind", [numbers]) => {
            let (file, entry) = two_numbers(numbers)?;
            Ok(Call::Kind { file, entry })
        }
        ("word", [numbers, size]) => {
            let numbers = numbers_from_text(numbers)?;
            let [file, entry, word] = *numbers.as_slice() else {
                return Err("not file, entry and word".to_string());
            };
            let output = output(size)?;
            Ok(Call::Word {
                file,
                entry,
                word,
                output,
            })
        }
        ("join", [inputs, size]) => {
            let [first, second] = inputs_from_text(inputs)?;
            let output = output(size)?;
            Ok(Call::Join {
                first,
                second,
                output,
            })
        }
        _ => Err(format!("no call of these columns: {word}")),
    }
}
