//! Bytes, names, lines and counts as they are printed.

use std::ffi::OsStr;
use std::os::unix::ffi::OsStrExt;

/// 01, Lines: no line of right form is longer, so each such line is shown whole.
const LONGEST_SHOWN: usize = 512;

/// Of a gas file, where the library says so: `#` stands before its NumGiriMotoreMin.
pub const IDLE_BY_HAND: &str = "idle speed entered by hand";

/// Bytes of 20 to 7E hex as they stand, others as `\xHH`.
pub fn bytes(bytes: &[u8]) -> String {
    let mut text = String::with_capacity(bytes.len());
    for byte in bytes {
        match byte {
            0x20..=0x7E => text.push(char::from(*byte)),
            _ => push_hex(&mut text, *byte),
        }
    }
    text
}

/// A value in backticks, so that its end is seen; a backtick within as `\x60`. An empty one in words.
pub fn value(value: &[u8]) -> String {
    if value.is_empty() {
        return "nothing".to_string();
    }
    format!("`{}`", bytes(value).replace('`', "\\x60"))
}

fn push_hex(text: &mut String, byte: u8) {
    text.push_str(&format!("\\x{byte:02X}"));
}

/// A name or path: characters as they stand, control characters and bytes that are none as `\xHH`.
pub fn name(name: impl AsRef<OsStr>) -> String {
    let mut text = String::new();
    for chunk in name.as_ref().as_bytes().utf8_chunks() {
        for character in chunk.valid().chars() {
            if character.is_control() {
                let mut buffer = [0; 4];
                let encoded = character.encode_utf8(&mut buffer);
                encoded.bytes().for_each(|byte| push_hex(&mut text, byte));
            } else {
                text.push(character);
            }
        }
        chunk
            .invalid()
            .iter()
            .for_each(|byte| push_hex(&mut text, *byte));
    }
    text
}

/// A line of a file as it is shown, and what is to be said of its end or length.
#[derive(Debug, PartialEq, Eq)]
pub struct Line {
    pub text: String,
    pub remark: Option<String>,
}

/// The line with this number, from 1: up to the next LF, without its CR LF. None where there is no such line.
pub fn line(text: &[u8], number: u32) -> Option<Line> {
    let whole = whole_line(text, number)?;
    let content = content(whole);
    let shown = content.get(..LONGEST_SHOWN).unwrap_or(content);
    let remark = if content.len() > shown.len() {
        let length = content.len();
        Some(format!("cut here: the line has {length} bytes"))
    } else if content.is_empty() {
        Some("the line is empty".to_string())
    } else if !whole.ends_with(b"\n") {
        Some("the file ends here, without CR LF".to_string())
    } else if content.ends_with(b" ") {
        Some("a space stands at the end".to_string())
    } else {
        None
    };
    Some(Line {
        text: bytes(shown),
        remark,
    })
}

/// The lines of a text from this number on, each without its CR LF. None for number 0.
pub fn lines_from(text: &[u8], number: u32) -> Option<impl Iterator<Item = &[u8]>> {
    Some(whole_lines_from(text, number)?.map(content))
}

/// The lines of a text from this number on, each with its end.
fn whole_lines_from(text: &[u8], number: u32) -> Option<impl Iterator<Item = &[u8]>> {
    let before = usize::try_from(number).ok()?.checked_sub(1)?;
    Some(text.split_inclusive(|byte| *byte == b'\n').skip(before))
}

/// The line with this number, with its end.
pub fn whole_line(text: &[u8], number: u32) -> Option<&[u8]> {
    whole_lines_from(text, number)?.next()
}

/// How many lines stand behind the one with this number.
pub fn lines_behind(text: &[u8], number: u32) -> usize {
    whole_lines_from(text, number.saturating_add(1)).map_or(0, Iterator::count)
}

/// A line without its CR LF.
pub fn content(whole: &[u8]) -> &[u8] {
    whole.strip_suffix(b"\r\n").unwrap_or(whole)
}

/// Name and value of an entry's line, which its first `=` separates.
pub fn entry(line: &[u8]) -> Option<(&[u8], &[u8])> {
    let sign = line.iter().position(|byte| *byte == b'=')?;
    Some((line.get(..sign)?, line.get(sign + 1..)?))
}

/// Name and value on the line with this number.
pub fn entry_on_line(text: &[u8], number: u32) -> Option<(&[u8], &[u8])> {
    entry(lines_from(text, number)?.next()?)
}

/// `line 23: Aderenza%Sx=..`.
pub fn entry_at(line: u32, name: &[u8], found: &[u8]) -> String {
    format!("line {line}: {}={}", bytes(name), value(found))
}

/// A day, ddmmyyyy, as dd/mm/yyyy.
pub fn day(found: &[u8]) -> String {
    match found {
        [d, e, m, n, year @ ..] => bytes(&[&[*d, *e, b'/', *m, *n, b'/'], year].concat()),
        _ => bytes(found),
    }
}

/// How long a measure lasted (02, 5/14): `4 min 21 s`, hours and minutes only where there are any.
pub fn length(seconds: u32) -> String {
    let (minutes, rest) = (seconds / 60, seconds % 60);
    match (minutes / 60, minutes % 60) {
        (0, 0) => format!("{rest} s"),
        (0, minutes) => format!("{minutes} min {rest} s"),
        (hours, minutes) => format!("{hours} h {minutes} min {rest} s"),
    }
}

/// Words in backticks, those that count up as one: `L3e` to `L5e`, `L7e`.
pub fn word_list(words: &[String]) -> Vec<String> {
    let follows = |one: &String, other: &String| match (one.as_bytes(), other.as_bytes()) {
        ([letter, digit, rest @ ..], [next_letter, next, next_rest @ ..]) => {
            letter.is_ascii_uppercase()
                && (letter, rest) == (next_letter, next_rest)
                && digit.is_ascii_digit()
                && *next == digit + 1
        }
        _ => false,
    };
    let mut list = Vec::new();
    for run in words.chunk_by(follows) {
        match run {
            [first, _, .., last] => list.push(format!("`{first}` to `{last}`")),
            few => list.extend(few.iter().map(|word| format!("`{word}`"))),
        }
    }
    list
}

/// `A`, `A or B`, `A, B or C`, with another word for the last.
pub fn listed(parts: &[String], last_word: &str) -> String {
    match parts.split_last() {
        Some((last, before)) if !before.is_empty() => {
            format!("{} {last_word} {last}", before.join(", "))
        }
        _ => parts.concat(),
    }
}

/// 02, 4/14: how much looking up it took to read one accepted set, or several.
pub fn names_compared(count: u64) -> String {
    format!("{count} names compared")
}

/// `1 axle`, `2 axles`.
pub fn counted(count: usize, what: &str) -> String {
    let ending = if count == 1 { "" } else { "s" };
    format!("{count} {what}{ending}")
}

#[cfg(test)]
mod tests {
    use super::{day, length};

    #[test]
    fn lengths_are_short() {
        for (seconds, words) in [
            (0, "0 s"),
            (40, "40 s"),
            (60, "1 min 0 s"),
            (162, "2 min 42 s"),
            (3599, "59 min 59 s"),
            (3600, "1 h 0 min 0 s"),
            (86_399, "23 h 59 min 59 s"),
        ] {
            assert_eq!(length(seconds), words);
        }
    }

    #[test]
    fn days_have_slashes() {
        assert_eq!(day(b"01032027"), "01/03/2027");
        assert_eq!(day(b"010"), "010");
    }
}
