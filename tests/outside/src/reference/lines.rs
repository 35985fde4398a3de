//! 01, Lines. This layer knows no entry name.

/// 01, Lines: "A file is at most 16,384 bytes (ours)."
pub const LONGEST_FILE: usize = 16_384;

/// 01, Lines: "Before it stand 1 to 512 bytes".
pub const LONGEST_LINE: usize = 512;

/// 01, Lines: "each 20 to 7E hex".
pub fn is_printable(byte: u8) -> bool {
    (0x20..=0x7E).contains(&byte)
}

/// 01, Lines: a heading with its brackets, or an entry split at the first `=`.
#[derive(Clone, Copy, Debug, PartialEq, Eq)]
pub enum Line<'a> {
    Heading(&'a [u8]),
    /// `start` is the place of the byte after `=`, from 0.
    Entry {
        name: &'a [u8],
        start: usize,
        length: usize,
    },
}

/// 01, Lines: reads the line at `position`; the position after it comes back with it.
/// None: the line has not the form of a line.
pub fn line_at(text: &[u8], position: usize) -> Option<(Line<'_>, usize)> {
    let rest = &text[position..];
    let length = rest.iter().take_while(|byte| is_printable(**byte)).count();
    if !(1..=LONGEST_LINE).contains(&length) {
        return None;
    }
    if rest.get(length..length + 2) != Some(b"\r\n") {
        return None;
    }
    let bytes = &rest[..length];
    let after = position + length + 2;
    if bytes[0] == b'[' {
        // 01, Lines: "A line that begins with `[` is a heading and ends in `]`."
        if bytes[length - 1] != b']' {
            return None;
        }
        return Some((Line::Heading(bytes), after));
    }
    // 01, Lines: "Any other line is name, `=`, value, split at the first `=`".
    let name_length = bytes.iter().position(|byte| *byte == b'=')?;
    let entry = Line::Entry {
        name: &bytes[..name_length],
        start: position + name_length + 1,
        length: length - name_length - 1,
    };
    Some((entry, after))
}
