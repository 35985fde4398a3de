//! Line ends and byte order marks: how a text has them, and a text with right ones.

use crate::words;

pub const BYTE_ORDER_MARK: &[u8] = b"\xEF\xBB\xBF";

/// A text with right line ends and without a byte order mark, and what was changed for that.
#[derive(Debug, Default, PartialEq, Eq)]
pub struct Mended {
    pub text: Vec<u8>,
    pub mark: bool,
    /// Line ends that were other than CR LF.
    pub ends: Ends,
}

/// How many lines end in which way.
#[derive(Clone, Copy, Debug, Default, PartialEq, Eq)]
pub struct Ends {
    pub right: usize,
    /// LF alone.
    pub feeds: usize,
    /// CR alone.
    pub returns: usize,
    /// More than one CR before the LF.
    pub doubled: usize,
    /// The last line has no end.
    pub none: usize,
}

impl Ends {
    pub fn lines(&self) -> usize {
        self.right + self.wrong()
    }

    pub fn wrong(&self) -> usize {
        self.feeds + self.returns + self.doubled + self.none
    }

    /// What was or is wrong, in words.
    pub fn words(&self) -> Vec<String> {
        let kinds = [
            (self.feeds, "in LF alone"),
            (self.returns, "in CR alone"),
            (self.doubled, "in more than one CR and LF"),
            (self.none, "at the end of the file, without CR LF"),
        ];
        let lines = self.lines();
        let found = kinds.into_iter().filter(|(count, _)| *count > 0);
        found
            .map(|(count, what)| match count {
                _ if count == lines && lines > 1 => format!("all {lines} lines end {what}"),
                1 => format!("1 line of {lines} ends {what}"),
                _ => format!("{count} of {lines} lines end {what}"),
            })
            .collect()
    }
}

pub fn mended(text: &[u8]) -> Mended {
    let mut mended = Mended::default();
    let mut rest = match text.strip_prefix(BYTE_ORDER_MARK) {
        Some(rest) => {
            mended.mark = true;
            rest
        }
        None => text,
    };
    while !rest.is_empty() {
        let length = rest.iter().position(|byte| matches!(byte, b'\r' | b'\n'));
        let (line, behind) = rest.split_at(length.unwrap_or(rest.len()));
        mended.text.extend(line);
        mended.text.extend(b"\r\n");
        rest = behind.get(mended.ends.add(behind)..).unwrap_or_default();
    }
    mended
}

impl Ends {
    /// Counts the line end that the text begins with; its length.
    fn add(&mut self, text: &[u8]) -> usize {
        let returns = text.iter().take_while(|byte| **byte == b'\r').count();
        let feed = text.get(returns) == Some(&b'\n');
        let (count, length) = match (returns, feed) {
            (0, false) => (&mut self.none, 0),
            (0, true) => (&mut self.feeds, 1),
            (_, false) => (&mut self.returns, 1),
            (1, true) => (&mut self.right, 2),
            (_, true) => (&mut self.doubled, returns + 1),
        };
        *count += 1;
        length
    }
}

/// What a file is where it is no text of single bytes, in which line ends could be found.
pub enum NoText {
    /// Two bytes for each character.
    Wide,
    /// So many bytes of so many cannot be printed.
    Binary(usize, usize),
}

impl NoText {
    pub fn of(text: &[u8]) -> Option<NoText> {
        if is_utf16(text) {
            return Some(NoText::Wide);
        }
        let plain = |byte: &&u8| matches!(**byte, 0x20..=0x7E | b'\r' | b'\n' | b'\t');
        let others = text.len() - text.iter().filter(plain).count();
        // A few letters with accents leave a text a text.
        (others > text.len() / 4).then_some(NoText::Binary(others, text.len()))
    }

    pub fn cause(&self) -> String {
        match self {
            NoText::Wide => "the file is UTF-16, two bytes for each character".to_string(),
            NoText::Binary(others, all) => {
                format!("the file is no text: {others} of its {all} bytes cannot be printed")
            }
        }
    }

    /// For a file of a set, or for one that a command names.
    pub fn advice(&self, is_of_set: bool) -> &'static str {
        match self {
            NoText::Wide => "save the file as plain text (ASCII, not Unicode) with CR LF line ends",
            NoText::Binary(..) => words::as_made(is_of_set),
        }
    }
}

fn is_utf16(text: &[u8]) -> bool {
    let marked = text.starts_with(b"\xFF\xFE") || text.starts_with(b"\xFE\xFF");
    let zeros = |from: usize| text.iter().skip(from).step_by(2).all(|byte| *byte == 0);
    marked || (text.len() > 1 && (zeros(0) || zeros(1)))
}
