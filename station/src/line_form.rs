//! Refusal 4: why a line does not have the form of a line (01, Lines).

use crate::case::Refused;
use crate::edit::{Action, Edit};
use crate::finding::Finding;
use crate::line_ends::{self, Ends, NoText, BYTE_ORDER_MARK};
use crate::shown::{self, counted};
use crate::table;
use crate::words;

/// 01, Lines: the most bytes before CR LF.
const LONGEST: usize = 512;

/// Of a file whose last line has no end: what it had behind that is not known.
const COMPARE: &str = "compare it with the device's, or fetch it again; only if it is whole,";

const FORM: &str = "a line is a heading in [ ], or name=value";

pub fn finding(refused: &Refused) -> Option<Finding> {
    let (text, line) = (refused.text(), refused.refusal.line);
    let whole = shown::whole_line(text, line)?;
    if let Some(no_text) = NoText::of(text) {
        let advice = no_text.advice(refused.case.is_of_set());
        return Some(Finding::cause(no_text.cause()).advice(advice));
    }
    let form = Line { refused, whole };
    let finding = form.mark().or_else(|| form.line_end());
    let finding = finding.or_else(|| form.length()).or_else(|| form.byte());
    finding.or_else(|| form.last_end()).or_else(|| form.parts())
}

/// The refused line, with its end.
struct Line<'a> {
    refused: &'a Refused<'a>,
    whole: &'a [u8],
}

impl<'a> Line<'a> {
    /// The line without its CR LF, or the CR with which the file ends.
    fn content(&self) -> &'a [u8] {
        let content = shown::content(self.whole);
        content.strip_suffix(b"\r").unwrap_or(content)
    }

    fn tried(&self, action: Action) -> Option<Edit> {
        self.refused.tried(self.refused.edit(action))
    }

    fn replaced(&self, text: &[u8]) -> Option<Edit> {
        self.tried(Action::Replace(text.to_vec()))
    }

    /// A change to the file as a whole; not where it may be cut off, which that would hide.
    fn line_ends(&self) -> Option<Edit> {
        if self.ends().none > 0 {
            return None;
        }
        let file = self.refused.refusal.file;
        self.refused.tried(Edit {
            file,
            line: 0,
            action: Action::LineEnds,
        })
    }

    fn ends(&self) -> Ends {
        line_ends::mended(self.refused.text()).ends
    }

    fn mark(&self) -> Option<Finding> {
        let first = self.refused.refusal.line == 1;
        (first && self.whole.starts_with(BYTE_ORDER_MARK)).then(|| {
            let cause = "the file begins with a byte order mark (EF BB BF hex)";
            with_program(
                cause,
                "save the file without a byte order mark",
                self.line_ends(),
            )
        })
    }

    /// LF without CR or with two, or CR within the line.
    fn line_end(&self) -> Option<Finding> {
        let line = self.refused.refusal.line;
        let feed = self.whole.ends_with(b"\n") && !self.whole.ends_with(b"\r\n");
        let inner = self.content().strip_suffix(b"\n").unwrap_or(self.content());
        let inner = inner.strip_suffix(b"\r").unwrap_or(inner);
        let returns = inner.iter().position(|byte| *byte == b'\r');
        let doubled = self.whole.ends_with(b"\r\r\n");
        if !feed && !doubled && returns.is_none() {
            return None;
        }
        let ends = self.ends();
        let alone = Ends {
            feeds: 1,
            right: ends.right,
            ..Ends::default()
        };
        if ends == alone {
            let finding = Finding::cause(format!("line {line} ends in LF alone, without CR"));
            let mend = self.replaced(inner);
            let advice = format!("end line {line} with CR LF, as the other lines");
            return Some(Finding {
                mend,
                ..finding.advice(advice)
            });
        }
        let cause = match returns {
            Some(at) if ends.wrong() == 1 => {
                format!(
                    "a CR (0D hex) that ends no line stands at column {}",
                    at + 1
                )
            }
            _ => ends.words().join("; "),
        };
        let advice = "save the file with CR LF line ends";
        let advice = match ends.none {
            0 => advice.to_string(),
            _ => format!("the file may be cut off at its end: {COMPARE} {advice}"),
        };
        Some(with_program(&cause, &advice, self.line_ends()))
    }

    fn length(&self) -> Option<Finding> {
        let length = self.content().len();
        if length == 0 {
            // Without it nothing may be left, and an empty file is not given.
            let mend = self.tried(Action::Delete);
            let advice = words::as_made(self.refused.case.is_of_set());
            return Some(Finding::cause("the line is empty").mend_or(mend, advice));
        }
        (length > LONGEST).then(|| {
            let over = counted(length - LONGEST, "byte");
            Finding::cause(format!(
                "the line has {length} bytes, {over} more than the {LONGEST} that a line may have"
            ))
            .advice(format!("shorten the line by {over} or more"))
        })
    }

    /// A byte that a line may not have.
    fn byte(&self) -> Option<Finding> {
        let content = self.content();
        let at = content
            .iter()
            .position(|byte| !matches!(byte, 0x20..=0x7E))?;
        let (before, rest) = content.split_at(at);
        let column = before.len() + 1;
        let cause = format!("{} stands at column {column}", byte_words(rest));
        let mend = self.tried_without_ends(content);
        Some(Finding::cause(cause).mend_or(
            mend,
            format!(
                "retype line {} with plain letters, digits and signs (20 to 7E hex)",
                self.refused.refusal.line
            ),
        ))
    }

    /// Bytes that cannot be printed are taken away at the ends of a line; within it, what they stand for is not known.
    fn tried_without_ends(&self, content: &[u8]) -> Option<Edit> {
        let control = |byte: &u8| matches!(byte, 0..0x20 | 0x7F);
        let start = content.iter().take_while(|byte| control(byte)).count();
        let kept = content.get(start..)?;
        let end = kept.iter().rev().take_while(|byte| control(byte)).count();
        let kept = kept.get(..kept.len() - end)?;
        match kept {
            [] => self.tried(Action::Delete),
            // The end of the line is missing too, and the file may be cut off.
            _ if !self.whole.ends_with(b"\n") => None,
            kept => self.replaced(kept),
        }
    }

    fn last_end(&self) -> Option<Finding> {
        (!self.whole.ends_with(b"\n")).then(|| {
            let line = self.refused.refusal.line;
            let cause = format!("the file ends in line {line} without CR LF");
            Finding::cause(cause).advice(format!(
                "the file may be cut off here: {COMPARE} end line {line} with CR LF"
            ))
        })
    }

    /// A heading without its end, a line without `=`, an entry before any heading.
    fn parts(&self) -> Option<Finding> {
        let content = self.content();
        let trimmed = content.trim_ascii();
        if trimmed.starts_with(b"[") {
            return Some(self.heading(content, trimmed));
        }
        if !content.contains(&b'=') {
            return Some(self.no_sign(trimmed));
        }
        let text = self.refused.text();
        let above = table::heading_above(text, self.refused.refusal.line);
        above.is_none().then(|| {
            let finding = Finding::cause("the entry stands before any heading");
            finding.advice(self.heading_of_its_own())
        })
    }

    /// What to do about an entry above all headings: the one that is absent may be gone.
    fn heading_of_its_own(&self) -> String {
        let sections = table::sections(self.refused.refusal.file);
        let heading = match table::absent_headings(&sections, self.refused.text()).as_slice() {
            [one] => format!("its heading above it (`{one}` is the only one absent here)"),
            _ => "the heading of its section above it".to_string(),
        };
        format!("write {heading}, or move the line below the heading")
    }

    fn heading(&self, content: &[u8], trimmed: &[u8]) -> Finding {
        let cause = match () {
            () if !content.starts_with(b"[") => "a space stands before the heading",
            () if trimmed.ends_with(b"]") => "a space stands behind the heading",
            () if trimmed.contains(&b']') => "more stands behind the `]` of the heading",
            () => "the heading does not end in `]`",
        };
        let closed = trimmed.split_inclusive(|byte| *byte == b']').next();
        let mut heading = closed.unwrap_or_default().to_vec();
        if !heading.ends_with(b"]") {
            heading.push(b']');
        }
        let mend = self.replaced(&heading);
        Finding::cause(cause).mend_or(mend, "write the heading in [ ] and nothing else")
    }

    fn no_sign(&self, trimmed: &[u8]) -> Finding {
        if trimmed.is_empty() {
            let mend = self.tried(Action::Delete);
            return Finding::cause("the line has only spaces").mend_or(mend, "delete the line");
        }
        let mut signs = [&b";"[..], b"#", b"//"].into_iter();
        let comment = signs.find_map(|sign| trimmed.strip_prefix(sign));
        if comment.is_some_and(|comment| !self.names_entry(comment)) {
            let cause = format!("a comment is no line of a set: {FORM}");
            return Finding::cause(cause).mend_or(self.tried(Action::Delete), "delete the line");
        }
        Finding::cause(format!("the line has no `=`: {FORM}"))
            .advice("write the line as name=value, or delete it if it belongs to no entry")
    }

    /// Whether a comment begins with the name of an entry: its value may stand behind that.
    fn names_entry(&self, comment: &[u8]) -> bool {
        let sections = table::sections(self.refused.refusal.file);
        let mut entries = sections.iter().flat_map(|section| &section.entries);
        entries.any(|entry| {
            let start = comment.trim_ascii_start().get(..entry.name.len());
            start.is_some_and(|start| start.eq_ignore_ascii_case(entry.name.as_bytes()))
        })
    }
}

/// What an editor can do, and `mctc format --mend` where that helps.
fn with_program(cause: &str, advice: &str, mend: Option<Edit>) -> Finding {
    let advice = match mend {
        Some(_) => format!("{advice}, or let `mctc format --mend` write it so"),
        None => advice.to_string(),
    };
    let finding = Finding::cause(cause).advice(advice);
    Finding { mend, ..finding }
}

/// The first byte of these in words, with the letter that it begins.
fn byte_words(rest: &[u8]) -> String {
    let first = rest.first().copied().unwrap_or_default();
    let what = match first {
        0x00 => "a zero byte",
        0x09 => "a tab",
        0x0D => "a CR",
        0x1A => "an end mark of old programs, Ctrl-Z",
        0x80.. => "a letter or sign outside ASCII",
        _ => "a control byte",
    };
    let letter = rest
        .utf8_chunks()
        .next()
        .and_then(|chunk| chunk.valid().chars().next());
    match letter.filter(|letter| !letter.is_ascii()) {
        Some(letter) if !letter.is_control() => {
            let mut buffer = [0; 4];
            let bytes: Vec<String> = letter
                .encode_utf8(&mut buffer)
                .bytes()
                .map(|byte| format!("{byte:02X}"))
                .collect();
            format!("{what} (`{letter}`, {} hex)", bytes.join(" "))
        }
        _ => format!("{what} ({first:02X} hex)"),
    }
}
