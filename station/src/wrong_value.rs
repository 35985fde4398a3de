//! Refusal 9: the kind in words, and what is off about a value, found by trial.

use mctc::{Form, Kind};

use crate::absent;
use crate::case::Refused;
use crate::edit::Edit;
use crate::finding::Finding;
use crate::kinds;
use crate::near::nearest;
use crate::shown::{self, counted};
use crate::table;

/// No longer value is shown again: it stands in the line already.
const LONGEST_SHOWN: usize = 40;

pub fn finding(refused: &Refused) -> Option<Finding> {
    let (file, line) = (refused.refusal.file, refused.refusal.line);
    let entry = table::entry_at(file, refused.text(), line)?;
    let entry = u32::try_from(entry).ok()?;
    let wrong = Wrong {
        refused,
        value: refused.entry()?.1,
        kind: mctc::kind(file, entry).ok()?,
    };
    let finding = wrong.finding().expected(kinds::expected(file, entry));
    let may_be_none = wrong.is_placeholder() && absent::is_reported(file, entry);
    Some(match may_be_none {
        true => or_none(finding),
        false => finding,
    })
}

/// What else is to be said of an entry that may be empty, so that nobody makes up a number for it.
fn or_none(finding: Finding) -> Finding {
    match (&finding.mend, &finding.advice) {
        (None, Some(advice)) => {
            let only = absent::ONLY_IF_NONE;
            let advice = format!("{advice}; leave nothing behind the `=` {only}");
            finding.advice(advice)
        }
        _ => finding,
    }
}

/// A value that is not of its entry's kind.
struct Wrong<'a> {
    refused: &'a Refused<'a>,
    value: &'a [u8],
    kind: Kind,
}

/// How a value is often written otherwise: in words, and the value without that. None where it does not apply.
struct Slip {
    what: &'static str,
    mended: fn(&[u8]) -> Option<Vec<u8>>,
}

const SLIPS: [Slip; 12] = [
    Slip {
        what: "a space stands at its start or end",
        mended: |value| Some(value.trim_ascii().to_vec()),
    },
    Slip {
        what: "it has small letters",
        mended: |value| Some(value.to_ascii_uppercase()),
    },
    Slip {
        what: "a comma stands for the point",
        mended: |value| {
            let point = |byte: &u8| if *byte == b',' { b'.' } else { *byte };
            Some(value.iter().map(point).collect())
        },
    },
    Slip {
        what: "signs stand between its parts",
        mended: without_signs,
    },
    Slip {
        what: "the year stands first",
        mended: year_last,
    },
    Slip {
        what: "a `+` stands before it",
        mended: |value| Some(value.strip_prefix(b"+")?.to_vec()),
    },
    Slip {
        what: "a space stands behind the `#`",
        mended: |value| {
            let number = value.strip_prefix(b"#")?.trim_ascii_start();
            Some([b"#", number].concat())
        },
    },
    Slip {
        what: "more than one `#` stands before it",
        mended: |value| Some([b"#", without_marks(value.strip_prefix(b"##")?)].concat()),
    },
    Slip {
        what: "the `#` does not stand first",
        mended: mark_first,
    },
    Slip {
        what: "it has a point and zeros that do not belong there",
        mended: without_zeros,
    },
    Slip {
        what: "it has a digit too many behind the point",
        mended: |value| point(value).and_then(|_| Some(value.strip_suffix(b"0")?.to_vec())),
    },
    Slip {
        what: "it has too few digits behind the point",
        mended: |value| point(value).map(|_| [value, b"0"].concat()),
    },
];

/// Digits and nothing else.
fn are_digits(part: &[u8]) -> bool {
    !part.is_empty() && part.iter().all(u8::is_ascii_digit)
}

fn digits(value: &[u8]) -> Vec<u8> {
    let digits = value.iter().filter(|byte| byte.is_ascii_digit());
    digits.copied().collect()
}

/// Where a number's point stands.
fn point(value: &[u8]) -> Option<usize> {
    value.iter().position(|byte| *byte == b'.')
}

fn without_zeros(value: &[u8]) -> Option<Vec<u8>> {
    let (whole, behind) = value.split_at(point(value)?);
    let zeros = behind.iter().skip(1).all(|byte| *byte == b'0');
    let is_number = whole.iter().any(u8::is_ascii_digit);
    (is_number && zeros).then(|| whole.to_vec())
}

/// The one `#` of a value, which says that it was entered by hand, put where it belongs. Not from between digits, where
/// it may stand for one.
fn mark_first(value: &[u8]) -> Option<Vec<u8>> {
    let (sign, number): (&[u8], &[u8]) = match value {
        [number @ .., b'#'] => (b"", number),
        [b'-', b'#', number @ ..] => (b"-", number),
        _ => return None,
    };
    (!number.contains(&b'#')).then(|| [b"#", sign, number].concat())
}

/// A value without the `#` that it begins with.
fn without_marks(value: &[u8]) -> &[u8] {
    let count = value.iter().take_while(|byte| **byte == b'#').count();
    value.get(count..).unwrap_or_default()
}

/// A day or a time of three parts, with the same sign between them. Anything else is left alone: a number without its
/// point would be another number.
fn without_signs(value: &[u8]) -> Option<Vec<u8>> {
    let sign = value.iter().find(|byte| !byte.is_ascii_digit())?;
    let parts: Vec<&[u8]> = value.split(|byte| byte == sign).collect();
    let lengths: Vec<usize> = parts.iter().map(|part| part.len()).collect();
    let right = matches!(lengths.as_slice(), [2, 2, 2 | 4] | [4, 2, 2]);
    let joined = parts.concat();
    (right && joined.iter().all(u8::is_ascii_digit)).then_some(joined)
}

/// yyyymmdd as ddmmyyyy.
fn year_last(value: &[u8]) -> Option<Vec<u8>> {
    match value {
        [year @ .., m, n, d, e] if year.len() == 4 && value.iter().all(u8::is_ascii_digit) => {
            Some([&[*d, *e, *m, *n], year].concat())
        }
        _ => None,
    }
}

impl Wrong<'_> {
    fn finding(&self) -> Finding {
        let found = self
            .slip()
            .or_else(|| self.other_word())
            .or_else(|| self.no_such_day())
            .or_else(|| self.no_such_time())
            .or_else(|| self.length())
            .or_else(|| self.no_point())
            .or_else(|| self.not_whole())
            .or_else(|| self.letter())
            .or_else(|| self.by_hand())
            .or_else(|| self.mark_within())
            .or_else(|| self.empty_number())
            .or_else(|| self.behind())
            .or_else(|| self.sign())
            .or_else(|| self.no_digit());
        found.unwrap_or_else(|| self.said("it is not of the kind", &self.correct()))
    }

    /// What is off, and what to do.
    fn said(&self, what: &str, advice: &str) -> Finding {
        let cause = match self.value.len() > LONGEST_SHOWN {
            true => what.to_string(),
            false => format!("found {}: {what}", shown::value(self.value)),
        };
        Finding::cause(cause).advice(advice)
    }

    fn correct(&self) -> String {
        format!("correct the value in line {}", self.refused.refusal.line)
    }

    fn mended(&self, what: &str, edit: Edit) -> Finding {
        let words = edit.words();
        Finding {
            mend: Some(edit),
            ..self.said(what, &words)
        }
    }

    /// The line with this value, where the library lets it pass.
    fn passing(&self, value: &[u8]) -> Option<Edit> {
        self.refused.tried(self.refused.with_value(value)?)
    }

    fn passes(&self, value: &[u8]) -> bool {
        self.passing(value).is_some()
    }

    /// The value without one slip, or without two, that passes.
    fn slip(&self) -> Option<Finding> {
        let changed = |slip: &Slip, value: &[u8]| {
            let mended = (slip.mended)(value)?;
            (mended != value && !mended.is_empty()).then_some(mended)
        };
        let once: Vec<(&Slip, Vec<u8>)> = SLIPS
            .iter()
            .filter_map(|slip| Some((slip, changed(slip, self.value)?)))
            .collect();
        for (slip, mended) in &once {
            if let Some(edit) = self.slipped(mended) {
                return Some(self.mended(slip.what, edit));
            }
        }
        for (first, mended) in &once {
            for second in &SLIPS {
                let mended = changed(second, mended);
                if let Some(edit) = mended.and_then(|mended| self.slipped(&mended)) {
                    let what = format!("{}, and {}", first.what, second.what);
                    return Some(self.mended(&what, edit));
                }
            }
        }
        None
    }

    /// As `passing`, but of a text only a space may go: a digit more in a key would be another key. And no digit may go
    /// where three stand behind a point: `4.000` may be four thousand, and not 4.
    fn slipped(&self, mended: &[u8]) -> Option<Edit> {
        let is_other_text = self.is_text() && mended != self.value.trim_ascii();
        let is_other_number = self.may_be_thousands() && digits(mended) != digits(self.value);
        if is_other_text || is_other_number {
            return None;
        }
        self.passing(mended)
    }

    fn may_be_thousands(&self) -> bool {
        let parts = self.value.split(|byte| matches!(byte, b'.' | b','));
        let mut behind = parts.skip(1);
        self.is_whole() && behind.any(|part| digits(part).len() == 3)
    }

    /// Whether only whole numbers are of the kind.
    fn is_whole(&self) -> bool {
        matches!(
            self.kind.form,
            Form::Number | Form::NumberByHand | Form::TempAmbiente
        )
    }

    fn is_number(&self) -> bool {
        let is_other = matches!(
            self.kind.form,
            Form::Fixed | Form::FixedByHand | Form::Deriva
        );
        self.is_whole() || is_other
    }

    fn is_text(&self) -> bool {
        matches!(self.kind.form, Form::Text | Form::Exact | Form::Targa)
    }

    /// Whether the value may stand for none: no number is told by it.
    fn is_placeholder(&self) -> bool {
        let tells = |byte: &u8| matches!(byte, b'1'..=b'9');
        self.is_number() && !self.value.iter().any(tells)
    }

    /// The value without the `#` of one that was entered by hand, where its kind lets one stand there.
    fn bare(&self) -> &[u8] {
        let bare = self.value.strip_prefix(b"#");
        let bare = bare.filter(|_| kinds::may_be_by_hand(&self.kind));
        bare.unwrap_or(self.value)
    }

    /// The same without a minus.
    fn unsigned(&self) -> &[u8] {
        self.bare().strip_prefix(b"-").unwrap_or(self.bare())
    }

    /// An entry of a word list: the nearest word.
    fn other_word(&self) -> Option<Finding> {
        let words = &self.kind.words;
        if words.is_empty() {
            return None;
        }
        let near = nearest(self.value, words.iter().map(String::as_str));
        let mend = near.and_then(|near| self.passing(near.as_bytes()));
        let finding = self.said("it is none of the words", "");
        Some(finding.mend_or(mend, "write the one of these words that is right"))
    }

    /// Eight digits that are no day: which of its parts cannot be, by trial with others.
    fn no_such_day(&self) -> Option<Finding> {
        if !matches!(self.kind.form, Form::Day | Form::DataPrimaImm) || !self.has_digits(8) {
            return None;
        }
        let (day, rest) = self.value.split_at_checked(2)?;
        let (month, year) = rest.split_at_checked(2)?;
        let what = if self.passes(&[b"01", month, year].concat()) {
            let [day, month, year] = [day, month, year].map(shown::bytes);
            format!("month {month} of {year} has no day {day}")
        } else if month == b"00" && self.passes(&[b"0000", year].concat()) {
            "month 00 stands only with day 00".to_string()
        } else if self.passes(&[b"0101", year].concat()) {
            format!("there is no month {}", shown::bytes(month))
        } else {
            format!("{} is no year from 1900 to 2099", shown::bytes(year))
        };
        Some(self.said(&what, &self.correct()))
    }

    /// Six digits that are no time, likewise.
    fn no_such_time(&self) -> Option<Finding> {
        if self.kind.form != Form::Time || !self.has_digits(6) {
            return None;
        }
        let (hour, rest) = self.value.split_at_checked(2)?;
        let (minute, second) = rest.split_at_checked(2)?;
        let (name, part) = if !self.passes(&[hour, b"0000"].concat()) {
            ("hour", hour)
        } else if !self.passes(&[b"00", minute, b"00"].concat()) {
            ("minute", minute)
        } else {
            ("second", second)
        };
        let what = format!("there is no {name} {}", shown::bytes(part));
        Some(self.said(&what, &self.correct()))
    }

    fn has_digits(&self, count: usize) -> bool {
        self.value.len() == count && self.value.iter().all(u8::is_ascii_digit)
    }

    /// A value whose bytes may be right, but not their count.
    fn length(&self) -> Option<Finding> {
        let value = self.bare();
        let all = |is_part: fn(&u8) -> bool| value.iter().all(is_part);
        let right = match self.kind.form {
            Form::Text | Form::Exact | Form::Targa => true,
            Form::Number
            | Form::NumberByHand
            | Form::Day
            | Form::Time
            | Form::DataPrimaImm
            | Form::AnnoPrimaImm => are_digits(value),
            Form::TempAmbiente => are_digits(self.unsigned()),
            Form::PosAssiStaz => all(|byte| matches!(byte, b'S' | b'N')),
            Form::Fixed | Form::FixedByHand => all(|byte| byte.is_ascii_digit() || *byte == b'.'),
            Form::Deriva | Form::Word | Form::Other(_) => false,
        };
        if value.is_empty() || !right {
            return None;
        }
        let (least, most) = (kinds::least(&self.kind), kinds::most(&self.kind));
        let length = u32::try_from(value.len()).ok()?;
        let bytes = |count: u32| counted(count as usize, "byte");
        let what = if length > most {
            format!("it is too long by {}", bytes(length - most))
        } else if length < least {
            format!("it is too short by {}", bytes(least - length))
        } else {
            return None;
        };
        let advice = match self.kind.form {
            Form::Text => format!("shorten the value in line {}", self.refused.refusal.line),
            _ => self.correct(),
        };
        Some(self.said(&what, &advice))
    }

    /// A value that passes without some bytes at its end.
    fn behind(&self) -> Option<Finding> {
        let starts = (1..self.value.len()).rev();
        let mut starts = starts.filter_map(|length| self.value.split_at_checked(length));
        let (start, rest) = starts.find(|(start, _)| self.passes(start))?;
        let (start, rest) = (shown::value(start), shown::value(rest));
        let what = format!("{rest} does not belong behind {start}");
        Some(self.said(&what, &self.correct()))
    }

    /// A minus where none may be, or one too many. What the number is without it is not for a program to say.
    fn sign(&self) -> Option<Finding> {
        let rest = self.value.strip_prefix(b"-");
        self.passing(rest.filter(|rest| !rest.is_empty())?)?;
        if matches!(self.kind.form, Form::TempAmbiente | Form::Deriva) {
            return Some(self.said("more than one `-` stands before it", &self.correct()));
        }
        let what = "a `-` stands before a number that has no sign";
        Some(self.said(what, &format!("{}: the number has no sign", self.correct())))
    }

    /// A number without any digit.
    fn empty_number(&self) -> Option<Finding> {
        let is_empty = self.is_number() && !self.value.iter().any(u8::is_ascii_digit);
        let what = match self.value {
            b"#" => "nothing stands behind the `#`",
            _ => "it has no digit",
        };
        is_empty.then(|| self.said(what, &self.correct()))
    }

    /// A number without a point. Where it was meant is not known.
    fn no_point(&self) -> Option<Finding> {
        (are_digits(self.unsigned()) && self.kind.decimals > 0)
            .then(|| self.said("it has no point, and no digits behind one", &self.correct()))
    }

    /// A number with a point, where only whole ones are. What was meant is not known: a part of one, or thousands.
    fn not_whole(&self) -> Option<Finding> {
        point(self.value)?;
        let mut parts = self.unsigned().split(|byte| *byte == b'.');
        (self.is_whole() && parts.all(are_digits)).then(|| {
            let what = "it has a point, which a whole number must not have";
            self.said(what, &self.correct())
        })
    }

    /// What stands behind a `#` passes without it. To take the `#` away may hide that a person put in what only the device
    /// may say.
    fn by_hand(&self) -> Option<Finding> {
        let rest = without_marks(self.value);
        let is_marked = rest != self.value && !rest.is_empty();
        if kinds::may_be_by_hand(&self.kind) || !is_marked || !self.passes(rest) {
            return None;
        }
        let without = format!("write line {} without the `#`", self.refused.refusal.line);
        let what = "a `#` stands before it, and none may stand there";
        Some(self.said(what, &kinds::not_by_hand(&without)))
    }

    /// A `#` that does not stand first. Whether it is meant for a digit is not known.
    fn mark_within(&self) -> Option<Finding> {
        let is_within = self.is_number() && without_marks(self.value).contains(&b'#');
        is_within.then(|| {
            let advice = match kinds::may_be_by_hand(&self.kind) {
                true => format!("{}; `#` may stand only first", self.correct()),
                false => self.correct(),
            };
            let what = "a `#` stands within or behind it, and may be meant for a digit";
            self.said(what, &advice)
        })
    }

    /// A letter that looks like a digit stands where one passes.
    fn letter(&self) -> Option<Finding> {
        let mut others = (0..)
            .zip(self.value)
            .filter(|(_, byte)| b"OoQDlIiZzSsBb".contains(byte));
        let (at, byte) = others.find(|(at, _)| self.passes_with_digit(*at))?;
        Some(self.stands_for_digit(at, *byte))
    }

    /// One byte stands where a digit passes.
    fn no_digit(&self) -> Option<Finding> {
        let mut others = (0..)
            .zip(self.value)
            .filter(|(_, byte)| !byte.is_ascii_digit());
        let (at, byte) = others.find(|(at, _)| self.passes_with_digit(*at))?;
        Some(self.stands_for_digit(at, *byte))
    }

    fn stands_for_digit(&self, at: usize, byte: u8) -> Finding {
        let byte = shown::value(&[byte]);
        let at = at + 1;
        let what = format!("{byte} stands where a digit must be, as byte {at} of the value");
        self.said(&what, &self.correct())
    }

    fn passes_with_digit(&self, at: usize) -> bool {
        (b'0'..=b'9').any(|digit| {
            let mut value = self.value.to_vec();
            if let Some(byte) = value.get_mut(at) {
                *byte = digit;
            }
            self.passes(&value)
        })
    }
}
