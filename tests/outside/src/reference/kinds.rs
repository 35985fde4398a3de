//! 01, Kinds of value, and those of opacity (02, 2/14: "kinds and conditions as printed there", 001, 3.3.3.7).

use std::ops::RangeInclusive;

use super::lines::is_printable;

/// 01, Kinds of value, and the kinds of single entries.
#[derive(Clone, Copy, Debug, PartialEq, Eq)]
pub enum Kind {
    /// S w.
    Text(usize),
    /// C w.
    Exact(usize),
    /// N w.
    Number(usize),
    /// N(d) w.
    Decimal { decimals: usize, width: usize },
    /// D.
    Date,
    /// H.
    Time,
    /// A word: one of the words listed.
    Word(&'static [&'static str]),
    /// Deriva, 000 "6(2)".
    Drift,
    /// revs.
    Revs,
    /// DataPrimaImm.
    FirstRegistration,
    /// PosAssiStaz: nine letters S or N.
    Axles,
    /// AnnoPrimaImm: four digits.
    Year,
    /// 02, 2/14: opacity's Targa, S 10 of at least 4 bytes.
    Plate,
    /// 02, 2/14: N w, with `#` before it where entered by hand.
    NumberByHand(usize),
    /// 02, 2/14: N(d) w, likewise.
    DecimalByHand { decimals: usize, width: usize },
    /// 02, 2/14: TempAmbiente, a whole number from -99 to 999, likewise.
    Temperature,
}

impl Kind {
    /// Whether `#` before a value says that it was entered by hand.
    pub fn may_be_by_hand(self) -> bool {
        matches!(
            self,
            Kind::Revs | Kind::NumberByHand(_) | Kind::DecimalByHand { .. } | Kind::Temperature
        )
    }
}

/// 001, 3.3.3.7: Targa is S 10, "Il numero dei caratteri che compongono la targa non deve essere inferiore a 4".
const PLATE_LENGTHS: RangeInclusive<usize> = 4..=10;

/// 01, Kinds of value: whether a filled value has its kind.
pub fn fits(kind: Kind, value: &[u8]) -> bool {
    match kind {
        Kind::Text(width) => (1..=width).contains(&value.len()) && all_printable(value),
        Kind::Exact(width) => value.len() == width && all_printable(value),
        Kind::Number(width) => is_number(value, width),
        Kind::Decimal { decimals, width } => is_decimal(value, decimals, width),
        Kind::Date => is_date(value),
        Kind::Time => is_time(value),
        Kind::Word(words) => words.iter().any(|word| word.as_bytes() == value),
        Kind::Drift => drift_hundredths(value).is_some(),
        Kind::Revs => revs(value).is_some(),
        Kind::FirstRegistration => is_first_registration(value),
        Kind::Axles => value.len() == 9 && value.iter().all(|b| *b == b'S' || *b == b'N'),
        Kind::Year => value.len() == 4 && all_digits(value),
        Kind::Plate => PLATE_LENGTHS.contains(&value.len()) && all_printable(value),
        Kind::NumberByHand(width) => is_number(split_hash(value).1, width),
        Kind::DecimalByHand { decimals, width } => is_decimal(split_hash(value).1, decimals, width),
        Kind::Temperature => is_temperature(split_hash(value).1),
    }
}

/// A kind in numbers: its form, the most bytes, the digits behind the point, how many words it lists.
pub fn shape(kind: Kind) -> [usize; 4] {
    match kind {
        Kind::Text(width) => [1, width, 0, 0],
        Kind::Exact(width) => [2, width, 0, 0],
        Kind::Number(width) => [3, width, 0, 0],
        Kind::Decimal { decimals, width } => [4, width, decimals, 0],
        Kind::Date => [5, "ddmmyyyy".len(), 0, 0],
        Kind::Time => [6, "hhmmss".len(), 0, 0],
        Kind::Drift => [7, "-99.99".len(), 2, 0],
        Kind::Revs => shape(Kind::NumberByHand(5)),
        Kind::NumberByHand(width) => [8, "#".len() + width, 0, 0],
        Kind::FirstRegistration => [9, "ddmmyyyy".len(), 0, 0],
        Kind::Year => [10, 4, 0, 0],
        Kind::Axles => [11, 9, 0, 0],
        Kind::Word(words) => {
            let longest = words.iter().map(|word| word.len()).max();
            [12, longest.unwrap_or(0), 0, words.len()]
        }
        Kind::Plate => [13, *PLATE_LENGTHS.end(), 0, 0],
        Kind::DecimalByHand { decimals, width } => [14, "#".len() + width, decimals, 0],
        Kind::Temperature => [15, "#-99".len(), 0, 0],
    }
}

/// The word of this number, from 0.
pub fn word_of(kind: Kind, number: u32) -> Option<&'static str> {
    match kind {
        Kind::Word(words) => words.get(number as usize).copied(),
        _ => None,
    }
}

fn all_printable(value: &[u8]) -> bool {
    value.iter().all(|byte| is_printable(*byte))
}

fn all_digits(value: &[u8]) -> bool {
    value.iter().all(u8::is_ascii_digit)
}

/// The number that decimal digits (at most nine of them) stand for.
pub fn number(digits: &[u8]) -> u32 {
    digits.iter().fold(0, |n, b| n * 10 + u32::from(b - b'0'))
}

/// 01, Kinds of value: "N w: 1 to w decimal digits".
fn is_number(value: &[u8], width: usize) -> bool {
    (1..=width).contains(&value.len()) && all_digits(value)
}

/// 01, Kinds of value: "N(d) w: one or more digits, a point, exactly d digits, at most w
/// bytes in all".
fn is_decimal(value: &[u8], decimals: usize, width: usize) -> bool {
    let Some(point) = value.iter().position(|byte| *byte == b'.') else {
        return false;
    };
    let (whole, fraction) = (&value[..point], &value[point + 1..]);
    !whole.is_empty()
        && all_digits(whole)
        && fraction.len() == decimals
        && all_digits(fraction)
        && value.len() <= width
}

fn is_leap(year: u32) -> bool {
    year.is_multiple_of(4) && (!year.is_multiple_of(100) || year.is_multiple_of(400))
}

pub fn days_in_month(month: u32, year: u32) -> u32 {
    match month {
        4 | 6 | 9 | 11 => 30,
        2 if is_leap(year) => 29,
        2 => 28,
        _ => 31,
    }
}

/// Day, month and year of eight digits ddmmyyyy.
fn day_month_year(value: &[u8]) -> Option<(u32, u32, u32)> {
    if value.len() != 8 || !all_digits(value) {
        return None;
    }
    Some((
        number(&value[..2]),
        number(&value[2..4]),
        number(&value[4..]),
    ))
}

/// 01, Kinds of value: "D: ddmmyyyy, a Gregorian day, years 1900 to 2099."
fn is_date(value: &[u8]) -> bool {
    match day_month_year(value) {
        Some((day, month, year)) => {
            (1900..=2099).contains(&year)
                && (1..=12).contains(&month)
                && (1..=days_in_month(month, year)).contains(&day)
        }
        None => false,
    }
}

/// 01, Kinds of value: "DataPrimaImm is D, with day 00 allowed, and month 00 only with
/// day 00."
fn is_first_registration(value: &[u8]) -> bool {
    match day_month_year(value) {
        Some((0, month, year)) => month <= 12 && (1900..=2099).contains(&year),
        _ => is_date(value),
    }
}

/// 01, Kinds of value: "H: hhmmss, 000000 to 235959."
fn is_time(value: &[u8]) -> bool {
    value.len() == 6
        && all_digits(value)
        && number(&value[..2]) <= 23
        && number(&value[2..4]) <= 59
        && number(&value[4..]) <= 59
}

/// 01, Kinds of value: Deriva is "optional `-`, one or two digits, point, two digits. Its
/// meaning is hundredths of a metre per kilometre, with sign; `-0.00` means 0."
pub fn drift_hundredths(value: &[u8]) -> Option<i32> {
    let (sign, rest) = match value.strip_prefix(b"-") {
        Some(rest) => (-1, rest),
        None => (1, value),
    };
    if !is_decimal(rest, 2, 5) {
        return None;
    }
    let digits: Vec<u8> = rest.iter().copied().filter(|byte| *byte != b'.').collect();
    Some(sign * number(&digits) as i32)
}

/// Whether `#` stands before a value, and the rest of it. 001, 3.3.3.7: "introducibile anche manualmente" with "#".
fn split_hash(value: &[u8]) -> (bool, &[u8]) {
    match value.strip_prefix(b"#") {
        Some(rest) => (true, rest),
        None => (false, value),
    }
}

/// 001, 3.3.3.7, TempAmbiente: "Sono ammessi solo valori compresi tra -99 e 999", in at most three bytes.
fn is_temperature(value: &[u8]) -> bool {
    match value.strip_prefix(b"-") {
        Some(digits) => is_number(digits, 2),
        None => is_number(value, 3),
    }
}

/// 02, 1/14: "The reading of a revs value now gives the number and whether `#` stood before it".
#[derive(Clone, Copy, Debug, PartialEq, Eq)]
pub struct Revs {
    pub number: u32,
    pub by_hand: bool,
}

/// 01, Kinds of value: "revs: N 5, with `#` before it where entered by hand."
pub fn revs(value: &[u8]) -> Option<Revs> {
    let (by_hand, digits) = split_hash(value);
    is_number(digits, 5).then(|| Revs {
        number: number(digits),
        by_hand,
    })
}

/// 01, Bookings: "Dates compare as the number yyyymmdd, zeros included."
pub fn date_number(value: &[u8]) -> u32 {
    let (day, month, year) = day_month_year(value).expect("a date of right kind");
    year * 10_000 + month * 100 + day
}
