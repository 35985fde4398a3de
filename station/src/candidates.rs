//! Values that are tried with the library where it refused one: what passes is its answer, not this list's.

use crate::file_types::AC2;

/// Words of the old booking, whose kinds list none (01, Bookings).
const OLD_BOOKING: [&str; 17] = [
    "AUTOVETTURA",
    "PROMISCUO",
    "AUTOCARAVAN",
    "TRASPORTO SPECIFICO",
    "USO SPECIALE",
    "AUTOBUS",
    "AUTOCARRO",
    "TRATTORE STRADALE",
    "TRATTORE PER SEMIRIMORCHIO",
    "RIMORCHIO",
    "SEMIRIMORCHIO",
    "BENZINA CAT",
    "BENZINA<86",
    "BENZINA NO CAT",
    "DIESEL TURBO COMPRESSO",
    "DIESEL ASPIRATO SENZA CORRETTORE",
    "DIESEL ASPIRATO CON CORRETTORE",
];

/// All words of both bookings: the library's, and those of the old booking.
pub fn words() -> impl Iterator<Item = String> {
    let kinds = (0..).map_while(|entry| mctc::kind(AC2, entry).ok());
    let words = kinds.flat_map(|kind| kind.words);
    words.chain(OLD_BOOKING.map(String::from))
}

/// The words of the old booking that no kind lists.
pub fn old_booking() -> impl Iterator<Item = &'static str> {
    OLD_BOOKING.into_iter()
}

/// A day, ddmmyyyy, and what the next may be: one more, the first of the next month, the first of the next year. Those
/// that are no days the library refuses.
pub fn day_and_next(found: &[u8]) -> Option<[String; 4]> {
    let found = std::str::from_utf8(found).ok()?;
    let (day, rest) = found.split_at_checked(2)?;
    let (month, year) = rest.split_at_checked(2)?;
    let [day, month, year] = [day, month, year].map(|digits| digits.parse::<u32>().ok());
    let (day, month, year) = (day?, month?, year?);
    let days = [
        (day, month, year),
        (day + 1, month, year),
        (1, month + 1, year),
        (1, 1, year + 1),
    ];
    Some(days.map(|(day, month, year)| format!("{day:02}{month:02}{year:04}")))
}

/// All years that a day may have, as they are written.
pub fn years() -> impl Iterator<Item = String> {
    (1900..=2099).map(|year: u32| year.to_string())
}

/// All numbers below this one.
pub fn numbers(below: u32) -> impl Iterator<Item = String> {
    (0..below).map(|number| number.to_string())
}
