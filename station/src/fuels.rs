//! The fuels by which something is due, and how else they are written: as in the old booking, by another name, with more,
//! or short.

use crate::booking_tables;
use crate::candidates;
use crate::near::{is_alike, nearest, plain};

/// The entry of both bookings.
pub const ENTRY: &str = "Alimentazione_1";

/// Words of the new booking. Which of them pass a test, the library says.
const FUELS: [&str; 2] = ["BENZINA", "DIESEL"];

/// Other names, with the fuel: this one stands in many a vehicle's papers.
const OTHER_NAMES: [(&str, &str); 1] = [("GASOLIO", "DIESEL")];

/// So many first letters of a fuel are taken for it.
const SHORT: usize = 4;

/// The fuel of the new booking that a word of the old one goes with, by trial.
pub fn of_old_word(value: &[u8]) -> Option<&'static str> {
    let mut words = candidates::old_booking();
    let word = words.find(|word| is_alike(value, word.as_bytes()))?;
    let mut fuels = FUELS.into_iter();
    fuels.find(|fuel| booking_tables::goes_with(fuel, word))
}

/// The fuel that a value speaks of, in whatever form.
pub fn spoken_of(value: &[u8]) -> Option<&'static str> {
    of_old_word(value).or_else(|| {
        let near = nearest(value, names().map(|(name, _)| name));
        let is_spoken_of = |name: &str| match near {
            Some(near) => near == name,
            None => is_within(name, value),
        };
        let mut names = names();
        names.find_map(|(name, fuel)| is_spoken_of(name).then_some(fuel))
    })
}

/// All names of fuels, each with its fuel.
fn names() -> impl Iterator<Item = (&'static str, &'static str)> {
    FUELS
        .map(|fuel| (fuel, fuel))
        .into_iter()
        .chain(OTHER_NAMES)
}

/// Whether the value has the name within it, or begins with its first letters and no others.
fn is_within(name: &str, value: &[u8]) -> bool {
    let (name, value) = (plain(name.as_bytes()), plain(value));
    let mut letters = value.split(|byte| !byte.is_ascii_alphabetic());
    let first = letters.next().unwrap_or_default();
    value.windows(name.len()).any(|part| part == name)
        || (first.len() >= SHORT && name.starts_with(first))
}

/// Whether the fuels of the new and the old booking may be the same.
pub fn agree(new: &[u8], old: &[u8]) -> bool {
    match spoken_of(new) {
        Some(fuel) => spoken_of(old) == Some(fuel),
        None => is_alike(new, old),
    }
}

#[cfg(test)]
mod tests {
    use super::{agree, of_old_word, spoken_of};

    #[test]
    fn fuels_are_known() {
        for (value, old, spoken) in [
            ("BENZINA CAT", Some("BENZINA"), Some("BENZINA")),
            ("benzina<86", Some("BENZINA"), Some("BENZINA")),
            ("DIESEL TURBO COMPRESSO", Some("DIESEL"), Some("DIESEL")),
            ("BENZINA/GPL", None, Some("BENZINA")),
            ("GPL/BENZINA", None, Some("BENZINA")),
            ("BENZ.", None, Some("BENZINA")),
            ("BENZNA", None, Some("BENZINA")),
            ("GASOLIO", None, Some("DIESEL")),
            ("Gasol.", None, Some("DIESEL")),
            ("GAS METANO", None, None),
            ("AUTOBUS", None, None),
            ("GPL", None, None),
            ("BEN", None, None),
            ("", None, None),
        ] {
            assert_eq!(of_old_word(value.as_bytes()), old, "{value}");
            assert_eq!(spoken_of(value.as_bytes()), spoken, "{value}");
        }
        assert!(agree(b"BENZINA", b"BENZINA NO CAT"));
        assert!(agree(b"GASOLIO", b"DIESEL TURBO COMPRESSO"));
        assert!(agree(b"GPL", b"gpl"));
        assert!(!agree(b"GPL", b"METANO"));
        assert!(!agree(b"GPL", b"BENZINA CAT"));
        assert!(!agree(b"DIESEL", b"BENZINA CAT"));
        assert!(!agree(b"BENZINA", b"GPL"));
    }
}
