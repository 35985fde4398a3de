//! A DataPrimaImm with zeros, of which the day or the month is not known: how they count in the fuel of the old booking
//! (02, 3/14). Whether a value fails by them is found by trial.

use crate::booking_tables::{fuels, fuels_with};
use crate::candidates;
use crate::made_up::Values;
use crate::near::nearest;

const ENTRY: &str = "DataPrimaImm";

/// What is said of zeros.
pub struct Zeros {
    /// How they count.
    pub words: String,
    /// What does not help where no fuel fits.
    pub in_vain: Option<&'static str>,
}

/// None where the value found does not fail by the zeros of the day.
pub fn zeros(values: &Values, found: &[u8]) -> Option<Zeros> {
    let (_, day) = values.iter().find(|(name, _)| *name == ENTRY)?;
    let (month, year) = day.strip_prefix("00")?.split_at_checked(2)?;
    let tried = Tried {
        values,
        fitting: fuels(values)?,
        found,
    };
    match month {
        "00" => tried.of_month(year),
        month => tried.of_day(month, year),
    }
}

/// Values of the new booking, the fuels that fit with them in the old one, and the value found there.
struct Tried<'a> {
    values: &'a Values<'a>,
    fitting: Vec<String>,
    found: &'a [u8],
}

impl Tried<'_> {
    /// Where each day of the month is as good, and with the month before a word would fit. Before January is month 00.
    fn of_day(&self, month: &str, year: &str) -> Option<Zeros> {
        let before = month.parse::<u32>().ok()?.checked_sub(1)?;
        let word = self.word_on(&format!("00{before:02}{year}"))?;
        let mut days = (1..=31).map(|day| format!("{day:02}{month}{year}"));
        let words = format!(
            "day 00 counts as day 01 of its month, here 01/{month}/{year}, from which on `{word}` no longer fits"
        );
        days.all(|day| self.is_same_on(&day)).then_some(Zeros {
            words,
            in_vain: Some("another day of the same month does not help"),
        })
    }

    /// Where the start of the year is as good, and at its end a word would fit.
    fn of_month(&self, year: &str) -> Option<Zeros> {
        let word = self.word_on(&format!("3112{year}"))?;
        let words = format!(
            "month 00 counts as before every month of its year, here {year}, where `{word}` does not fit yet"
        );
        let is_start = self.is_same_on(&format!("0101{year}"));
        is_start.then_some(Zeros {
            words,
            in_vain: None,
        })
    }

    /// The word that fits on this day and not with the zeros. Where some word fits with them, only the one that the value
    /// found is or is near: any other value is wrong on both.
    fn word_on(&self, day: &str) -> Option<String> {
        let meant = nearest(self.found, candidates::old_booking());
        let others = fuels_with(self.values, ENTRY, day)?.into_iter();
        let mut others = others.filter(|word| !self.fitting.contains(word));
        others.find(|word| self.fitting.is_empty() || meant == Some(word))
    }

    /// Whether the same fuels fit on this day; true where there is no such day.
    fn is_same_on(&self, day: &str) -> bool {
        let others = fuels_with(self.values, ENTRY, day);
        others.is_none_or(|others| others == self.fitting)
    }
}

#[cfg(test)]
mod tests {
    use super::zeros;

    /// The days with zeros of which something is said, of all in some years.
    fn told(directive: &str, found: &str) -> Vec<String> {
        let years = [1985, 1986, 1987, 2001, 2002, 2003].into_iter();
        let days = years.flat_map(|year| (0..=12).map(move |month| format!("00{month:02}{year}")));
        let is_told = |day: &String| {
            let values = [
                ("Alimentazione_1", "BENZINA"),
                ("DirettivaEmissioniGasBenzinaAuto", directive),
                ("DataPrimaImm", day.as_str()),
            ];
            zeros(&values, found.as_bytes()).is_some()
        };
        days.filter(is_told).collect()
    }

    /// On 00072002 with RT1902, and on 00101986 with NESSUNA, no fuel fits, whatever is found.
    #[test]
    fn only_zeros_that_a_value_fails_by_are_told() {
        for (found, rt1902) in [
            ("BENZINA<86", &["00101986", "00072002"][..]),
            ("benzina <86", &["00101986", "00072002"]),
            ("BENZINA NO CAT", &["00001986", "00072002"]),
            ("BENZINA CAT", &["00072002"]),
            ("BENZINA", &["00072002"]),
            ("", &["00072002"]),
        ] {
            assert_eq!(told("RT1902", found), rt1902, "{found}");
            assert_eq!(told("NESSUNA", found), ["00101986"], "{found}");
            assert!(told("98/69/CE", found).is_empty(), "{found}");
        }
    }
}
