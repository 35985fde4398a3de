//! Faults in what 02, 3/14 asks. A wrong judge takes a first registration for another of the same year and length, or
//! for none of its kind, so that its answer differs by what hangs on the day alone.

use outside::judge::{Call, Set};
use outside::reference::tables::{AC2, ACC};
use outside::reference::Refusal;

use super::holds;

#[derive(Clone, Copy, Debug)]
pub enum OldFuel {
    /// A day taken for another.
    Taken(&'static str, &'static str),
    /// Likewise, by this directive alone.
    TakenBy(&'static str, &'static str, &'static str),
    /// Likewise, where it stands behind the directive.
    TakenBehind(&'static str, &'static str),
    /// Day 00 is right with month 00 alone.
    NoUnknownDay,
}

pub const FAULTS: [OldFuel; 17] = [
    // The former comparison, in which day 00 stays 00.
    OldFuel::Taken("00101986", "00091986"),
    OldFuel::Taken("00072002", "00062002"),
    OldFuel::TakenBy("RT1902", "00101986", "00091986"),
    OldFuel::TakenBy("NESSUNA", "00101986", "00091986"),
    OldFuel::TakenBehind("00101986", "00091986"),
    OldFuel::TakenBehind("00072002", "00062002"),
    // Month 00 moves too.
    OldFuel::Taken("00001986", "01101986"),
    OldFuel::Taken("00002002", "01072002"),
    // Day 00 counts as the first of the next month.
    OldFuel::Taken("00091986", "01101986"),
    OldFuel::Taken("00062002", "01072002"),
    // The date itself is before it, or the day before it is not.
    OldFuel::Taken("01101986", "30091986"),
    OldFuel::Taken("01072002", "30062002"),
    OldFuel::Taken("30091986", "01101986"),
    OldFuel::Taken("30062002", "01072002"),
    // The kind moves.
    OldFuel::Taken("00101986", NO_DAY),
    OldFuel::Taken("00072002", NO_DAY),
    OldFuel::NoUnknownDay,
];

/// No first registration, by its month.
const NO_DAY: &str = "00131986";

const DAY: &str = "\nDataPrimaImm=";
const DIRECTIVE: &str = "\nDirettivaEmissioniGasBenzinaAuto=";

/// Where the value behind this name starts.
fn value_at(text: &[u8], name: &str) -> Option<usize> {
    let mut parts = text.windows(name.len());
    let at = parts.position(|part| part == name.as_bytes())?;
    Some(at + name.len())
}

impl OldFuel {
    /// A set with the day for which its own is taken.
    pub fn taken(self, set: &Set) -> Set {
        let mut set = set.clone();
        let ac2 = set.slice_mut(AC2);
        let day = value_at(ac2, DAY).map(|at| at..at + NO_DAY.len());
        if let Some(day) = day.filter(|day| day.end <= ac2.len()) {
            if let Some(other) = self.other(ac2, &ac2[day.clone()]) {
                ac2[day].copy_from_slice(other.as_bytes());
            }
        }
        set
    }

    /// The day for which a day in AC2 is taken, if for another.
    fn other(self, ac2: &[u8], day: &[u8]) -> Option<&'static str> {
        let (from, to, taken) = match self {
            OldFuel::Taken(from, to) => (from, to, true),
            OldFuel::TakenBy(directive, from, to) => {
                (from, to, holds(ac2, &format!("{DIRECTIVE}{directive}\r\n")))
            }
            OldFuel::TakenBehind(from, to) => {
                (from, to, value_at(ac2, DAY) > value_at(ac2, DIRECTIVE))
            }
            OldFuel::NoUnknownDay => {
                let known_month = day.starts_with(b"00") && !day.starts_with(b"0000");
                return known_month.then_some(NO_DAY);
            }
        };
        (taken && day == from.as_bytes()).then_some(to)
    }

    /// The refusal of a set which this fault brings or keeps off.
    pub fn reason(self, call: &Call) -> Refusal {
        let Call::Judge { set, .. } = call else {
            panic!("{self:?} is found at a set");
        };
        let (number, file, name) = match self {
            OldFuel::Taken(_, NO_DAY) | OldFuel::NoUnknownDay => (9, AC2, "DataPrimaImm="),
            _ => (12, ACC, "Alimentazione_1="),
        };
        let text = String::from_utf8_lossy(set.slice(file));
        let line = text.lines().position(|line| line.starts_with(name));
        Refusal::new(number, file, line.expect("the entry is there") as u32 + 1)
    }
}
