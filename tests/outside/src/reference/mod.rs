//! Document 01 as a program, in the order of the paper, with the requests of document 02 that have landed: 1/14 to 9/14.
//!
//! - `lines`: line form. - `names`: two names compared. - `kinds`: kinds of value. - `tables`: headings and entries.
//! - `places`: where values stand. - `files`: one file, 3 to 9. - `due`: due entries. - `bookings`: rules of AC2 and ACC.
//! - `identification`: the identification answer. - `devices`: day numbers, measures and due dates.
//! - `judging`: a whole set, or one file alone. - `writing`: one file quoted, committed and written. - `joining`: two drift
//!   files joined.

#![forbid(unsafe_code)]

pub mod bookings;
pub mod devices;
pub mod due;
pub mod files;
pub mod identification;
pub mod joining;
pub mod judging;
pub mod kinds;
pub mod lines;
pub mod names;
pub mod places;
pub mod tables;
pub mod writing;

pub use places::PLACES;

/// 01, Judging: "a refusal that carries its number, file and line (from 1; 0 for none)".
#[derive(Clone, Copy, Debug, PartialEq, Eq)]
pub struct Refusal {
    pub number: u32,
    pub file: u32,
    pub line: u32,
}

impl Refusal {
    pub fn new(number: u32, file: u32, line: u32) -> Refusal {
        Refusal { number, file, line }
    }
}

/// 01, Judging: "acceptance, with two axle counts (0 for a file not given) and a mark per
/// result file, set exactly when it is given with CodErrore filled".
#[derive(Clone, Copy, Debug, PartialEq, Eq, Default)]
pub struct Acceptance {
    pub drift_axles: u32,
    pub suspension_axles: u32,
    pub drift_mark: bool,
    pub suspension_mark: bool,
    pub gas_mark: bool,
    /// 02, 2/14: "It is a result file, so acceptance carries its CodErrore mark".
    pub opacity_mark: bool,
    /// 02, 1/14: "acceptance carries that mark for the gas file, unset where none is given".
    pub by_hand: bool,
    /// 02, 4/14: "Acceptance carries the number of entry names compared".
    pub names_compared: u32,
    /// 02, 5/14: "Acceptance gives the length for each result file, 0 for one not given."
    pub drift_seconds: u32,
    pub suspension_seconds: u32,
    pub gas_seconds: u32,
    pub opacity_seconds: u32,
}

/// 01, Writing: a file read alone has an axle count.
#[derive(Clone, Copy, Debug, PartialEq, Eq)]
pub struct FileAcceptance {
    pub axles: u32,
    /// 02, 1/14: "A file read alone gives it likewise, unset where no revs value stands in it".
    pub by_hand: bool,
}
