//! A set that is made up for a drift file: what the library says of the day on which its measure ends.

use mctc::{Acceptance, Places};

use crate::booking_tables::booking;
use crate::case::{Case, Refused};
use crate::file_types::{AC2, DRIFT};
use crate::made_up;
use crate::out_of_date::{self, covering, OUT_OF_DATE};
use crate::shown;

/// A drift file that passes 3 to 10, with a new booking and nothing else.
pub struct TrialSet {
    ac2: Vec<u8>,
    drift: Vec<u8>,
}

impl TrialSet {
    pub fn new(drift: Vec<u8>) -> TrialSet {
        TrialSet {
            ac2: booking(AC2, &[]),
            drift,
        }
    }

    fn case(&self) -> Case<'_> {
        Case::made_up(made_up::STEM, &[(AC2, &self.ac2), (DRIFT, &self.drift)])
    }

    /// The refusal of its device, which is out of date.
    pub fn out_of_date(&self) -> Option<Refused<'_>> {
        let case = self.case();
        let refusal = case.refusal()?;
        (refusal.number == OUT_OF_DATE).then_some(Refused { case, refusal })
    }

    /// The same with the first due date that covers its measure, and that date. None where it is covered already, and
    /// where no date covers it.
    pub fn covered(&self) -> Option<(Vec<u8>, TrialSet)> {
        let edit = covering(&self.out_of_date()?)?;
        let drift = edit.apply(&self.drift);
        let (_, day) = shown::entry_on_line(&drift, edit.line)?;
        Some((day.to_vec(), TrialSet::new(drift)))
    }

    pub fn acceptance(&self) -> Option<Acceptance> {
        mctc::judge(&self.case().lent(), &mut Places::default()).ok()
    }

    /// The same where it is accepted, else as covered.
    pub fn in_date(self) -> Option<TrialSet> {
        match self.out_of_date().is_some() {
            true => self.covered().map(|(_, set)| set),
            false => Some(self),
        }
    }

    /// How long the measure of one that is accepted lasted.
    pub fn seconds(&self) -> Option<u32> {
        Some(self.acceptance()?.drift_seconds)
    }

    /// Of one that is accepted.
    pub fn is_over_midnight(&self) -> bool {
        out_of_date::is_over_midnight(&self.case(), DRIFT)
    }
}
