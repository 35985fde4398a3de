//! The measure of a result file (02, 5/14), said apart from the reference's judging of it.

use crate::dates::Date;

const SECONDS_OF_A_DAY: u32 = 86_400;

/// Seconds since midnight of six digits hhmmss.
fn seconds(digits: &[u8]) -> u32 {
    let text = std::str::from_utf8(digits).expect("digits");
    let parts = [0, 2, 4].map(|at| text[at..at + 2].parse::<u32>().expect("digits"));
    parts.into_iter().fold(0, |sum, part| 60 * sum + part)
}

fn digits(seconds: u32) -> Vec<u8> {
    let (hours, minutes) = (seconds / 3600, seconds / 60 % 60);
    format!("{hours:02}{minutes:02}{:02}", seconds % 60).into_bytes()
}

/// When something was measured: the day on which it began, and seconds since midnight.
#[derive(Clone, Copy, Debug, PartialEq, Eq)]
pub struct Measure {
    pub day: Date,
    pub start: u32,
    pub finish: u32,
}

/// The entries of a result file that say it.
pub const ENTRIES: [&str; 3] = ["DataMisura", "InizioMisura", "FineMisura"];

impl Measure {
    /// Of these entries' values.
    pub fn new([day, start, finish]: [&[u8]; 3]) -> Measure {
        Measure {
            day: Date::from_digits(day),
            start: seconds(start),
            finish: seconds(finish),
        }
    }

    /// Those entries, each with its value.
    pub fn entries(self) -> impl Iterator<Item = (&'static str, Vec<u8>)> {
        let values = [self.day.digits(), digits(self.start), digits(self.finish)];
        ENTRIES.into_iter().zip(values)
    }

    /// 02, 8/14: of a joined file, "the first's start, the second's end".
    pub fn joined(self, second: Measure) -> Measure {
        Measure {
            finish: second.finish,
            ..self
        }
    }

    /// 02, 5/14: "FineMisura is below its InizioMisura"; equal times are of one day.
    pub fn is_over_midnight(self) -> bool {
        self.start > self.finish
    }

    /// The day on which it ends.
    pub fn end(self) -> Date {
        if self.is_over_midnight() {
            self.day.next()
        } else {
            self.day
        }
    }

    /// How long it lasts: up to midnight and from there on, or from start to finish.
    pub fn seconds(self) -> u32 {
        if self.is_over_midnight() {
            SECONDS_OF_A_DAY - self.start + self.finish
        } else {
            self.finish - self.start
        }
    }
}
