//! Faults in what 02, 5/14 asks.

use outside::dates::{Date, LAST};
use outside::devices::{line_of, measure_in};
use outside::entries::{due_dates, BENCH_DUE_DATE};
use outside::judge::{Call, Reference, Set, SECONDS};
use outside::measures::Measure;
use outside::met::value_in;
use outside::mutator::files::set_value;
use outside::reference::devices::day_number;
use outside::reference::tables::{table, DRIFT, GAS, OPACITY, RESULT_FILES, SUSPENSION};

use super::opacity::refuse;

#[derive(Clone, Copy, Debug)]
pub enum Devices {
    NotJudged(u32, &'static str),
    /// Days of grace behind the due date; less than none: its own day is not covered.
    Grace(i32),
    MidnightForgotten,
    EqualTimesNextDay,
    LastDayForgiven,
    /// The numbers of March to December of a year are so much too large.
    InYear(usize, i32),
    /// Those of all years from this one on.
    FromYear(usize, i32),
    ByDigits,
    BenchWhereEmpty,
    NotWithIntegrato,
    /// Another date is taken for a due date.
    DateToo(&'static str),
    NotWithErrorCode,
    LastNamed,
    LineOfMeasure,
    After13,
    Before10,
    Length(Length),
    OfReading,
    OfWriting,
    OfColumn,
}

/// A fault in the lengths.
#[derive(Clone, Copy, Debug)]
pub enum Length {
    ByDigits,
    ZeroOverMidnight,
    WithoutModulo,
    Backwards,
    DayWhenEqual,
    Modulo(u32),
    InBits(u32),
    WithoutSeconds,
    NotOf(u32),
    NotGivenToo(u32),
    Swapped(u32, u32),
    OneNumberOn,
    OfRefusal,
}

pub const FAULTS: [Devices; 42] = [
    Devices::NotJudged(DRIFT, "DataScadenza"),
    Devices::NotJudged(SUSPENSION, "DataScadenza"),
    Devices::NotJudged(GAS, "DataScadenzaAnalizzatore"),
    Devices::NotJudged(GAS, "DataScadenzaContagiri"),
    Devices::NotJudged(GAS, "DataScadenzaProvaVelocita"),
    Devices::NotJudged(OPACITY, "DataScadenzaOpacimetro"),
    Devices::NotJudged(OPACITY, "DataScadenzaContagiri"),
    Devices::Grace(-1),
    Devices::Grace(1),
    Devices::MidnightForgotten,
    Devices::EqualTimesNextDay,
    Devices::LastDayForgiven,
    // 1900 a leap year within the year alone, so that its last day is the first of the next.
    Devices::InYear(1900, 1),
    // 29 February is the day behind it.
    Devices::InYear(1904, -1),
    Devices::InYear(2000, -1),
    Devices::InYear(2096, -1),
    // A leap day is not counted behind its year, so that a year's last day is the first of the next.
    Devices::FromYear(1901, -1),
    Devices::FromYear(2001, -1),
    Devices::ByDigits,
    Devices::BenchWhereEmpty,
    Devices::NotWithIntegrato,
    Devices::DateToo("DataVersioneProtocollo"),
    Devices::DateToo("DataRegChiaveRS"),
    Devices::DateToo("DataRegChiaveContagiriRS"),
    Devices::DateToo("DataRegChiaveProvaVelocitaRS"),
    Devices::NotWithErrorCode,
    Devices::LastNamed,
    Devices::LineOfMeasure,
    Devices::After13,
    Devices::Before10,
    Devices::Length(Length::ByDigits),
    Devices::Length(Length::ZeroOverMidnight),
    Devices::Length(Length::WithoutModulo),
    Devices::Length(Length::Backwards),
    Devices::Length(Length::DayWhenEqual),
    Devices::Length(Length::Modulo(86_399)),
    // 65,535 is not the longest.
    Devices::Length(Length::InBits(16)),
    Devices::Length(Length::WithoutSeconds),
    Devices::Length(Length::Swapped(DRIFT, SUSPENSION)),
    Devices::Length(Length::Swapped(GAS, OPACITY)),
    Devices::Length(Length::OneNumberOn),
    Devices::Length(Length::OfRefusal),
];

pub const FAULTS_OF_OTHER_CALLS: [Devices; 3] =
    [Devices::OfReading, Devices::OfWriting, Devices::OfColumn];

/// Those of each result file's length.
pub fn faults_of_files() -> impl Iterator<Item = Devices> {
    let lengths = |file| [Length::NotOf(file), Length::NotGivenToo(file)];
    let all = RESULT_FILES.into_iter().flat_map(lengths);
    all.map(Devices::Length)
}

impl Devices {
    /// Spoils the answer to a call.
    pub fn spoil(self, call: &Call, answer: &mut [u32]) {
        let accepted = answer[0] == 0;
        match (self, call) {
            (Devices::OfReading, Call::Read { file, text, .. })
            | (Devices::OfColumn, Call::Due { file, text, .. })
                if accepted =>
            {
                self.refuse_by(*file, text, answer);
            }
            (Devices::OfWriting, Call::Write { output, .. }) if accepted => {
                answer[SECONDS] = output.len() as u32;
            }
            (Devices::Length(fault), Call::Judge { set, .. }) => fault.spoil(set, answer),
            (_, Call::Judge { set, .. }) => self.spoil_set(set, answer),
            _ => {}
        }
    }

    fn spoil_set(self, set: &Set, answer: &mut [u32]) {
        let file = answer[1];
        match (self, answer[0]) {
            (_, 0) => {
                for file in RESULT_FILES {
                    let text = set.slice(file);
                    if !text.is_empty() && self.refuse_by(file, text, answer) {
                        return;
                    }
                }
            }
            (Devices::After13, 19) if file == SUSPENSION => {
                let mut in_date = set.clone();
                set_value(in_date.slice_mut(file), "DataScadenza", &LAST.digits());
                let next = Reference.judge(&in_date).answer;
                if next[0] == 13 {
                    answer.copy_from_slice(&next);
                }
            }
            (_, 19) => {
                let refused = self.refuse_by(file, set.slice(file), answer);
                if !refused {
                    answer.fill(0);
                }
            }
            (Devices::Before10, 10) => {
                self.refuse_by(file, set.slice(file), answer);
            }
            _ => {}
        }
    }

    /// Refuses a file, by this fault, for a device out of date; whether it does.
    fn refuse_by(self, file: u32, text: &[u8], answer: &mut [u32]) -> bool {
        let name = match self {
            _ if !RESULT_FILES.contains(&file) => None,
            Devices::NotWithErrorCode if !value_in(text, "CodErrore").is_empty() => None,
            Devices::LastNamed => self.expired(file, text).pop(),
            _ => self.expired(file, text).first().copied(),
        };
        if let Some(name) = name {
            let line = match self {
                Devices::LineOfMeasure => line_of(text, "DataMisura"),
                _ => line_of(text, name),
            };
            refuse(answer, [19, file, line]);
        }
        name.is_some()
    }

    /// The due dates that do not cover the day on which the measure ends, in entry order.
    fn expired(self, file: u32, text: &[u8]) -> Vec<&'static str> {
        let Some(measure) = measure_in(text) else {
            return Vec::new();
        };
        let entries = table(file).sections[0].entries.iter();
        let names = entries.map(|entry| entry.name.as_str());
        names
            .filter(|name| self.is_judged(file, name, text))
            .filter(|name| self.is_expired(value_in(text, name), measure))
            .collect()
    }

    fn is_judged(self, file: u32, name: &str, text: &[u8]) -> bool {
        let due_date = due_dates(file).contains(&name);
        let is_empty = value_in(text, name).is_empty();
        match self {
            Devices::NotJudged(other, device) if other == file && device == name => false,
            Devices::NotWithIntegrato if name == "DataScadenzaContagiri" => {
                value_in(text, "TipoCollegamentoContagiri") != "INTEGRATO"
            }
            Devices::BenchWhereEmpty if name == BENCH_DUE_DATE => true,
            Devices::DateToo(date) => !is_empty && (due_date || date == name),
            _ => due_date && !is_empty,
        }
    }

    /// An empty date is before all days.
    fn is_expired(self, due: &str, measure: Measure) -> bool {
        if due.is_empty() {
            return true;
        }
        if matches!(self, Devices::ByDigits) {
            return due.as_bytes() < measure.end().digits().as_slice();
        }
        let over_midnight = match self {
            Devices::MidnightForgotten => false,
            Devices::EqualTimesNextDay => measure.start >= measure.finish,
            _ => measure.is_over_midnight(),
        };
        let end = self.number(measure.day) + i32::from(over_midnight);
        let end = match self {
            Devices::LastDayForgiven => end.min(73_049),
            _ => end,
        };
        let grace = match self {
            Devices::Grace(days) => days,
            _ => 0,
        };
        self.number(Date::from_digits(due.as_bytes())) + grace < end
    }

    /// The number of a day.
    fn number(self, day: Date) -> i32 {
        let more = match self {
            Devices::InYear(year, more) if year == day.year && day.month > 2 => more,
            Devices::FromYear(year, more) if year <= day.year => more,
            _ => 0,
        };
        day_number(&day.digits()) as i32 + more
    }
}

impl Length {
    fn spoil(self, set: &Set, answer: &mut [u32]) {
        let accepted = answer[0] == 0;
        let number = |file| RESULT_FILES.iter().position(|other| *other == file);
        let number = |file| SECONDS + number(file).expect("a result file");
        match self {
            Length::OfRefusal if answer[1] > DRIFT && !set.slice(DRIFT).is_empty() => {
                let measure = measure_in(set.slice(DRIFT)).expect("drift was judged");
                answer[SECONDS] = measure.seconds();
            }
            _ if !accepted => {}
            Length::Swapped(a, b) => answer.swap(number(a), number(b)),
            Length::OneNumberOn => answer[SECONDS..].rotate_right(1),
            _ => {
                for file in RESULT_FILES {
                    let before = answer[number(file)];
                    answer[number(file)] = self.of_file(file, set.slice(file), before);
                }
            }
        }
    }

    /// The length of a result file by this fault; `right` is the right one.
    fn of_file(self, file: u32, text: &[u8], right: u32) -> u32 {
        match self {
            Length::NotOf(other) if other == file => 0,
            Length::NotGivenToo(other) if other == file && text.is_empty() => 86_400,
            _ if text.is_empty() => right,
            _ => self.of_measure(measure_in(text).expect("an accepted file"), text, right),
        }
    }

    fn of_measure(self, measure: Measure, text: &[u8], right: u32) -> u32 {
        let Measure { start, finish, .. } = measure;
        match self {
            Length::ByDigits => {
                let digits = |name| value_in(text, name).parse::<u32>().expect("digits");
                (240_000 + digits("FineMisura") - digits("InizioMisura")) % 240_000
            }
            Length::ZeroOverMidnight => finish.saturating_sub(start),
            Length::WithoutModulo => finish.wrapping_sub(start),
            Length::Backwards => start.abs_diff(finish),
            Length::DayWhenEqual if start == finish => 86_400,
            Length::Modulo(seconds) => right % seconds,
            Length::InBits(bits) => right & ((1 << bits) - 1),
            Length::WithoutSeconds => right / 60 * 60,
            _ => right,
        }
    }
}
