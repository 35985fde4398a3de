//! Days as year, month and day, which compare in this order, apart from the reference's day numbers.

#[derive(Clone, Copy, Debug, PartialEq, Eq, PartialOrd, Ord)]
pub struct Date {
    pub year: usize,
    pub month: usize,
    pub day: usize,
}

/// The first and the last day of kind D.
pub const FIRST: Date = Date::new(1, 1, 1900);
pub const LAST: Date = Date::new(31, 12, 2099);

pub fn days_in_month(month: usize, year: usize) -> usize {
    let leap = (year.is_multiple_of(4) && !year.is_multiple_of(100)) || year.is_multiple_of(400);
    [
        31,
        28 + usize::from(leap),
        31,
        30,
        31,
        30,
        31,
        31,
        30,
        31,
        30,
        31,
    ][month - 1]
}

impl Date {
    pub const fn new(day: usize, month: usize, year: usize) -> Date {
        Date { year, month, day }
    }

    /// Of eight digits ddmmyyyy.
    pub fn from_digits(digits: &[u8]) -> Date {
        let text = std::str::from_utf8(digits).expect("digits");
        let number = |part: &str| part.parse().expect("digits");
        Date::new(number(&text[..2]), number(&text[2..4]), number(&text[4..]))
    }

    pub fn digits(self) -> Vec<u8> {
        let Date { year, month, day } = self;
        format!("{day:02}{month:02}{year:04}").into_bytes()
    }

    pub fn last_of_month(month: usize, year: usize) -> Date {
        Date::new(days_in_month(month, year), month, year)
    }

    /// The next day, which after the last one is of no kind.
    pub fn next(self) -> Date {
        let Date { year, month, day } = self;
        if self < Date::last_of_month(month, year) {
            Date::new(day + 1, month, year)
        } else if month < 12 {
            Date::new(1, month + 1, year)
        } else {
            Date::new(1, 1, year + 1)
        }
    }

    /// The day before, if there is one of kind D.
    pub fn previous(self) -> Option<Date> {
        let Date { year, month, day } = self;
        if self <= FIRST {
            None
        } else if day > 1 {
            Some(Date::new(day - 1, month, year))
        } else if month > 1 {
            Some(Date::last_of_month(month - 1, year))
        } else {
            Some(Date::last_of_month(12, year - 1))
        }
    }
}
