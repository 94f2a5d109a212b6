//! Days and dates: document 02, S-4, "Eighteen calendar months". The calendar is gone through day by day from 1 January 2000 on, so that a day
//! number is a place in the list of all dates.

use crate::refusal::Refusal;
use std::iter::successors;
use std::sync::OnceLock;

/// The year of day 0, on 1 January.
pub const FIRST_YEAR: u64 = 2000;
/// The year of the last day, on 31 December.
pub const LAST_YEAR: u64 = 2199;
/// The last day; days count from 1 January 2000 as 0.
pub const LAST_DAY: u64 = 73_048;

/// A date; dates are in order as the calendar has them.
#[derive(Clone, Copy, Debug, PartialEq, Eq, PartialOrd, Ord)]
pub struct Date {
    /// The year.
    pub year: u64,
    /// The month, from 1 on.
    pub month: u64,
    /// The day of the month, from 1 on.
    pub day: u64,
}

/// Gregorian leap years: every fourth, of the full centuries only every fourth.
fn leap(year: u64) -> bool {
    year % 4 == 0 && (year % 100 != 0 || year % 400 == 0)
}

/// How many days a month has.
pub fn month_length(year: u64, month: u64) -> u64 {
    match month {
        2 if leap(year) => 29,
        2 => 28,
        4 | 6 | 9 | 11 => 30,
        _ => 31,
    }
}

impl Date {
    /// The date of the day after.
    fn next(self) -> Date {
        let Date { year, month, day } = self;
        if day < month_length(year, month) {
            Date { day: day + 1, ..self }
        } else if month < 12 {
            Date { year, month: month + 1, day: 1 }
        } else {
            Date { year: year + 1, month: 1, day: 1 }
        }
    }
}

/// The date of every day.
fn dates() -> &'static [Date] {
    static DATES: OnceLock<Vec<Date>> = OnceLock::new();
    DATES.get_or_init(|| {
        let first = Date { year: FIRST_YEAR, month: 1, day: 1 };
        successors(Some(first), |date| Some(date.next())).take_while(|date| date.year <= LAST_YEAR).collect()
    })
}

/// The date of a day. Refuses 12.
pub fn date(day: u64) -> Result<Date, Refusal> {
    let at = usize::try_from(day).map_err(|_| Refusal::DayRange)?;
    dates().get(at).copied().ok_or(Refusal::DayRange)
}

/// The day of a date. Refuses 12, for a date that is lacking or outside 2000 to 2199.
pub fn day(date: Date) -> Result<u64, Refusal> {
    dates().binary_search(&date).map(|at| at as u64).map_err(|_| Refusal::DayRange)
}
