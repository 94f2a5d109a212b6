//! The keeping rule: document 02, S-4, "Eighteen calendar months", in the place of document 01's.

use crate::calendar::{date, month_length, Date};
use crate::refusal::Refusal;

/// Months that a page is kept behind its departure.
pub const KEPT_MONTHS: u64 = 18;

/// "Same day eighteen months on, or that month's last day where the day is lacking".
fn months_on(date: Date, months: u64) -> Date {
    let month = 12 * date.year + (date.month - 1) + months;
    let (year, month) = (month / 12, month % 12 + 1);
    Date { year, month, day: date.day.min(month_length(year, month)) }
}

/// The last date on which a page is kept, which may lie past 2199. Refuses 12.
pub fn kept_until(departure: u64) -> Result<Date, Refusal> {
    Ok(months_on(date(departure)?, KEPT_MONTHS))
}

/// Whether a page is kept: today is on or before that date. Refuses 12, for either day.
pub fn kept(today: u64, departure: u64) -> Result<bool, Refusal> {
    Ok(date(today)? <= kept_until(departure)?)
}
