//! Days and dates.

use crate::tester::Tester;
use reference::calendar::{self, Date};

pub const LAST: u64 = 73_048;

/// Days at and beside the ends of the calendar, of leap years and of keeping times, and numbers that a narrower one would confuse with them.
pub fn days_at_the_edges() -> Vec<u64> {
    let dates = [
        (2000, 1, 1),
        (2000, 2, 29),
        (2000, 12, 31),
        (2001, 7, 1),
        (2024, 2, 29),
        (2024, 8, 31),
        (2026, 2, 28),
        (2099, 12, 31),
        (2100, 2, 28),
        (2198, 6, 30),
        (2199, 12, 31),
    ];
    let mut days: Vec<u64> = dates.map(|(year, month, day)| calendar::day(Date { year, month, day }).unwrap()).to_vec();
    days.extend(days.clone().iter().flat_map(|day| [day.saturating_sub(1), day + 1]));
    for shift in [16, 17, 31, 32, 48, 63] {
        days.extend([(1 << shift) - 1, 1 << shift, (1 << shift) + 9_009, (1 << shift) + LAST]);
    }
    days.extend([u64::MAX - LAST, u64::MAX - 9_009, u64::MAX - 1, u64::MAX]);
    days
}

/// A number, and others that a narrower one would confuse with it.
fn alike(n: u64) -> [u64; 9] {
    [n, n + (1 << 8), n + (1 << 16), n + (1 << 31), n + (1 << 32), n + (1 << 48), n + (1 << 63), n.wrapping_neg(), !n]
}

/// Requires that a date is refused.
fn lacking(t: &mut Tester, date: Date) {
    if let Ok(day) = t.day(date) {
        t.fail("day", format!("both give day {day} for {date:?}"));
    }
}

#[test]
fn every_day_both_ways() {
    let mut t = Tester::new("every day both ways");
    for day in 0..=LAST {
        if t.chosen() {
            let date = t.date(day);
            let found = t.day(date);
            if found != Ok(day) {
                t.fail("day", format!("both give {found:?} for the date of day {day}"));
            }
        }
    }
    t.done();
}

/// All days from 0 to 33 of all months from 0 to 14, in every year that has days and in others.
#[test]
fn dates_good_and_lacking() {
    let mut t = Tester::new("dates good and lacking");
    let mut before = None;
    for year in (1999..=2200).chain([0, 1, 4, 100, 200, 400, 1582, 1600, 1900, 1970, 1996, 2400, 4000, 9999, 65_535]) {
        for month in 0..=14 {
            for day in 0..=33 {
                let date = Date { year, month, day };
                if !t.chosen() {
                    continue;
                }
                if !(2000..=2199).contains(&year) || !(1..=12).contains(&month) || !(1..=31).contains(&day) {
                    lacking(&mut t, date);
                } else if let Ok(number) = t.day(date) {
                    if before >= Some(number) {
                        t.fail("day", format!("both give {number} for {date:?}, not more than for an earlier date"));
                    }
                    before = Some(number);
                } else if day <= 28 {
                    t.fail("day", format!("both refuse {date:?}"));
                }
            }
        }
    }
    t.done();
}

/// Year, month and day of good dates, each replaced by what a narrower number would take for it.
#[test]
fn dates_that_narrower_numbers_confuse() {
    let mut t = Tester::new("dates that narrower numbers confuse");
    for good in [(2000, 1, 1), (2024, 8, 31), (2048, 2, 29), (2100, 2, 28), (2199, 12, 31)] {
        for year in alike(good.0) {
            for month in alike(good.1) {
                for day in alike(good.2) {
                    for number_len in [0, 7, 8, 20] {
                        if t.chosen() {
                            let answer = t.day_in(Date { year, month, day }, number_len).0;
                            let accepted = if number_len < 8 { 4 } else { 0 };
                            t.expect("day", answer, if (year, month, day) == good { accepted } else { 12 });
                        }
                    }
                }
            }
        }
    }
    t.done();
}

/// Every length up to 16 bytes, twice what a day's number takes, for days and dates good and not.
#[test]
fn buffers_of_dates_and_days() {
    let mut t = Tester::new("buffers of dates and days");
    for day in days_at_the_edges() {
        for len in 0..=16 {
            if t.chosen() {
                t.date_in(day, len);
                let Ok(date) = calendar::date(day) else { continue };
                t.day_in(date, len);
                t.day_in(Date { day: date.day + 31, ..date }, len);
            }
        }
    }
    t.done();
}

/// Numbers of any size for a day, and for year, month and day of a date, often with good ones beside them.
#[test]
fn random_days_and_dates() {
    let mut t = Tester::new("random days and dates");
    for _ in 0..t.rounds(50_000) {
        let day = t.random.below(73_049) as u64;
        let mut date = t.date(day);
        for part in [&mut date.year, &mut date.month, &mut date.day] {
            let any = t.random.next();
            match t.random.below(6) {
                0 => *part = any,
                1 => *part = any >> t.random.below(64),
                2 => *part = part.wrapping_add(any % 5).wrapping_sub(2),
                _ => {}
            }
        }
        let len = t.random.below(20);
        t.day_in(date, len);
        let any = t.random.next() >> t.random.below(64);
        t.date_in(any, len);
    }
    t.done();
}
