//! The keeping rule.

use crate::calendar::{days_at_the_edges, LAST};
use crate::tester::Tester;
use reference::calendar::Date;

/// Requires the same day of the month eighteen months on, or the last day of that month where it lacks the day.
fn eighteen_months_on(t: &mut Tester, departure: Date, until: Date) {
    let months = |date: Date| 12 * date.year + date.month;
    let lacking = |t: &mut Tester, day| t.day(Date { day, ..until }).is_err();
    let cut = |t: &mut Tester| until.day < departure.day && lacking(t, departure.day) && lacking(t, until.day + 1);
    if months(until) != months(departure) + 18 || (until.day != departure.day && !cut(t)) {
        t.fail("kept_until", format!("both give {until:?} for {departure:?}"));
    }
}

/// The date until which every departure is kept, and that it is kept up to that very day. Past 2199 there is no day behind it.
#[test]
fn kept_around_the_edge_of_every_departure() {
    let mut t = Tester::new("kept around the edge of every departure");
    for departure in 0..=LAST {
        if !t.chosen() {
            continue;
        }
        let (date, until) = (t.date(departure), t.kept_until(departure));
        eighteen_months_on(&mut t, date, until);
        let edge = t.day(until).ok();
        if edge.is_none() != (until.year > 2199) {
            t.fail("day", format!("both give {edge:?} for {until:?}"));
        }
        let around = edge.map_or(0..0, |edge| edge - 2..edge + 3);
        for today in around.chain([departure.saturating_sub(1), departure, 0, LAST]).filter(|today| *today <= LAST) {
            let (answer, kept) = t.kept(today, departure, 1);
            t.expect("kept", answer, 0);
            t.expect("kept", u64::from(kept[0]), u64::from(edge.is_none_or(|edge| today <= edge)));
        }
    }
    t.done();
}

/// Every pair of days at and beside the edges, and days that a narrower number would confuse with them.
#[test]
fn kept_at_the_edges() {
    let mut t = Tester::new("kept at the edges");
    let days = days_at_the_edges();
    for today in &days {
        for departure in &days {
            for kept_len in [0, 1, 2, 9] {
                if t.chosen() {
                    t.kept(*today, *departure, kept_len);
                }
            }
        }
    }
    t.done();
}

#[test]
fn kept_until_at_the_edges() {
    let mut t = Tester::new("kept until at the edges");
    for departure in days_at_the_edges() {
        for date_len in 0..=9 {
            if t.chosen() {
                t.kept_until_in(departure, date_len);
            }
        }
    }
    t.done();
}

/// Good days with each other and with numbers of any size.
#[test]
fn kept_of_random_days() {
    let mut t = Tester::new("kept of random days");
    for _ in 0..t.rounds(20_000) {
        let (today, departure) = (t.random.below(73_049) as u64, t.random.below(73_049) as u64);
        let any = t.random.next() >> t.random.below(64);
        for (today, departure) in [(today, departure), (today, any), (any, departure)] {
            t.kept(today, departure, 1);
        }
        let date_len = t.random.below(10);
        t.kept_until_in(any, date_len);
    }
    t.done();
}
