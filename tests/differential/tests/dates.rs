//! The program `dates` prints what the reference says of its days, dates and departures.

use reference::calendar::{date, day, Date, LAST_DAY};
use reference::keeping::{kept, kept_until};
use reference::refusal::Refusal;
use std::fmt::Write;

/// A refusal as the program prints it.
fn refused(refusal: Refusal) -> String {
    format!("refused {}", refusal as u64)
}

fn shown(Date { year, month, day }: Date) -> String {
    format!("{year}-{month:02}-{day:02}")
}

fn number_of(date: Date) -> String {
    day(date).map_or_else(refused, |n| n.to_string())
}

fn line_of_day(n: u64) -> String {
    let said = date(n).map_or_else(refused, |date| format!("{} is {}", shown(date), number_of(date)));
    format!("{n}: {said}")
}

fn verdict(today: u64, departure: u64) -> String {
    kept(today, departure).map_or_else(refused, |kept| if kept { "kept" } else { "not kept" }.to_string())
}

/// Until when, and the verdicts on the day before, on that day and on the next; past the last day, that on the last.
fn until(departure: u64) -> String {
    let Ok(last) = kept_until(departure) else { return refused(Refusal::DayRange) };
    let days = day(last).map_or_else(|_| vec![LAST_DAY], |n| vec![n - 1, n, n + 1]);
    days.iter().fold(shown(last), |said, today| format!("{said}, {}", verdict(*today, departure)))
}

const EDGES: [(u64, u64); 10] = [
    (0, 3),
    (30, 33),
    (57, 62),
    (364, 369),
    (423, 426),
    (730, 732),
    (36_522, 36_527),
    (36_582, 36_586),
    (36_889, 36_892),
    (73_046, 73_050),
];

const DATES: [(u64, u64, u64); 18] = [
    (2100, 2, 28),
    (2100, 2, 29),
    (2000, 2, 29),
    (2000, 2, 30),
    (2023, 2, 29),
    (2024, 4, 30),
    (2024, 4, 31),
    (2024, 8, 31),
    (2024, 8, 32),
    (2024, 0, 1),
    (2024, 13, 1),
    (2024, 1, 0),
    (1999, 12, 31),
    (2200, 1, 1),
    (0, 0, 0),
    (u64::MAX, 12, 31),
    (2024, u64::MAX, 31),
    (2024, 12, u64::MAX),
];

const ASKED: [(u64, u64); 7] =
    [(73_049, 0), (0, 73_049), (73_049, 73_049), (u64::MAX, 73_048), (73_048, u64::MAX), (0, 73_048), (73_048, 0)];

fn output() -> String {
    let mut printed = String::new();
    let edges = EDGES.iter().flat_map(|(first, end)| *first..*end);
    for n in (0..=LAST_DAY).step_by(997).chain(edges).chain([u64::MAX]) {
        writeln!(printed, "{}", line_of_day(n)).unwrap();
    }
    for (year, month, day) in DATES {
        let date = Date { year, month, day };
        writeln!(printed, "{}: {}", shown(date), number_of(date)).unwrap();
    }
    for year in [2000, 2022, 2024, 2098, 2100, 2198, 2199] {
        for month in 1..=12 {
            for departure in [1, 28, 29, 30, 31].map(|day| Date { year, month, day }) {
                if let Ok(n) = day(departure) {
                    writeln!(printed, "{}: until {}", shown(departure), until(n)).unwrap();
                }
            }
        }
    }
    for (today, departure) in ASKED {
        writeln!(printed, "{today} by {departure}, {}", verdict(today, departure)).unwrap();
    }
    writeln!(printed, "73049: until {}", until(73_049)).unwrap();
    printed
}

#[test]
fn dates() {
    let printed = include_str!("../../../crates/dates/stdout");
    for (i, (found, expected)) in printed.lines().zip(output().lines()).enumerate() {
        assert_eq!(found, expected, "line {}", i + 1);
    }
    assert_eq!(printed, output());
}
