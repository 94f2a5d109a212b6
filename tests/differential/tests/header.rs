//! The declarations and numbers that the tests use are those of include/tulvekas.h, and none of its calls is left out. The calls that it shows
//! are made by the examples, and its days are those of the calendar.

use reference::calendar::{date, Date};
use reference::refusal::Refusal;
use reference::{calendar, calls, cipher, keeping, key_store, page, page_file, scheduler, search, suspended};
use std::collections::BTreeMap;

const HEADER: &str = include_str!("../../../include/tulvekas.h");
const DECLARATIONS: &str = include_str!("differential/library.rs");
const EXAMPLES: [&str; 6] = [
    include_str!("../../../examples/seal_by_pieces.c"),
    include_str!("../../../examples/page_file.c"),
    include_str!("../../../examples/states.c"),
    include_str!("../../../examples/keys.c"),
    include_str!("../../../examples/dump.c"),
    include_str!("../../../examples/scheduler.c"),
];

/// Each call with its parameters as Rust writes them.
type Calls = BTreeMap<String, Vec<String>>;

/// The text without its comments.
fn code(header: &str) -> String {
    let mut code = String::new();
    for (i, part) in header.split("/*").enumerate() {
        code += if i == 0 { part } else { part.split_once("*/").unwrap().1 };
    }
    code
}

/// What stands between a call's name and its closing bracket, cut at the commas.
fn calls_of(source: &str, before: &str, parameter: fn(&str) -> String) -> Calls {
    let call = |part: &str| {
        let (name, rest) = part.split_once('(').unwrap();
        let parameters = rest.split_once(')').unwrap().0.split(',').map(str::trim).filter(|text| !text.is_empty());
        (name.to_string(), parameters.map(parameter).collect())
    };
    source.split(before).skip(1).map(call).collect()
}

fn from_c(text: &str) -> String {
    let (kind, name) = text.rsplit_once([' ', '*']).unwrap();
    let kind = match (kind.trim(), text.contains('*')) {
        ("const uint8_t", true) => "*const u8",
        ("uint8_t", true) => "*mut u8",
        ("size_t", false) => "usize",
        ("uint32_t", false) => "u32",
        ("uint64_t", false) => "u64",
        other => panic!("{other:?} in {text}"),
    };
    format!("{name}: {kind}")
}

#[test]
fn calls_are_declared_as_in_the_header() {
    let header = calls_of(&code(HEADER), "uint64_t tulvekas_", from_c);
    let declared = calls_of(DECLARATIONS, "pub fn tulvekas_", str::to_string);
    assert_eq!(header.len(), 27);
    assert_eq!(declared, header);
}

/// A number as the header writes it, one of 64 bits in the macro for such constants.
fn value(text: &str) -> u64 {
    let text = text.trim();
    let digits = text.strip_prefix("UINT64_C(").and_then(|text| text.strip_suffix(')')).unwrap_or(text);
    digits.parse().unwrap()
}

#[test]
fn numbers_are_those_of_the_header() {
    let header = code(HEADER);
    let defined: BTreeMap<&str, u64> = header
        .lines()
        .filter_map(|line| line.strip_prefix("#define TULVEKAS_"))
        .filter_map(|line| line.split_once(' '))
        .map(|(name, text)| (name, value(text)))
        .collect();
    let expected = BTreeMap::from([
        ("KEY_BYTES", 32),
        ("IV_BYTES", 16),
        ("TAG_BYTES", 16),
        ("BLOCK_BYTES", 16),
        ("SESSION_BYTES", calls::SESSION_BYTES as u64),
        ("SUSPENDED_BYTES", suspended::SUSPENDED_BYTES as u64),
        ("STATE_BYTES", calls::STATE_BYTES as u64),
        ("DUMP_BYTES", search::DUMP_BYTES as u64),
        ("COUNT_BYTES", calls::COUNT_BYTES as u64),
        ("STEPS_BYTES", calls::STEPS_BYTES as u64),
        ("PAGE_BYTES", page_file::PAGE_BYTES as u64),
        ("STAY_BYTES", page_file::STAY_BYTES as u64),
        ("LENGTH_BYTES", calls::LENGTH_BYTES as u64),
        ("DATE_BYTES", calls::DATE_BYTES as u64),
        ("DAY_BYTES", calls::DAY_BYTES as u64),
        ("KEYS_BLOCK_BYTES", key_store::BLOCK_BYTES as u64),
        ("SCHEDULE_BYTES", scheduler::SCHEDULE_BYTES as u64),
        ("TURN_BYTES", calls::TURN_BYTES as u64),
        ("DUE_BYTES", calls::DUE_BYTES as u64),
        ("MOST_DATA", page::MOST_DATA),
        ("MOST_TEXT", page::MOST_TEXT),
        ("MOST_PAGE_TEXT", page_file::MOST_PAGE_TEXT as u64),
        ("MOST_BLOCKS", cipher::MOST_BLOCKS),
        ("LAST_DAY", calendar::LAST_DAY),
        ("FIRST_YEAR", calendar::FIRST_YEAR),
        ("LAST_YEAR", calendar::LAST_YEAR),
        ("KEPT_MONTHS", keeping::KEPT_MONTHS),
        ("MOST_STAYS", scheduler::MOST_STAYS as u64),
        ("MOST_PIECE", scheduler::MOST_PIECE),
        ("MOST_TURNS", scheduler::MOST_TURNS),
        ("ACCEPTED", 0),
        ("KEY_LENGTH", Refusal::KeyLength as u64),
        ("IV_LENGTH", Refusal::IvLength as u64),
        ("TOO_LONG", Refusal::TooLong as u64),
        ("SHORT_OUTPUT", Refusal::ShortOutput as u64),
        ("BAD_TAG", Refusal::BadTag as u64),
        ("NO_ORIGIN", Refusal::NoOrigin as u64),
        ("OUT_OF_PHASE", Refusal::OutOfPhase as u64),
        ("BAD_BLOCK", Refusal::BadBlock as u64),
        ("COUNT_TOO_HIGH", Refusal::CountTooHigh as u64),
        ("TAG_LENGTH", Refusal::TagLength as u64),
        ("MALFORMED", Refusal::Malformed as u64),
        ("DAY_RANGE", Refusal::DayRange as u64),
        ("BAD_FILE", Refusal::BadFile as u64),
        ("BAD_STAY", Refusal::BadStay as u64),
        ("BEFORE_START", Refusal::BeforeStart as u64),
        ("NUMBER_TAKEN", Refusal::NumberTaken as u64),
        ("NO_KEY", Refusal::NoKey as u64),
        ("RANGE_ORDER", Refusal::RangeOrder as u64),
        ("SCHEDULER_FULL", Refusal::SchedulerFull as u64),
    ]);
    assert_eq!(defined, expected);
}

/// The text with one space between two words, and no star in front of a line.
fn words(text: &str) -> String {
    let lines = text.lines().map(|line| line.strip_prefix(" *").unwrap_or(line));
    lines.flat_map(str::split_whitespace).collect::<Vec<_>>().join(" ")
}

#[test]
fn shown_calls_are_those_of_the_examples() {
    let examples = EXAMPLES.map(words);
    let indented = HEADER.lines().filter_map(|line| line.strip_prefix(" *     "));
    let shown: Vec<_> = indented.filter(|line| line.starts_with("tulvekas_") && line.ends_with(')')).collect();
    assert_eq!(shown.len(), 28);
    for call in shown {
        assert!(examples.iter().any(|example| example.contains(call)), "{call}");
    }
}

/// The steps that the header names for a search of all counts.
#[test]
fn steps_are_those_of_the_search() {
    let most = cipher::MOST_BLOCKS;
    assert!(words(HEADER).contains("All counts from 0 to 65,538 take 1,114,162 steps."));
    assert_eq!((most, search::steps(0, most)), (65_538, 1_114_162));
}

/// A date in words.
fn said(date: Date) -> String {
    let months = ["January", "February", "March", "April", "May", "June", "July", "August", "September", "October", "November", "December"];
    format!("{} {} {}", date.day, months[date.month as usize - 1], date.year)
}

/// The dates that the header names for days, and its example.
#[test]
fn dates_are_those_of_the_calendar() {
    let header = words(HEADER);
    let requires = |text: String| assert!(header.contains(&text), "{text}");
    let on = |day| said(date(day).unwrap());
    let last = calendar::LAST_DAY;
    requires(format!("since {}, which is day 0, up to TULVEKAS_LAST_DAY, which is {}.", on(0), on(last)));
    requires(format!("for a departure on {}, is {}.", on(last), said(keeping::kept_until(last).unwrap())));
    let until = keeping::kept_until(9_009).unwrap();
    let edge = calendar::day(until).unwrap();
    requires(format!("{} is day 9009, and a page of that departure is kept until {}, which is day {edge}:", on(9_009), said(until)));
    requires(format!("tulvekas_kept({edge}, 9009, &kept, 1) writes 1, and with {}, which is {}, it writes 0.", edge + 1, on(edge + 1)));
    assert_eq!((keeping::kept(edge, 9_009), keeping::kept(edge + 1, 9_009)), (Ok(true), Ok(false)));
    assert_eq!(on(9_009), "31 August 2024");
}
