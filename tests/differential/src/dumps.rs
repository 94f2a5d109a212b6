//! What the program `dumps` prints: searches of dumps at known counts, of dumps that nothing leads to, and what a search refuses.

use crate::cipher::{Key, Mode, State};
use crate::program::hex;
use crate::search::{search, Found, Refused, DUMP_BYTES};
use crate::session::Session;
use crate::suspended::suspend;

fn key() -> [u8; 32] {
    std::array::from_fn(|i| i as u8)
}

fn other_key() -> [u8; 32] {
    std::array::from_fn(|i| 255 - i as u8)
}

fn iv() -> [u8; 16] {
    std::array::from_fn(|i| 0x20 + i as u8)
}

/// The registers so many blocks behind a start.
fn at(mode: Mode, count: u64) -> [u8; DUMP_BYTES] {
    let mut state = State::start(&Key::new(&key()).unwrap(), &iv(), mode);
    while state.count < count {
        state.step().unwrap();
    }
    state.registers.to_bytes()
}

/// The block of a session with 20 bytes of text, suspended.
fn suspended_block() -> [u8; 512] {
    let (mut session, mut block) = (Session::begin(&key(), &iv()).unwrap(), [0; 512]);
    session.text(b"one guest, one night", &mut [0; 20]).unwrap();
    suspend(&session, &mut block).unwrap();
    block
}

fn said(mode: Mode) -> &'static str {
    match mode {
        Mode::Plain => "plain mode",
        Mode::Sealed => "sealed mode",
    }
}

/// A line about a search under a key. Of a refusal without steps none were walked.
fn under(label: &str, dump: &[u8], key: &[u8], lowest: u64, highest: u64) -> String {
    let answer = match search(dump, key, lowest, highest) {
        Ok(Found { count, iv, mode, steps }) => format!("count {count}, IV {}, {}, {steps} steps", hex(&iv), said(mode)),
        Err(Refused { refusal, steps }) => format!("refused {}, {} steps", refusal as u64, steps.unwrap_or(0)),
    };
    format!("{label}, {lowest} to {highest}: {answer}\n")
}

fn line(label: &str, dump: &[u8], lowest: u64, highest: u64) -> String {
    under(label, dump, &key(), lowest, highest)
}

/// Dumps of states that the key leads to.
fn known() -> String {
    let mut lines = String::new();
    for mode in [Mode::Plain, Mode::Sealed] {
        let (label, dump) = (format!("{} at 100", said(mode)), at(mode, 100));
        for (lowest, highest) in [(0, 200), (90, 110), (100, 110), (90, 100), (100, 100), (90, 99), (101, 110)] {
            lines += &line(&label, &dump, lowest, highest);
        }
    }
    for (mode, count, ranges) in [
        (Mode::Plain, 0, &[(0, 0), (1, 3)][..]),
        (Mode::Plain, 1, &[(0, 1), (0, 0)]),
        (Mode::Sealed, 65_538, &[(65_538, 65_538), (65_530, 65_538), (65_530, 65_537)]),
    ] {
        let (label, dump) = (format!("{} at {count}", said(mode)), at(mode, count));
        for (lowest, highest) in ranges {
            lines += &line(&label, &dump, *lowest, *highest);
        }
    }
    let block = suspended_block();
    for (lowest, highest) in [(0, 65_538), (5, 10)] {
        lines += &line("suspended block at 4", &block[16..128], lowest, highest);
    }
    lines
}

/// What no IV and mode lead to.
fn foreign() -> [u8; DUMP_BYTES] {
    [0x5a; DUMP_BYTES]
}

fn unknown() -> String {
    let dump = at(Mode::Plain, 100);
    let mut changed = dump;
    changed[77] ^= 0x40;
    let lines = [
        line("foreign", &foreign(), 0, 65_538),
        line("a bit changed", &changed, 90, 110),
        under("under another key", &dump, &other_key(), 90, 110),
    ];
    lines.concat()
}

/// Each refusal for itself, then two at once, then four.
fn refused() -> String {
    let (key, dump) = (&key()[..], &[&at(Mode::Plain, 100)[..], &[0]].concat()[..]);
    let lines = [
        under("key of 31 bytes", &dump[..112], &key[..31], 90, 110),
        line("dump of 0 bytes", &[], 90, 110),
        line("dump of 111 bytes", &dump[..111], 90, 110),
        line("dump of 113 bytes", dump, 90, 110),
        line("past the limit", &dump[..112], 90, 65_539),
        line("past the limit", &dump[..112], 90, u64::MAX),
        line("out of order", &dump[..112], 101, 100),
        line("out of order", &dump[..112], u64::MAX, 65_538),
        under("key of 31 bytes, dump of 111", &dump[..111], &key[..31], 90, 110),
        under("key of 31 bytes, past the limit", &dump[..112], &key[..31], 90, 65_539),
        under("key of 31 bytes, out of order", &dump[..112], &key[..31], 101, 100),
        line("dump of 111 bytes, past the limit", &dump[..111], 90, 65_539),
        line("dump of 111 bytes, out of order", &dump[..111], 101, 100),
        line("past the limit, out of order", &dump[..112], 65_540, 65_539),
        line("foreign, out of order", &foreign(), 101, 100),
        under("all four", &dump[..111], &key[..31], 65_540, 65_539),
    ];
    lines.concat()
}

/// Everything that is printed.
pub fn output() -> String {
    known() + &unknown() + &refused()
}
