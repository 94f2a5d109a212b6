//! What the program `saturday` prints: a changeover Saturday, on which 33 stays come to a scheduler and are sealed in turns until all have left,
//! with two more that come under numbers which have left, and calls that are refused.
//!
//! Stay i has the key of bytes (7 * i + j) mod 256, the IV of i mod 33 and 15 zeros, and a text of 1, 4,096, 4,097 or 20,000 bytes as i mod 4
//! is 0, 1, 2 or 3. Byte k of the text is (first byte of the IV + k) mod 251.

use crate::calls::{schedule_empty, schedule_join, schedule_next, schedule_turn};
use crate::page::MOST_TEXT;
use crate::program::hex;
use crate::refusal::number;
use crate::scheduler::{MOST_PIECE, MOST_TURNS, SCHEDULE_BYTES};

/// How many IVs there are.
const IVS: usize = 33;

fn key(i: usize) -> [u8; 32] {
    std::array::from_fn(|j| (7 * i + j) as u8)
}

fn iv(i: usize) -> [u8; 16] {
    std::array::from_fn(|j| if j == 0 { (i % IVS) as u8 } else { 0 })
}

fn length(i: usize) -> u64 {
    [1, 4_096, 4_097, 20_000][i % 4]
}

/// So many bytes of the text under an IV, behind those that are sealed.
fn text(first: u8, sealed: usize, len: usize) -> Vec<u8> {
    (sealed..sealed + len).map(|k| ((usize::from(first) + k) % 251) as u8).collect()
}

/// A scheduler, and how much of the text under each IV is sealed.
#[derive(Clone)]
struct Saturday {
    scheduler: Vec<u8>,
    sealed: [usize; IVS],
}

impl Saturday {
    fn new() -> Saturday {
        let mut scheduler = vec![0xa5; SCHEDULE_BYTES];
        schedule_empty(&mut scheduler).unwrap();
        Saturday { scheduler, sealed: [0; IVS] }
    }

    /// A copy of it that has done so many turns.
    fn at(&self, turns: u64) -> Saturday {
        let mut copy = self.clone();
        copy.scheduler[..8].copy_from_slice(&turns.to_le_bytes());
        copy
    }

    fn join(&mut self, i: usize) -> String {
        let answer = number(&schedule_join(&mut self.scheduler, &key(i), &iv(i), length(i)));
        if answer == 0 {
            self.sealed[i % IVS] = 0;
        }
        format!("join {i} of {}: {answer}\n", length(i))
    }

    /// A line about joining with so many bytes of a scheduler, a key and an IV; the key and the IV are those of stay 32 and a zero.
    fn join_with(&mut self, label: &str, [scheduler, key_len, iv_len]: [usize; 3], length: u64) -> String {
        let (key, iv) = ([&key(32)[..], &[0]].concat(), [&iv(32)[..], &[0]].concat());
        let answer = number(&schedule_join(&mut self.scheduler[..scheduler], &key[..key_len], &iv[..iv_len], length));
        format!("join with {label}: {answer}\n")
    }

    /// Whose turn it is, by the first byte of its IV, and the length of its piece.
    fn due(&self) -> Option<(u8, usize)> {
        let (mut found, mut iv, mut due) = ([0], [0; 16], [0; 8]);
        schedule_next(&self.scheduler, &mut found, &mut iv, &mut due).unwrap();
        (found[0] == 1).then(|| (iv[0], u64::from_le_bytes(due) as usize))
    }

    fn next(&self) -> String {
        match self.due() {
            None => "next: nobody\n".into(),
            Some((first, due)) => format!("next: IV {first} due {due}\n"),
        }
    }

    /// A turn with a piece of the due length: its number, whom it served, whether that stay has left, the front of what was written, and the
    /// tag of one that has left.
    fn turn(&mut self) -> String {
        let (first, due) = self.due().unwrap_or((0, 0));
        let piece = text(first, self.sealed[usize::from(first)], due);
        let (mut out, mut iv, mut turn, mut done, mut tag) = ([0; MOST_PIECE as usize], [0; 16], [0; 8], [0], [0; 16]);
        let answer = schedule_turn(&mut self.scheduler, &piece, &mut out, &mut iv, &mut turn, &mut done, &mut tag);
        match (number(&answer), u64::from_le_bytes(turn)) {
            (0, 0) => "turn: nobody\n".into(),
            (0, turn) => {
                self.sealed[usize::from(iv[0])] += due;
                let tag = if done[0] == 1 { format!(" tag {}", hex(&tag)) } else { String::new() };
                format!("turn {turn}: IV {} done {} {}{tag}\n", iv[0], done[0], hex(&out[..due.min(8)]))
            }
            (refused, _) => format!("turn: {refused}\n"),
        }
    }

    /// A line about a turn with so many bytes of a scheduler, and with a piece and an output of these lengths.
    fn turn_with(&mut self, label: &str, scheduler: usize, piece: usize, out: usize) -> String {
        let (piece, mut out) = (text(0, 0, piece), vec![0; out]);
        let scheduler = &mut self.scheduler[..scheduler];
        let answer = number(&schedule_turn(scheduler, &piece, &mut out, &mut [0; 16], &mut [0; 8], &mut [0], &mut [0; 16]));
        format!("turn with {label}: {answer}\n")
    }

    /// Joins that are refused for a length, each for itself and then together.
    fn refused_joins(&mut self) -> String {
        let whole = [SCHEDULE_BYTES, 32, 16];
        let lines = [
            self.join_with("8207 bytes of a scheduler", [SCHEDULE_BYTES - 1, 32, 16], 1),
            self.join_with("a key of 31 bytes", [SCHEDULE_BYTES, 31, 16], 1),
            self.join_with("a key of 33 bytes", [SCHEDULE_BYTES, 33, 16], 1),
            self.join_with("an IV of 15 bytes", [SCHEDULE_BYTES, 32, 15], 1),
            self.join_with("an IV of 17 bytes", [SCHEDULE_BYTES, 32, 17], 1),
            self.join_with("no text", whole, 0),
            self.join_with("a text of 1048577 bytes", whole, MOST_TEXT + 1),
            self.join_with("all four", [SCHEDULE_BYTES - 1, 31, 15], 0),
            self.join_with("the last three", [SCHEDULE_BYTES, 31, 15], 0),
            self.join_with("the last two", [SCHEDULE_BYTES, 32, 15], 0),
        ];
        lines.concat()
    }

    /// Turns that are refused, each for one reason and then for two.
    fn refused_turns(&mut self) -> String {
        let (_, due) = self.due().unwrap();
        let lines = [
            self.turn_with("8207 bytes of a scheduler", SCHEDULE_BYTES - 1, due, due),
            self.at(MOST_TURNS).turn_with("2^62 turns done", SCHEDULE_BYTES, due, due),
            self.turn_with("a byte more", SCHEDULE_BYTES, due + 1, due + 1),
            self.turn_with("a byte less", SCHEDULE_BYTES, due - 1, due),
            self.turn_with("a short output", SCHEDULE_BYTES, due, due - 1),
            self.at(MOST_TURNS).turn_with("2^62 turns done and a byte more", SCHEDULE_BYTES, due + 1, due + 1),
            self.turn_with("a byte more and a short output", SCHEDULE_BYTES, due + 1, due - 1),
        ];
        lines.concat()
    }

    /// The head, and how many bytes behind it are not zero.
    fn bytes(&self) -> String {
        let (head, places) = self.scheduler.split_at(16);
        format!("head: {}\nnot zero behind it: {}\n", hex(head), places.iter().filter(|byte| **byte != 0).count())
    }
}

/// 33 joins, of which the last is refused, and what else a full scheduler refuses.
fn filled(saturday: &mut Saturday) -> String {
    let mut lines = String::new();
    for i in 0..IVS {
        lines += &saturday.join(i);
    }
    lines += &saturday.join(5);
    lines + &saturday.join_with("no text", [SCHEDULE_BYTES, 32, 16], 0)
}

/// The first two turns, with what is refused before each. Both stays leave.
fn first_leave(saturday: &mut Saturday) -> String {
    let mut lines = saturday.next() + &saturday.refused_turns() + &saturday.turn();
    for i in [5, 32, 33] {
        lines += &saturday.join(i);
    }
    lines += &(saturday.next() + &saturday.refused_turns() + &saturday.turn());
    lines + &saturday.join(33)
}

/// The last number of a turn, on a copy.
fn last_numbers(saturday: &Saturday) -> String {
    let mut copy = saturday.at(MOST_TURNS - 1);
    copy.turn() + &copy.turn()
}

/// Turns until nobody is there. Behind turn 40 a stay comes under the IV of one that has left.
fn all_leave(saturday: &mut Saturday) -> String {
    let mut lines = String::new();
    for _ in 3..=40 {
        lines += &saturday.turn();
    }
    lines += &saturday.join(35);
    while saturday.due().is_some() {
        lines += &saturday.turn();
    }
    lines
}

/// What made-up bytes are answered: 32 stays, and more turns done than there are.
fn made_up() -> String {
    let mut saturday = Saturday { scheduler: vec![0xff; SCHEDULE_BYTES], sealed: [0; IVS] };
    let piece = MOST_PIECE as usize;
    let lines = [
        saturday.next(),
        saturday.join_with("made-up bytes", [SCHEDULE_BYTES, 32, 16], 1),
        saturday.turn_with("made-up bytes", SCHEDULE_BYTES, piece, piece),
        saturday.at(0).turn_with("a made-up session", SCHEDULE_BYTES, piece, piece),
    ];
    lines.concat()
}

/// Everything that is printed.
pub fn output() -> String {
    let mut saturday = Saturday::new();
    let mut lines = saturday.next() + &saturday.turn() + &saturday.refused_joins();
    lines += &filled(&mut saturday);
    lines += &first_leave(&mut saturday);
    lines += &last_numbers(&saturday);
    lines += &all_leave(&mut saturday);
    lines += &(saturday.next() + &saturday.turn() + &saturday.at(MOST_TURNS).turn());
    lines + &saturday.bytes() + &made_up()
}
