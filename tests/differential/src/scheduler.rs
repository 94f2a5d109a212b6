//! The scheduler: document 02, S-10, "Turns at the sealing desk". A scheduler is its desk, and the IV is its number.
//!
//! The document leaves the form of a scheduler in bytes open; it is that of crates/scheduler/specs/Bytes.antt. A scheduler may be made up
//! by a caller (see [`Scheduler::from_bytes`]); its numbers and sessions are then taken as they stand.

use crate::block::Block;
use crate::cipher::{iv as iv_of, Key};
use crate::page::MOST_TEXT;
use crate::refusal::{require, Refusal};
use crate::session::Session;

/// Bytes of a scheduler: 0-7 the turns done, 8-15 how many stays are there, then the places, those in use first. Numbers are low byte
/// first.
pub const SCHEDULE_BYTES: usize = HEAD_BYTES + MOST_STAYS * PLACE_BYTES;
/// "up to 32 stays".
pub const MOST_STAYS: usize = 32;
/// "that stay's next 4,096 bytes".
pub const MOST_PIECE: u64 = 4_096;
/// "Turns are numbered from 1 to 2^62".
pub const MOST_TURNS: u64 = 1 << 62;

const HEAD_BYTES: usize = 16;
/// Bytes of a place: 0-239 the session, 240-247 the bytes of text left to seal, 248-255 the mark.
const PLACE_BYTES: usize = 256;

/// A stay at the scheduler.
#[derive(Clone, Debug, PartialEq, Eq)]
pub struct Stay {
    /// Its session in bytes, so that one which was made up keeps its bytes until its turn.
    pub session: [u8; 240],
    /// Bytes of text that are not sealed yet.
    pub left: u64,
    /// "the .. turn of its last service, or, if not yet served, the number of turns done when it joined".
    pub mark: u64,
}

impl Stay {
    /// Its number.
    pub fn iv(&self) -> Block {
        Session::from_bytes(&self.session).iv
    }

    /// The length of its piece: "that stay's next 4,096 bytes, or its rest if less".
    pub fn due(&self) -> u64 {
        self.left.min(MOST_PIECE)
    }

    fn to_bytes(&self) -> [u8; PLACE_BYTES] {
        let bytes = [&self.session[..], &self.left.to_le_bytes(), &self.mark.to_le_bytes()].concat();
        bytes.try_into().unwrap()
    }

    fn from_bytes(place: &[u8]) -> Stay {
        Stay { session: place[..240].try_into().unwrap(), left: number(&place[240..248]), mark: number(&place[248..256]) }
    }
}

/// The number that 8 bytes say, low byte first.
fn number(bytes: &[u8]) -> u64 {
    u64::from_le_bytes(bytes.try_into().unwrap())
}

/// How many stays some bytes list, whatever they say.
fn how_many(bytes: &[u8; SCHEDULE_BYTES]) -> usize {
    number(&bytes[8..16]).min(MOST_STAYS as u64) as usize
}

/// What a numbered turn did.
#[derive(Clone, Copy, Debug, PartialEq, Eq)]
pub struct Service {
    /// Its number.
    pub turn: u64,
    /// The stay that it served.
    pub iv: Block,
    /// The tag with which the stay left, if it has finished.
    pub tag: Option<Block>,
}

/// A scheduler.
#[derive(Clone, Debug, PartialEq, Eq)]
pub struct Scheduler {
    /// Numbered turns done.
    pub turns: u64,
    /// Who is there, in joining order.
    pub stays: Vec<Stay>,
}

impl Scheduler {
    /// One with nobody there.
    pub fn empty() -> Scheduler {
        Scheduler { turns: 0, stays: vec![] }
    }

    /// Takes a stay with so many bytes of text to seal. Refuses 1, 2, 3, 19, 16: "A thirty-third stay gives 19, tested after 1, 2 and 3,
    /// and then a number already at the desk 16".
    pub fn join(&mut self, key: &[u8], iv: &[u8], length: u64) -> Result<(), Refusal> {
        Key::new(key)?;
        iv_of(iv)?;
        require((1..=MOST_TEXT).contains(&length), Refusal::TooLong)?;
        require(self.stays.len() < MOST_STAYS, Refusal::SchedulerFull)?;
        require(self.stays.iter().all(|stay| stay.iv() != iv), Refusal::NumberTaken)?;
        let session = Session::begin(key, iv)?.to_bytes();
        self.stays.push(Stay { session, left: length, mark: self.turns });
        Ok(())
    }

    /// "Next comes the stay with the lowest turn ..; equal ones go by joining order": its place, if anybody is there.
    fn place(&self) -> Option<usize> {
        let lowest = self.stays.iter().map(|stay| stay.mark).min()?;
        self.stays.iter().position(|stay| stay.mark == lowest)
    }

    /// The stay that comes next.
    pub fn next(&self) -> Option<&Stay> {
        self.place().map(|place| &self.stays[place])
    }

    /// Seals the next stay's piece to the front of `out`; does nothing where nobody is there. Where somebody is, refuses 9, 3, and what the
    /// stay's session refuses, which is 4 alone where it was not made up.
    pub fn turn(&mut self, piece: &[u8], out: &mut [u8]) -> Result<Option<Service>, Refusal> {
        let Some(place) = self.place() else {
            return Ok(None);
        };
        let stay = &self.stays[place];
        require(self.turns < MOST_TURNS, Refusal::CountTooHigh)?;
        require(piece.len() as u64 == stay.due(), Refusal::TooLong)?;
        let mut session = Session::from_bytes(&stay.session);
        session.text(piece, out)?;

        let (iv, left) = (stay.iv(), stay.left - stay.due());
        self.turns += 1;
        let tag = if left == 0 {
            self.stays.remove(place);
            Some(session.finish()?.0)
        } else {
            self.stays[place] = Stay { session: session.to_bytes(), left, mark: self.turns };
            None
        };
        Ok(Some(Service { turn: self.turns, iv, tag }))
    }

    /// The scheduler that some bytes list, whatever they are: as many stays as bytes 8-15 say, and 32 where they say more.
    pub fn from_bytes(bytes: &[u8; SCHEDULE_BYTES]) -> Scheduler {
        let places = bytes[HEAD_BYTES..].chunks(PLACE_BYTES);
        Scheduler { turns: number(&bytes[..8]), stays: places.take(how_many(bytes)).map(Stay::from_bytes).collect() }
    }

    /// Writes the scheduler over the bytes that listed it before a call. A place that was in use and is not any more becomes zero; one that
    /// was not in use either keeps what it holds, which is zero where nobody made the bytes up.
    pub fn write_over(&self, bytes: &mut [u8; SCHEDULE_BYTES]) {
        let before = how_many(bytes);
        bytes[..HEAD_BYTES + PLACE_BYTES * before].fill(0);
        bytes[..8].copy_from_slice(&self.turns.to_le_bytes());
        bytes[8..16].copy_from_slice(&(self.stays.len() as u64).to_le_bytes());
        for (place, stay) in bytes[HEAD_BYTES..].chunks_mut(PLACE_BYTES).zip(&self.stays) {
            place.copy_from_slice(&stay.to_bytes());
        }
    }
}
