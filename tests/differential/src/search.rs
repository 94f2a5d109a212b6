//! The search where the count is only roughly known: document 02, S-8. Its parked block is a suspended block, and its stay number the IV.

use crate::block::Block;
use crate::cipher::{Key, Mode, Registers, MOST_BLOCKS};
use crate::refusal::{require, Refusal};

/// Bytes of a dump: those of a suspended block from 16 to 127.
pub const DUMP_BYTES: usize = 112;

/// The least count that fits, the IV and mode that lead there, and the steps walked.
#[derive(Clone, Copy, Debug, PartialEq, Eq)]
pub struct Found {
    /// "the least count between them, both included".
    pub count: u64,
    /// The stay number.
    pub iv: Block,
    /// The mode.
    pub mode: Mode,
    /// See [`steps`].
    pub steps: u64,
}

/// A refusal, with the steps walked where it is 6.
#[derive(Clone, Copy, Debug, PartialEq, Eq)]
pub struct Refused {
    /// Why.
    pub refusal: Refusal,
    /// "Here 6 .. carries the steps too"; any other refusal returns its number only.
    pub steps: Option<u64>,
}

impl From<Refusal> for Refused {
    fn from(refusal: Refusal) -> Refused {
        Refused { refusal, steps: None }
    }
}

/// "c + 16 times (c - lowest + 1) where c is found, and with the highest for c where none is".
pub fn steps(lowest: u64, c: u64) -> u64 {
    c + 16 * (c - lowest + 1)
}

/// The least count in the range at which an IV and mode lead to the registers of the dump under the key. Refuses 1, 8, 9, 18, 6.
///
/// The registers at a count, walked back by as many steps, are those right behind a start. From one count to the next it is one step more.
pub fn search(dump: &[u8], key: &[u8], lowest: u64, highest: u64) -> Result<Found, Refused> {
    let key = Key::new(key)?;
    let dump: &[u8; DUMP_BYTES] = dump.try_into().map_err(|_| Refusal::BadBlock)?;
    require(highest <= MOST_BLOCKS, Refusal::CountTooHigh)?;
    require(lowest <= highest, Refusal::RangeOrder)?;

    let mut walk = Registers::from_bytes(dump);
    for _ in 0..lowest {
        walk.step_back();
    }
    for count in lowest..=highest {
        if count > lowest {
            walk.step_back();
        }
        if let Some((iv, mode)) = walk.clone().start_back(&key) {
            return Ok(Found { count, iv, mode, steps: steps(lowest, count) });
        }
    }
    Err(Refused { refusal: Refusal::NoOrigin, steps: Some(steps(lowest, highest)) })
}
