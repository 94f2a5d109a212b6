//! Suspended sessions: document 01, "Sessions and parking", from "Park (7, 4) writes 512 bytes" on. `suspend` is its park, `resume` its
//! take up, a suspended block its parked block, and the IV its stay number. Document 02, S-2: a block does not store its state's count, which
//! follows from the text length.

use crate::block::{padded, Block};
use crate::cipher::{Key, Mode, Registers, State};
use crate::page::{MOST_DATA, MOST_TEXT};
use crate::refusal::{require, Refusal};
use crate::session::{blocks, Phase, Session};

/// Bytes of a suspended block.
pub const SUSPENDED_BYTES: usize = 512;

/// The sum modulo 2^32 of the 127 words of 32 bits before the check.
pub fn check(block: &[u8; SUSPENDED_BYTES]) -> u32 {
    (0..127).fold(0u32, |sum, i| sum.wrapping_add(word(block, 4 * i)))
}

/// The 32-bit number that stands at a place, low byte first.
fn word(block: &[u8; SUSPENDED_BYTES], at: usize) -> u32 {
    u32::from_le_bytes([block[at], block[at + 1], block[at + 2], block[at + 3]])
}

/// Writes the session to the front of `out`. Refuses 7, 4.
pub fn suspend(session: &Session, out: &mut [u8]) -> Result<(), Refusal> {
    let phase = match session.phase {
        Phase::Data => 0,
        Phase::Text => 1,
        Phase::Finished => return Err(Refusal::OutOfPhase),
    };
    require(out.len() >= SUSPENDED_BYTES, Refusal::ShortOutput)?;
    let mut block = [0; SUSPENDED_BYTES];
    block[0] = phase;
    block[4..8].copy_from_slice(&(session.data as u32).to_le_bytes());
    block[8..12].copy_from_slice(&(session.text as u32).to_le_bytes());
    block[16..128].copy_from_slice(&session.state.registers.to_bytes());
    block[128..144].copy_from_slice(&session.hash);
    block[144..160].copy_from_slice(&session.pending);
    let sum = check(&block);
    block[508..].copy_from_slice(&sum.to_le_bytes());
    out[..SUSPENDED_BYTES].copy_from_slice(&block);
    Ok(())
}

/// Whether 512 bytes keep every layout rule.
fn well_laid(block: &[u8; SUSPENDED_BYTES]) -> bool {
    let (data, text) = (word(block, 4), word(block, 8));
    let of_phase = if block[0] == 0 { data } else { text };
    let zero = |from: usize, to: usize| block[from..to].iter().all(|byte| *byte == 0);
    block[0] <= 1
        && u64::from(data) <= MOST_DATA
        && u64::from(text) <= MOST_TEXT
        && (block[0] == 1 || text == 0)
        && zero(1, 4)
        && zero(12, 16)
        && zero(144 + of_phase as usize % 16, 160)
        && zero(160, 508)
        && word(block, 508) == check(block)
}

/// 512 bytes that keep the rules. Refuses 8.
fn laid(block: &[u8]) -> Result<&[u8; SUSPENDED_BYTES], Refusal> {
    let block = block.try_into().map_err(|_| Refusal::BadBlock)?;
    require(well_laid(block), Refusal::BadBlock)?;
    Ok(block)
}

/// The state of the session that was suspended, with its count: two blocks are drawn by begin, the others by the text. Refuses 8.
pub fn state_of(block: &[u8]) -> Result<State, Refusal> {
    let block = laid(block)?;
    let registers = Registers::from_bytes(block[16..128].try_into().unwrap());
    Ok(State { registers, count: 2 + blocks(u64::from(word(block, 8))) })
}

/// The session that was suspended, and its IV. Refuses 1, 8, 6.
pub fn resume(key: &[u8], block: &[u8]) -> Result<(Session, Block), Refusal> {
    let key = Key::new(key)?;
    let block = laid(block)?;
    let state = state_of(block)?;

    let mut walk = state.clone();
    let mut drawn = Vec::new();
    while walk.count > 0 {
        drawn.push(walk.step_back()?);
    }
    let (iv, mode) = walk.registers.start_back(&key).ok_or(Refusal::NoOrigin)?;
    require(mode == Mode::Sealed, Refusal::NoOrigin)?;

    let session = Session {
        phase: if block[0] == 0 { Phase::Data } else { Phase::Text },
        data: u64::from(word(block, 4)),
        text: u64::from(word(block, 8)),
        state,
        hash: padded(&block[128..144]),
        pending: padded(&block[144..160]),
        h: drawn[drawn.len() - 1],
        end_pad: drawn[drawn.len() - 2],
        current: drawn[0],
        iv,
    };
    Ok((session, iv))
}
