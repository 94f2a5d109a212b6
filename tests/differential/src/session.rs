//! A page by pieces: document 01, "Sessions and parking"; document 02, S-2 and S-5.
//!
//! A session may be made up by a caller (see [`Session::from_bytes`]); its numbers are then taken as they stand.

use crate::block::{padded, xor, Block};
use crate::cipher::{iv, Key, Mode, State, MOST_BLOCKS};
use crate::ghash::{lengths, update};
use crate::page::{MOST_DATA, MOST_TEXT};
use crate::refusal::{require, Refusal};

/// What a session takes next.
#[derive(Clone, Copy, Debug, PartialEq, Eq, Hash)]
pub enum Phase {
    /// Data or text.
    Data,
    /// Text alone: an accepted text piece, even an empty one, has closed the data.
    Text,
    /// Nothing.
    Finished,
}

/// The keystream blocks that so many bytes of text take.
pub fn blocks(text: u64) -> u64 {
    text.div_ceil(16)
}

/// A session. Two sessions that were given the same key, IV, data and text, however cut, are equal.
#[derive(Clone, Debug, PartialEq, Eq, Hash)]
pub struct Session {
    pub(crate) phase: Phase,
    /// Bytes of associated data so far.
    pub(crate) data: u64,
    /// Bytes of text so far.
    pub(crate) text: u64,
    /// The state, whose count is 2 + [`blocks`] of the text.
    pub(crate) state: State,
    /// The hash of all whole blocks so far.
    pub(crate) hash: Block,
    /// The bytes not yet hashed, from the left, zeros behind them.
    pub(crate) pending: Block,
    /// Block 0 of the keystream.
    pub(crate) h: Block,
    /// Block 1 of the keystream.
    pub(crate) end_pad: Block,
    /// The keystream block drawn last.
    pub(crate) current: Block,
    /// The IV that begin was handed, or that walking back found at resume.
    pub(crate) iv: Block,
}

impl Session {
    /// Refuses 1, 2.
    pub fn begin(key: &[u8], iv_bytes: &[u8]) -> Result<Session, Refusal> {
        let key = Key::new(key)?;
        let iv = iv(iv_bytes)?;
        let mut state = State::start(&key, &iv, Mode::Sealed);
        let h = state.step()?;
        let end_pad = state.step()?;
        Ok(Session { phase: Phase::Data, data: 0, text: 0, state, hash: [0; 16], pending: [0; 16], h, end_pad, current: end_pad, iv })
    }

    /// What the session takes next.
    pub fn phase(&self) -> Phase {
        self.phase
    }

    /// The state, with its count.
    pub fn state(&self) -> &State {
        &self.state
    }

    /// Bytes of associated data so far.
    pub fn data_len(&self) -> u64 {
        self.data
    }

    /// Bytes of text so far.
    pub fn text_len(&self) -> u64 {
        self.text
    }

    /// Hashes the pending bytes as a block, with the zeros behind them.
    fn hash_pending(&mut self) {
        self.hash = update(&self.h, &self.hash, &self.pending);
        self.pending = [0; 16];
    }

    /// Takes one byte to be hashed, the `at`th of its phase.
    fn absorb(&mut self, byte: u8, at: u64) {
        self.pending[(at % 16) as usize] = byte;
        if at % 16 == 15 {
            self.hash_pending();
        }
    }

    /// Pads the bytes of a phase that had `len` of them.
    fn pad(&mut self, len: u64) {
        if !len.is_multiple_of(16) {
            self.hash_pending();
        }
        self.pending = [0; 16];
    }

    /// Closes the data, where that is not done.
    fn close(&mut self) {
        if self.phase == Phase::Data {
            self.pad(self.data);
            self.phase = Phase::Text;
        }
    }

    /// Takes a piece of associated data. Refuses 7, 3.
    pub fn data(&mut self, piece: &[u8]) -> Result<(), Refusal> {
        require(self.phase == Phase::Data, Refusal::OutOfPhase)?;
        require(self.data <= MOST_DATA && piece.len() as u64 <= MOST_DATA - self.data, Refusal::TooLong)?;
        for byte in piece {
            self.absorb(*byte, self.data);
            self.data += 1;
        }
        Ok(())
    }

    /// Takes a piece of text and writes as many bytes of ciphertext. Refuses 7, 3, 9, 4: 9 where the state's count lacks room for the
    /// blocks that the piece draws, which no session that was begun comes to.
    pub fn text(&mut self, piece: &[u8], out: &mut [u8]) -> Result<(), Refusal> {
        require(self.phase != Phase::Finished, Refusal::OutOfPhase)?;
        require(self.text <= MOST_TEXT && piece.len() as u64 <= MOST_TEXT - self.text, Refusal::TooLong)?;
        let drawn = blocks(self.text + piece.len() as u64) - blocks(self.text);
        require(self.state.count <= MOST_BLOCKS && drawn <= MOST_BLOCKS - self.state.count, Refusal::CountTooHigh)?;
        require(out.len() >= piece.len(), Refusal::ShortOutput)?;
        self.close();
        for (text, out) in piece.iter().zip(out) {
            if self.text.is_multiple_of(16) {
                self.current = self.state.step()?;
            }
            *out = text ^ self.current[(self.text % 16) as usize];
            self.absorb(*out, self.text);
            self.text += 1;
        }
        Ok(())
    }

    /// Ends the session, of which all but the phase stays, and gives the tag and the IV. Refuses 7.
    pub fn finish(&mut self) -> Result<(Block, Block), Refusal> {
        require(self.phase != Phase::Finished, Refusal::OutOfPhase)?;
        let mut last = self.clone();
        last.close();
        last.pad(last.text);
        let hash = update(&last.h, &last.hash, &lengths(last.data, last.text));
        self.phase = Phase::Finished;
        Ok((xor(&hash, &self.end_pad), self.iv))
    }

    /// The session in 240 bytes, as C keeps it. The documents leave the form open; it is that of crates/bytes_c/specs/SessionBytes.antt:
    /// 0-7 phase, 8-15 data length, 16-23 text length, 24-143 the state, 144-159 H, 160-175 end pad, 176-191 the keystream block drawn
    /// last, 192-207 the hash so far, 208-223 the bytes not yet hashed, 224-239 the IV.
    pub fn to_bytes(&self) -> [u8; 240] {
        let phase: u64 = match self.phase {
            Phase::Data => 0,
            Phase::Text => 1,
            Phase::Finished => 2,
        };
        let numbers = [phase, self.data, self.text].map(u64::to_le_bytes);
        let blocks = [self.h, self.end_pad, self.current, self.hash, self.pending, self.iv];
        let bytes = [&numbers.concat()[..], &self.state.to_bytes(), &blocks.concat()].concat();
        bytes.try_into().unwrap()
    }

    /// The session that 240 bytes say, whatever they are. Of the phase byte 0 alone is read; one from 2 on is finished.
    pub fn from_bytes(bytes: &[u8; 240]) -> Session {
        let number = |at: usize| u64::from_le_bytes(bytes[at..at + 8].try_into().unwrap());
        let block = |at: usize| padded(&bytes[at..at + 16]);
        Session {
            phase: match bytes[0] {
                0 => Phase::Data,
                1 => Phase::Text,
                _ => Phase::Finished,
            },
            data: number(8),
            text: number(16),
            state: State::from_bytes(bytes[24..144].try_into().unwrap()),
            h: block(144),
            end_pad: block(160),
            current: block(176),
            hash: block(192),
            pending: block(208),
            iv: block(224),
        }
    }
}
