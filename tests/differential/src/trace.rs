//! Trace: document 01, "Start and trace"; document 02, S-2. Since a step and a start can be undone in one way only, at most one IV and
//! mode lead to a state.

use crate::block::Block;
use crate::cipher::{Key, Mode, State, MOST_BLOCKS};
use crate::refusal::{require, Refusal};

/// The IV and mode that lead to the state under the key, after as many blocks as it counts. Refuses 1, 9, 6.
pub fn trace(state: &State, key: &[u8]) -> Result<(Block, Mode), Refusal> {
    let key = Key::new(key)?;
    require(state.count <= MOST_BLOCKS, Refusal::CountTooHigh)?;
    let mut walk = state.clone();
    while walk.count > 0 {
        walk.step_back()?;
    }
    walk.registers.start_back(&key).ok_or(Refusal::NoOrigin)
}
