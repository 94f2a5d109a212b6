//! GHASH: NIST SP 800-38D, section 6.3, algorithm 1, and section 6.4, algorithm 2; document 01, "Tag arithmetic". A block is a number
//! of 128 bits whose leftmost bit, bit 0 of the standard, is the most significant, so that byte 0 stands leftmost.

use crate::block::{padded, Block};

/// R of section 6.3: 11100001 followed by 120 zeros.
const R: u128 = 0xe1 << 120;

/// Algorithm 1: the product X . Y.
pub fn multiply(x: u128, y: u128) -> u128 {
    let mut z = 0;
    let mut v = y;
    for i in 0..128 {
        z ^= v & (x >> (127 - i) & 1).wrapping_neg();
        v = (v >> 1) ^ (R & (v & 1).wrapping_neg());
    }
    z
}

/// Algorithm 2, one block: Y becomes (Y + X) . H.
pub fn update(h: &Block, y: &Block, x: &Block) -> Block {
    let sum = u128::from_be_bytes(*y) ^ u128::from_be_bytes(*x);
    multiply(sum, u128::from_be_bytes(*h)).to_be_bytes()
}

/// Hashes bytes, the last block padded with zeros.
pub fn update_padded(h: &Block, y: &Block, bytes: &[u8]) -> Block {
    bytes.chunks(16).fold(*y, |y, block| update(h, &y, &padded(block)))
}

/// The last block hashed: both lengths in bits, 64 bits each, high byte first; of a length that a caller made up, the low 64 bits.
pub fn lengths(data: u64, text: u64) -> Block {
    let mut block = [0; 16];
    block[..8].copy_from_slice(&data.wrapping_mul(8).to_be_bytes());
    block[8..].copy_from_slice(&text.wrapping_mul(8).to_be_bytes());
    block
}
