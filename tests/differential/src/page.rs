//! Whole pages: the paper, section 4 and the listing of SNOW-V-GCM in appendix D; document 01, "Tag arithmetic" and "Whole pages,
//! keeping, program". Written for itself and not by way of sessions, so that the two check each other.

use crate::block::{xor, Block};
use crate::cipher::{iv, Key, Mode, Registers};
use crate::ghash::{lengths, update, update_padded};
use crate::refusal::{require, Refusal};

/// The most bytes of associated data (document 01, refusal 3).
pub const MOST_DATA: u64 = 65_535;
/// The most bytes of text (document 01, refusal 3).
pub const MOST_TEXT: u64 = 1_048_576;

/// Xors text with the keystream from the registers' next block on.
fn xor_keystream(registers: &mut Registers, text: &[u8], out: &mut [u8]) {
    for (text, out) in text.chunks(16).zip(out.chunks_mut(16)) {
        let z = registers.step();
        for i in 0..text.len() {
            out[i] = text[i] ^ z[i];
        }
    }
}

/// The tag of associated data and ciphertext.
fn tag(h: &Block, end_pad: &Block, ad: &[u8], cipher: &[u8]) -> Block {
    let hash = update_padded(h, &[0; 16], ad);
    let hash = update_padded(h, &hash, cipher);
    let hash = update(h, &hash, &lengths(ad.len() as u64, cipher.len() as u64));
    xor(&hash, end_pad)
}

/// Refusal 3 of a whole page.
fn require_lengths(ad: &[u8], text: &[u8]) -> Result<(), Refusal> {
    require(ad.len() as u64 <= MOST_DATA && text.len() as u64 <= MOST_TEXT, Refusal::TooLong)
}

/// Writes the ciphertext and returns the tag. Refuses 1, 2, 3, 4.
pub fn seal(key: &[u8], iv_bytes: &[u8], ad: &[u8], text: &[u8], out: &mut [u8]) -> Result<Block, Refusal> {
    let key = Key::new(key)?;
    let iv = iv(iv_bytes)?;
    require_lengths(ad, text)?;
    require(out.len() >= text.len(), Refusal::ShortOutput)?;
    let mut registers = Registers::start(&key, &iv, Mode::Sealed);
    let h = registers.step();
    let end_pad = registers.step();
    let cipher = &mut out[..text.len()];
    xor_keystream(&mut registers, text, cipher);
    Ok(tag(&h, &end_pad, ad, cipher))
}

/// Writes the text if the tag is that of the page. Refuses 1, 2, 10, 3, 4, 5.
pub fn open(key: &[u8], iv_bytes: &[u8], ad: &[u8], cipher: &[u8], given: &[u8], out: &mut [u8]) -> Result<(), Refusal> {
    let key = Key::new(key)?;
    let iv = iv(iv_bytes)?;
    require(given.len() == 16, Refusal::TagLength)?;
    require_lengths(ad, cipher)?;
    require(out.len() >= cipher.len(), Refusal::ShortOutput)?;
    let mut registers = Registers::start(&key, &iv, Mode::Sealed);
    let h = registers.step();
    let end_pad = registers.step();
    require(tag(&h, &end_pad, ad, cipher) == *given, Refusal::BadTag)?;
    xor_keystream(&mut registers, cipher, out);
    Ok(())
}
