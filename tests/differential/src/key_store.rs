//! Key stores: document 02, S-6, "A shelf of stay keys". A key store is its shelf, to store is to shelve, and the IV is its number.

use crate::cipher::{iv as iv_of, Key};
use crate::page;
use crate::refusal::{require, Refusal};
use crate::suspended::check;
use std::collections::HashSet;

/// Bytes of a block.
pub const BLOCK_BYTES: usize = 512;
/// Bytes of a stay's key.
pub const STAY_KEY_BYTES: usize = 32;

const EMPTY: u8 = 0;
const HELD: u8 = 1;
const ERASED: u8 = 2;

/// A block as it stands in a store.
#[derive(Clone, Copy)]
struct Stored<'a>(&'a [u8]);

impl<'a> Stored<'a> {
    fn mark(self) -> u8 {
        self.0[0]
    }

    fn iv(self) -> &'a [u8] {
        &self.0[16..32]
    }

    fn sealed_key(self) -> &'a [u8] {
        &self.0[32..64]
    }

    fn tag(self) -> &'a [u8] {
        &self.0[64..80]
    }

    /// "508-511 the check of a parked block".
    fn check_holds(self) -> bool {
        let block: &[u8; BLOCK_BYTES] = self.0.try_into().unwrap();
        block[508..] == check(block).to_le_bytes()
    }

    /// "0 a mark (0 empty, 1 held, 2 erased), .., else zeros; an empty one is all zero, an erased one zero at key and tag".
    fn well_laid(self) -> bool {
        let zero = |bytes: &[u8]| bytes.iter().all(|byte| *byte == 0);
        let of_mark = match self.mark() {
            EMPTY => zero(self.0),
            HELD => true,
            ERASED => zero(self.sealed_key()) && zero(self.tag()),
            _ => false,
        };
        of_mark && zero(&self.0[1..16]) && zero(&self.0[80..508]) && self.check_holds()
    }

    /// "present with mark 1 or 2".
    fn has(self, iv: &[u8]) -> bool {
        self.mark() != EMPTY && self.iv() == iv
    }

    /// Present, and not erased.
    fn holds(self, iv: &[u8]) -> bool {
        self.mark() == HELD && self.iv() == iv
    }
}

fn blocks(store: &[u8]) -> impl Iterator<Item = Stored<'_>> {
    store.chunks(BLOCK_BYTES).map(Stored)
}

/// "A block or shelf length that breaks the layout, or a number present twice with mark 1 or 2, gives 8".
fn require_well_kept(store: &[u8]) -> Result<(), Refusal> {
    require(store.len().is_multiple_of(BLOCK_BYTES), Refusal::BadBlock)?;
    require(blocks(store).all(Stored::well_laid), Refusal::BadBlock)?;
    let mut numbers = HashSet::new();
    let once = blocks(store).filter(|block| block.mark() != EMPTY).all(|block| numbers.insert(block.iv()));
    require(once, Refusal::BadBlock)
}

/// The place of the block that holds a number's key. Refuses 8, 17.
fn place_of(iv: &[u8], store: &[u8]) -> Result<usize, Refusal> {
    require_well_kept(store)?;
    blocks(store).position(|block| block.holds(iv)).ok_or(Refusal::NoKey)
}

/// Writes a block at a place: its fields, zeros, and the check.
fn put(store: &mut [u8], place: usize, mark: u8, iv: &[u8], sealed_key: &[u8], tag: &[u8]) {
    let mut block = [0; BLOCK_BYTES];
    block[0] = mark;
    block[16..32].copy_from_slice(iv);
    block[32..64].copy_from_slice(sealed_key);
    block[64..80].copy_from_slice(tag);
    let sum = check(&block);
    block[508..].copy_from_slice(&sum.to_le_bytes());
    store[BLOCK_BYTES * place..][..BLOCK_BYTES].copy_from_slice(&block);
}

/// Seals a stay's key into the first empty block, and changes no other. Refuses 1 (either key), 2, 8, 16, 4.
pub fn store(key: &[u8], iv: &[u8], stay_key: &[u8], store: &mut [u8]) -> Result<(), Refusal> {
    Key::new(key)?;
    require(stay_key.len() == STAY_KEY_BYTES, Refusal::KeyLength)?;
    iv_of(iv)?;
    require_well_kept(store)?;
    require(!blocks(store).any(|block| block.has(iv)), Refusal::NumberTaken)?;
    let place = blocks(store).position(|block| block.mark() == EMPTY).ok_or(Refusal::ShortOutput)?;

    let mut sealed_key = [0; STAY_KEY_BYTES];
    let tag = page::seal(key, iv, &[], stay_key, &mut sealed_key)?;
    put(store, place, HELD, iv, &sealed_key, &tag);
    Ok(())
}

/// The stay's key. Refuses 1, 2, 8, 17, 5.
pub fn fetch(key: &[u8], iv: &[u8], store: &[u8]) -> Result<[u8; STAY_KEY_BYTES], Refusal> {
    Key::new(key)?;
    iv_of(iv)?;
    let block = Stored(&store[BLOCK_BYTES * place_of(iv, store)?..][..BLOCK_BYTES]);
    let mut stay_key = [0; STAY_KEY_BYTES];
    page::open(key, iv, &[], block.sealed_key(), block.tag(), &mut stay_key)?;
    Ok(stay_key)
}

/// "sets mark 2, zeros key and tag, and leaves the number and all other blocks". Refuses 2, 8, 17.
pub fn erase(iv: &[u8], store: &mut [u8]) -> Result<(), Refusal> {
    iv_of(iv)?;
    let place = place_of(iv, store)?;
    put(store, place, ERASED, iv, &[0; STAY_KEY_BYTES], &[0; 16]);
    Ok(())
}
