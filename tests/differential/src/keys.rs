//! What the program `keys` prints: a season's keys stored, fetched and erased, and the store damaged in one way at a time.

use crate::key_store::{erase, fetch, store, BLOCK_BYTES};
use crate::program::hex;
use crate::refusal::number;
use crate::suspended::check;

/// Blocks of the store.
const BLOCKS: usize = 4;

/// The season's key.
fn key() -> [u8; 32] {
    std::array::from_fn(|i| i as u8)
}

fn other_key() -> [u8; 32] {
    std::array::from_fn(|i| 255 - i as u8)
}

fn iv(n: usize) -> [u8; 16] {
    std::array::from_fn(|i| (16 * n + i) as u8)
}

fn stay_key(n: usize) -> [u8; 32] {
    std::array::from_fn(|i| (7 * n + 3 * i + 1) as u8)
}

fn store_line(n: usize, kept: &mut [u8]) -> String {
    format!("store {n}: {}\n", number(&store(&key(), &iv(n), &stay_key(n), kept)))
}

fn fetch_line(n: usize, kept: &[u8]) -> String {
    match fetch(&key(), &iv(n), kept) {
        Ok(fetched) => format!("fetch {n}: 0 {}\n", hex(&fetched)),
        refused => format!("fetch {n}: {}\n", number(&refused)),
    }
}

fn erase_line(n: usize, kept: &mut [u8]) -> String {
    format!("erase {n}: {}\n", number(&erase(&iv(n), kept)))
}

/// The store after the season's calls, and their lines.
fn season() -> (Vec<u8>, String) {
    let mut kept = vec![0; BLOCKS * BLOCK_BYTES];
    let mut lines = String::new();
    for n in [1, 2, 3, 1] {
        lines += &store_line(n, &mut kept);
    }
    lines += &fetch_line(1, &kept);
    lines += &format!("fetch 2 under another key: {}\n", number(&fetch(&other_key(), &iv(2), &kept)));
    lines += &fetch_line(4, &kept);
    lines += &erase_line(2, &mut kept);
    lines += &erase_line(2, &mut kept);
    lines += &fetch_line(2, &kept);
    lines += &store_line(2, &mut kept);
    lines += &fetch_line(3, &kept);
    lines += &store_line(4, &mut kept);
    lines += &store_line(5, &mut kept);
    (kept, lines)
}

/// The answers of storing number 5, fetching number 1 and erasing it, each on a copy of its own.
fn answers(kept: &[u8]) -> String {
    let stored = number(&store(&key(), &iv(5), &stay_key(5), &mut kept.to_vec()));
    let fetched = number(&fetch(&key(), &iv(1), kept));
    let erased = number(&erase(&iv(1), &mut kept.to_vec()));
    format!("store {stored} fetch {fetched} erase {erased}")
}

/// The store with bytes written over a block from a place in it on, and its check made anew.
fn with(kept: &[u8], block: usize, from: usize, bytes: &[u8]) -> Vec<u8> {
    let mut kept = kept.to_vec();
    let block: &mut [u8; BLOCK_BYTES] = (&mut kept[BLOCK_BYTES * block..][..BLOCK_BYTES]).try_into().unwrap();
    block[from..from + bytes.len()].copy_from_slice(bytes);
    let sum = check(block);
    block[508..].copy_from_slice(&sum.to_le_bytes());
    kept
}

/// The store with another byte, and every check as it was.
fn unchecked(kept: &[u8], at: usize, byte: u8) -> Vec<u8> {
    let mut kept = kept.to_vec();
    kept[at] = byte;
    kept
}

/// Copies of the store, each damaged in one way. Number 2, in block 1, is erased.
fn damaged(kept: &[u8]) -> Vec<(&'static str, Vec<u8>)> {
    vec![
        ("length 2047", kept[..2047].to_vec()),
        ("mark 3", with(kept, 0, 0, &[3])),
        ("mark 0", with(kept, 0, 0, &[0])),
        ("byte 1", with(kept, 0, 1, &[1])),
        ("byte 15", with(kept, 0, 15, &[1])),
        ("byte 80", with(kept, 0, 80, &[1])),
        ("byte 507", with(kept, 0, 507, &[1])),
        ("check", unchecked(kept, 508, kept[508].wrapping_add(1))),
        ("erased with a key", with(kept, 1, 32, &[1])),
        ("erased with a tag", with(kept, 1, 79, &[1])),
        ("number twice", with(kept, 2, 16, &iv(1))),
        ("number twice, once erased", with(kept, 1, 16, &iv(1))),
        ("last block", unchecked(kept, 3 * BLOCK_BYTES + 100, 1)),
        ("sealed key", with(kept, 0, 32, &[kept[32] ^ 1])),
        ("tag", with(kept, 0, 79, &[kept[79] ^ 1])),
    ]
}

/// Lines about keys and numbers of other lengths, and about a store without a block.
fn other_lengths(kept: &[u8]) -> String {
    let (key, short) = (key(), &iv(1)[..15]);
    let stored = |key: &[u8], iv: &[u8], stay_key: &[u8]| number(&store(key, iv, stay_key, &mut kept.to_vec()));
    let lines = [
        format!("key of 31 bytes: store {} fetch {}\n", stored(&key[..31], &iv(5), &stay_key(5)), number(&fetch(&key[..31], &iv(1), kept))),
        format!("stay key of 31 bytes: store {}\n", stored(&key, &iv(5), &stay_key(5)[..31])),
        format!(
            "number of 15 bytes: store {} fetch {} erase {}\n",
            stored(&key, short, &stay_key(5)),
            number(&fetch(&key, short, kept)),
            number(&erase(short, &mut kept.to_vec()))
        ),
        format!("no block: {}\n", answers(&[])),
    ];
    lines.concat()
}

/// Everything that is printed.
pub fn output() -> String {
    let (kept, mut lines) = season();
    for (j, block) in kept.chunks(BLOCK_BYTES).enumerate() {
        lines += &format!("block {j}: {} {}\n", hex(&block[..80]), hex(&block[508..]));
    }
    for (name, damaged) in damaged(&kept) {
        lines += &format!("{name}: {}\n", answers(&damaged));
    }
    lines + &other_lengths(&kept)
}
