//! What a benchmark calls. Keys have 32 bytes, IVs and tags 16, stays 12, states 120 and suspended blocks 512; each call answers 0 or the
//! number of a refusal.

use crate::refusal::number;
use crate::{calls, page, page_file, suspended};
use std::slice::{from_raw_parts, from_raw_parts_mut};

/// A pointer with a length of 0 may be anything in C, not so in a slice.
unsafe fn read<'a>(bytes: *const u8, len: usize) -> &'a [u8] {
    if len == 0 {
        &[]
    } else {
        from_raw_parts(bytes, len)
    }
}

unsafe fn written<'a>(bytes: *mut u8, len: usize) -> &'a mut [u8] {
    if len == 0 {
        &mut []
    } else {
        from_raw_parts_mut(bytes, len)
    }
}

/// The first blocks of keystream; refuses 9.
///
/// # Safety
/// `out` points to 16 bytes for each block.
#[no_mangle]
pub unsafe extern "C" fn reference_keystream(key: *const u8, iv: *const u8, sealed: u64, out: *mut u8, blocks: usize) -> u64 {
    number(&calls::keystream(read(key, 32), read(iv, 16), sealed, written(out, 16 * blocks)))
}

/// Seals a page; refuses 3.
///
/// # Safety
/// `out` points to `text_len` bytes.
#[no_mangle]
#[allow(clippy::too_many_arguments)]
pub unsafe extern "C" fn reference_seal(
    key: *const u8,
    iv: *const u8,
    ad: *const u8,
    ad_len: usize,
    text: *const u8,
    text_len: usize,
    out: *mut u8,
    tag: *mut u8,
) -> u64 {
    let sealed = page::seal(read(key, 32), read(iv, 16), read(ad, ad_len), read(text, text_len), written(out, text_len));
    number(&sealed.map(|made| written(tag, 16).copy_from_slice(&made)))
}

/// Opens a page; refuses 3, 5.
///
/// # Safety
/// `out` points to `cipher_len` bytes.
#[no_mangle]
#[allow(clippy::too_many_arguments)]
pub unsafe extern "C" fn reference_open(
    key: *const u8,
    iv: *const u8,
    ad: *const u8,
    ad_len: usize,
    cipher: *const u8,
    cipher_len: usize,
    tag: *const u8,
    out: *mut u8,
) -> u64 {
    let (cipher, tag, out) = (read(cipher, cipher_len), read(tag, 16), written(out, cipher_len));
    number(&page::open(read(key, 32), read(iv, 16), read(ad, ad_len), cipher, tag, out))
}

/// The state right after the start.
///
/// # Safety
/// `state` points to 120 bytes.
#[no_mangle]
pub unsafe extern "C" fn reference_start(key: *const u8, iv: *const u8, sealed: u64, state: *mut u8) -> u64 {
    number(&calls::start(read(key, 32), read(iv, 16), sealed, written(state, 120)))
}

/// The IV and mode that lead to a state; refuses 9, 6.
///
/// # Safety
/// `state` points to 120 bytes, `iv` to 16, `sealed` to one.
#[no_mangle]
pub unsafe extern "C" fn reference_trace(state: *const u8, key: *const u8, iv: *mut u8, sealed: *mut u8) -> u64 {
    number(&calls::trace(read(state, 120), read(key, 32), written(iv, 16), written(sealed, 1)))
}

/// Resumes a suspended session and gives its IV; refuses 8, 6.
///
/// # Safety
/// `block` points to 512 bytes, `iv` to 16.
#[no_mangle]
pub unsafe extern "C" fn reference_resume(key: *const u8, block: *const u8, iv: *mut u8) -> u64 {
    let resumed = suspended::resume(read(key, 32), read(block, 512));
    number(&resumed.map(|(session, found)| {
        // The session is what the walk is made for; without this a compiler may leave parts of it out.
        std::hint::black_box(&session);
        written(iv, 16).copy_from_slice(&found);
    }))
}

/// Seals a page into a page file; refuses 3, 12, 13.
///
/// # Safety
/// `file` points to `file_len` bytes.
#[no_mangle]
#[allow(clippy::too_many_arguments)]
pub unsafe extern "C" fn reference_file_seal(
    key: *const u8,
    stay: *const u8,
    page: u32,
    day: u64,
    text: *const u8,
    text_len: usize,
    place: u64,
    file: *mut u8,
    file_len: usize,
) -> u64 {
    number(&page_file::seal(read(key, 32), read(stay, 12), page, day, read(text, text_len), place, written(file, file_len)))
}

/// Opens a page of a page file; refuses 13, 14, 5.
///
/// # Safety
/// `out` points to 474 bytes.
#[no_mangle]
pub unsafe extern "C" fn reference_file_open(
    key: *const u8,
    stay: *const u8,
    page: u32,
    file: *const u8,
    file_len: usize,
    out: *mut u8,
) -> u64 {
    number(&page_file::open(read(key, 32), read(stay, 12), page, read(file, file_len), written(out, 474)))
}
