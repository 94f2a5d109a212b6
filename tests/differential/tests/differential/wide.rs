//! Lengths over 2^32, which a number of 32 bits would confuse with short ones. The buffers are zeros that the system lends on demand;
//! no call has a reason to write more of them than their front, or a page of a file, and only opening a page of a file and the calls on a key store
//! read on. The blocks of such a store are empty, so that no number is compared with another.

#![cfg(target_pointer_width = "64")]

use crate::library::*;
use crate::tester::{Tester, SCHEDULE_BYTES, SESSION_BYTES, STATE_BYTES};
use reference::calls;
use std::alloc::{alloc_zeroed, dealloc, Layout};

const WIDE: usize = 1 << 32;
/// The longest length used.
const MOST: usize = WIDE + 16_384;
/// What is looked at behind the part written, and at the very end.
const SEEN: usize = 1 << 16;

/// Zeros that no test has written are never touched, hence never claimed.
struct Zeros(*mut u8);

impl Zeros {
    fn layout() -> Layout {
        Layout::array::<u8>(MOST).unwrap()
    }

    fn new() -> Option<Zeros> {
        let bytes = unsafe { alloc_zeroed(Zeros::layout()) };
        (!bytes.is_null()).then_some(Zeros(bytes))
    }

    /// Takes the front and requires zeros behind it and at the end; the front is zero again then.
    fn take_front(&mut self, t: &Tester, call: &str, len: usize) -> Vec<u8> {
        let bytes = unsafe { std::slice::from_raw_parts_mut(self.0, MOST) };
        let front = bytes[..len].to_vec();
        bytes[..len].fill(0);
        if bytes[len..SEEN].iter().chain(&bytes[MOST - SEEN..]).any(|byte| *byte != 0) {
            t.fail(call, "a byte beyond what is written has changed".into());
        }
        front
    }
}

impl Drop for Zeros {
    fn drop(&mut self) {
        unsafe { dealloc(self.0, Zeros::layout()) }
    }
}

fn answered(t: &mut Tester, call: &str, answer: u64, expected: u64) {
    t.count(answer);
    if answer != expected {
        t.fail(call, format!("answer {answer}, expected {expected}"));
    }
}

#[test]
fn lengths_over_32_bits() {
    let mut t = Tester::new("lengths over 32 bits");
    if t.checked() {
        println!("lengths over 32 bits: left out, a memory checker would claim every byte");
        return;
    }
    let (Some(read), Some(mut written)) = (Zeros::new(), Zeros::new()) else {
        println!("lengths over 32 bits: left out, no room for two buffers of 4 GiB");
        return;
    };
    let zeros = read.0.cast_const();
    let (key, iv) = (t.random.array::<32>(), t.random.array::<16>());
    let (ad, text) = (t.random.bytes(19), t.random.bytes(53));
    let (k, v, a, x) = (key.as_ptr(), iv.as_ptr(), ad.as_ptr(), text.as_ptr());
    let (mut cipher, mut tag) = (vec![0; 53], vec![0; 16]);
    calls::seal(&key, &iv, &ad, &text, &mut cipher, &mut tag).unwrap();
    let w = written.0;
    let mut other = [0; 1_024];
    let o = other.as_mut_ptr();

    let mut check = |call: &str, answer: u64, expected: u64| {
        answered(&mut t, call, answer, expected);
    };
    unsafe {
        check("seal", tulvekas_seal(zeros, WIDE + 32, v, 16, a, 19, x, 53, o, 53, w, 16), 1);
        check("seal", tulvekas_seal(k, 32, zeros, WIDE + 16, a, 19, x, 53, o, 53, w, 16), 2);
        check("seal", tulvekas_seal(k, 32, v, 16, zeros, WIDE + 5, x, 53, o, 53, w, 16), 3);
        check("seal", tulvekas_seal(k, 32, v, 16, a, 19, zeros, WIDE + 5, w, WIDE + 5, o, 16), 3);
        check("seal", tulvekas_seal(k, 32, v, 16, a, 19, zeros, WIDE + 5, w, 5, o, 16), 3);
        check("open", tulvekas_open(zeros, WIDE + 32, v, 16, a, 19, x, 53, v, 16, w, 53), 1);
        check("open", tulvekas_open(k, 32, zeros, WIDE + 16, a, 19, x, 53, v, 16, w, 53), 2);
        check("open", tulvekas_open(k, 32, v, 16, a, 19, x, 53, zeros, WIDE + 16, w, 53), 10);
        check("open", tulvekas_open(k, 32, v, 16, zeros, WIDE + 5, x, 53, v, 16, w, 53), 3);
        check("open", tulvekas_open(k, 32, v, 16, a, 19, zeros, WIDE + 5, v, 16, w, WIDE + 5), 3);
        check("begin", tulvekas_begin(zeros, WIDE + 32, v, 16, w, SESSION_BYTES), 1);
        check("begin", tulvekas_begin(k, 32, zeros, WIDE + 16, w, SESSION_BYTES), 2);
        check("data", tulvekas_data(w, WIDE + SESSION_BYTES, a, 19), 8);
        check("text", tulvekas_text(w, WIDE + SESSION_BYTES, x, 53, o, 53), 8);
        check("finish", tulvekas_finish(w, WIDE + SESSION_BYTES, o, 16, o.add(16), 16), 8);
        check("suspend", tulvekas_suspend(zeros, WIDE + SESSION_BYTES, w, 512), 8);
        check("resume", tulvekas_resume(zeros, WIDE + 32, zeros, 512, w, SESSION_BYTES, o, 16), 1);
        check("resume", tulvekas_resume(k, 32, zeros, WIDE + 512, w, SESSION_BYTES, o, 16), 8);
        check("keystream", tulvekas_keystream(zeros, WIDE + 32, v, 16, 1, w, 16), 1);
        check("keystream", tulvekas_keystream(k, 32, zeros, WIDE + 16, 1, w, 16), 2);
        check("keystream", tulvekas_keystream(k, 32, v, 16, 1, w, WIDE + 32), 9);
        check("start", tulvekas_start(zeros, WIDE + 32, v, 16, 1, w, STATE_BYTES), 1);
        check("start", tulvekas_start(k, 32, zeros, WIDE + 16, 1, w, STATE_BYTES), 2);
        check("run", tulvekas_run(w, WIDE + STATE_BYTES, 1, 0, o, 16), 8);
        check("run", tulvekas_run(o, STATE_BYTES, WIDE as u64, 0, w, MOST), 9);
        check("run", tulvekas_run(o, STATE_BYTES, WIDE as u64 + 1, 0, w, MOST), 9);
        check("run", tulvekas_run(o, STATE_BYTES, WIDE as u64, 1, w, MOST), 9);
        check("run", tulvekas_run(o, STATE_BYTES, 1 << 60, 0, w, MOST), 9);
        check("trace", tulvekas_trace(zeros, STATE_BYTES, zeros, WIDE + 32, w, 16, o, 1), 1);
        check("trace", tulvekas_trace(zeros, WIDE + STATE_BYTES, k, 32, w, 16, o, 1), 8);
        check("state_of", tulvekas_state_of(zeros, WIDE + 512, w, STATE_BYTES), 8);
    }
    written.take_front(&t, "a refused call", 0);
    if other != [0; 1_024] {
        t.fail("a refused call", "a lent byte has changed".into());
    }
    accepted(&mut t, &mut written, [&key, &iv, &ad, &text, &cipher, &tag]);
    refused_pieces(&mut t, zeros, w, &key, &iv);
    page_files(&mut t, zeros, &mut written, &key);
    key_stores(&mut t, zeros, &mut written, &key, &iv);
    searches(&mut t, zeros, &mut written, &key, &iv);
    schedulers(&mut t, zeros, &mut written, &key, &iv);
    t.done();
}

/// Outputs of more than 2^32 bytes: what must be written fits, and nothing behind it changes.
fn accepted(t: &mut Tester, written: &mut Zeros, page: [&[u8]; 6]) {
    let [key, iv, ad, text, cipher, tag] = page;
    let (k, v, w) = (key.as_ptr(), iv.as_ptr(), written.0);
    let mut other = [0; 1_024];
    let o = other.as_mut_ptr();
    let mut session = [0; SESSION_BYTES];
    let s = session.as_mut_ptr();
    let mut check = |t: &mut Tester, call: &str, answer: u64, expected: &[u8]| {
        answered(t, call, answer, 0);
        let front = written.take_front(t, call, expected.len());
        if front != expected {
            t.fail(call, "another output than expected".into());
        }
    };
    let begun = t.begin(key, iv);
    let mut state = t.start(key, iv, 1);
    let started = state.clone();
    let mut expected = begun;
    unsafe {
        let (a, x, c, g) = (ad.as_ptr(), text.as_ptr(), cipher.as_ptr(), tag.as_ptr());
        check(t, "seal", tulvekas_seal(k, 32, v, 16, a, ad.len(), x, text.len(), w, WIDE + 3, o, 16), cipher);
        check(t, "seal", tulvekas_seal(k, 32, v, 16, a, ad.len(), x, text.len(), o, 53, w, WIDE + 3), tag);
        check(t, "open", tulvekas_open(k, 32, v, 16, a, ad.len(), c, cipher.len(), g, 16, w, WIDE), text);
        check(t, "begin", tulvekas_begin(k, 32, v, 16, w, WIDE + 3), &begun);
        t.data(&mut expected, ad);
        session.copy_from_slice(&expected);
        check(t, "text", tulvekas_text(s, SESSION_BYTES, x, text.len(), w, WIDE + 3), cipher);
        t.text(&mut expected, text);
        let block = t.suspend(&expected);
        check(t, "suspend", tulvekas_suspend(s, SESSION_BYTES, w, WIDE + 3), &block);
        let b = block.as_ptr();
        check(t, "resume", tulvekas_resume(k, 32, b, 512, w, WIDE + 3, o, 16), &expected);
        check(t, "resume", tulvekas_resume(k, 32, b, 512, o, SESSION_BYTES, w, WIDE + 3), iv);
        let of_block = t.state_of(&block).1;
        check(t, "state_of", tulvekas_state_of(b, 512, w, WIDE + 3), &of_block);
        let f = of_block.as_ptr();
        check(t, "trace", tulvekas_trace(f, STATE_BYTES, k, 32, w, WIDE + 3, o, 1), iv);
        check(t, "trace", tulvekas_trace(f, STATE_BYTES, k, 32, o, 16, w, WIDE), &[1]);
        check(t, "start", tulvekas_start(k, 32, v, 16, 1, w, WIDE + 3), &started);
        let blocks = t.run(&mut state, 5, 0);
        let mut moved = started.clone();
        check(t, "run", tulvekas_run(moved.as_mut_ptr(), STATE_BYTES, 5, 0, w, WIDE + 3), &blocks);
        let blocks = t.run(&mut state, 5, 1);
        check(t, "run", tulvekas_run(moved.as_mut_ptr(), STATE_BYTES, 5, 1, w, WIDE + 3), &blocks);
        if moved != started {
            t.fail("run", "forward and back do not return the state".into());
        }
        let mut open = session;
        check(t, "finish", tulvekas_finish(s, SESSION_BYTES, w, WIDE + 3, o, 16), tag);
        check(t, "finish", tulvekas_finish(open.as_mut_ptr(), SESSION_BYTES, o, 16, w, WIDE + 3), iv);
        check(t, "date", tulvekas_date(9_009, w, WIDE + 3), &[0xe8, 0x07, 8, 31]);
        check(t, "day", tulvekas_day(2024, 8, 31, w, WIDE + 3), &9_009_u64.to_le_bytes());
        check(t, "kept", tulvekas_kept(5, 5, w, WIDE), &[1]);
        check(t, "kept_until", tulvekas_kept_until(9_009, w, WIDE + 3), &[0xea, 0x07, 2, 28]);
    }
}

/// Pieces of more than 2^32 bytes are too long in every session, and it goes on as it was.
fn refused_pieces(t: &mut Tester, zeros: *const u8, w: *mut u8, key: &[u8], iv: &[u8]) {
    for (data_len, text_len) in [(0, 0), (7, 0), (7, 9)] {
        let mut before = t.begin(key, iv);
        let (data, text) = (t.random.bytes(data_len), t.random.bytes(text_len));
        t.data(&mut before, &data);
        if text_len > 0 {
            t.text(&mut before, &text);
        }
        let mut session = before;
        let s = session.as_mut_ptr();
        for piece_len in [WIDE, WIDE + 1, WIDE + 16, MOST] {
            let of_data = unsafe { tulvekas_data(s, SESSION_BYTES, zeros, piece_len) };
            let of_text = unsafe { tulvekas_text(s, SESSION_BYTES, zeros, piece_len, w, piece_len) };
            answered(t, "data", of_data, if text_len > 0 { 7 } else { 3 });
            answered(t, "text", of_text, 3);
        }
        if session != before {
            t.fail("data or text", "a refused piece has changed the session".into());
        }
    }
}

/// A page file of more than 2^32 bytes: its last page begins at byte 2^32.
fn page_files(t: &mut Tester, zeros: *const u8, written: &mut Zeros, key: &[u8]) {
    const FILE: usize = WIDE + 512;
    const LAST: u64 = WIDE as u64 / 512;
    let (stay, text, w) = (t.random.array::<12>(), t.random.bytes(53), written.0);
    let (k, s, x) = (key.as_ptr(), stay.as_ptr(), text.as_ptr());
    let (mut page, mut opened, mut length) = ([0; 512], [0; 53], [0; 8]);
    calls::file_seal(key, &stay, 0, 9_000, &text, 0, &mut page).unwrap();
    let (p, o, l) = (page.as_ptr(), opened.as_mut_ptr(), length.as_mut_ptr());
    unsafe {
        answered(t, "file_seal", tulvekas_file_seal(zeros, WIDE + 32, s, 12, 0, 9_000, x, 53, 0, w, FILE), 1);
        answered(t, "file_seal", tulvekas_file_seal(k, 32, zeros, WIDE + 12, 0, 9_000, x, 53, 0, w, FILE), 2);
        answered(t, "file_seal", tulvekas_file_seal(k, 32, s, 12, 0, 9_000, zeros, WIDE + 53, 0, w, FILE), 3);
        answered(t, "file_seal", tulvekas_file_seal(k, 32, s, 12, 0, 9_000 + WIDE as u64, x, 53, 0, w, FILE), 12);
        answered(t, "file_seal", tulvekas_file_seal(k, 32, s, 12, 0, 9_000, x, 53, 0, w, WIDE + 511), 13);
        answered(t, "file_seal", tulvekas_file_seal(k, 32, s, 12, 0, 9_000, x, 53, LAST + 1, w, FILE), 13);
        answered(t, "file_seal", tulvekas_file_seal(k, 32, s, 12, 0, 9_000, x, 53, WIDE as u64, w, FILE), 13);
        answered(t, "file_open", tulvekas_file_open(zeros, WIDE + 32, s, 12, 0, p, 512, w, FILE, l, 8), 1);
        answered(t, "file_open", tulvekas_file_open(k, 32, zeros, WIDE + 12, 0, p, 512, w, FILE, l, 8), 2);
        answered(t, "file_open", tulvekas_file_open(k, 32, s, 12, 0, zeros, WIDE + 511, w, FILE, l, 8), 13);
    }
    written.take_front(t, "a refused call", 0);
    for place in [0, LAST] {
        let at = 512 * place as usize;
        let sealed = unsafe { tulvekas_file_seal(k, 32, s, 12, 0, 9_000, x, 53, place, w, FILE) };
        answered(t, "file_seal", sealed, 0);
        let of_file = unsafe { tulvekas_file_open(k, 32, s, 12, 0, w, FILE, o, 53, l, 8) };
        answered(t, "file_open", of_file, 0);
        let at_place = unsafe { std::slice::from_raw_parts_mut(w.add(at), 512) };
        if *at_place != page || opened[..] != text || length != 53_u64.to_le_bytes() {
            t.fail("file_seal or file_open", "another page or text than expected".into());
        }
        at_place.fill(0);
        written.take_front(t, "file_seal", 0);
    }
    unsafe {
        answered(t, "file_open", tulvekas_file_open(k, 32, s, 12, 0, p, 512, w, WIDE + 3, l, 8), 0);
        if written.take_front(t, "file_open", 53) != text {
            t.fail("file_open", "another text than expected".into());
        }
        answered(t, "file_open", tulvekas_file_open(k, 32, s, 12, 0, p, 512, o, 53, w, WIDE + 3), 0);
        if written.take_front(t, "file_open", 8) != length {
            t.fail("file_open", "another length than expected".into());
        }
    }
}

/// Keys, numbers, stores and outputs of more than 2^32 bytes.
fn key_stores(t: &mut Tester, zeros: *const u8, written: &mut Zeros, key: &[u8], iv: &[u8]) {
    let (stay_key, w) = (t.random.array::<32>(), written.0);
    let (k, v, y) = (key.as_ptr(), iv.as_ptr(), stay_key.as_ptr());
    let mut store = [0; 512];
    calls::keys_store(key, iv, &stay_key, &mut store).unwrap();
    let s = store.as_ptr();
    unsafe {
        answered(t, "keys_store", tulvekas_keys_store(zeros, WIDE + 32, v, 16, y, 32, w, 512), 1);
        answered(t, "keys_store", tulvekas_keys_store(k, 32, v, 16, zeros, WIDE + 32, w, 512), 1);
        answered(t, "keys_store", tulvekas_keys_store(k, 32, zeros, WIDE + 16, y, 32, w, 512), 2);
        answered(t, "keys_store", tulvekas_keys_store(k, 32, v, 16, y, 32, w, WIDE + 1), 8);
        answered(t, "keys_store", tulvekas_keys_store(k, 32, v, 16, y, 32, w, WIDE + 511), 8);
        answered(t, "keys_fetch", tulvekas_keys_fetch(zeros, WIDE + 32, v, 16, s, 512, w, 32), 1);
        answered(t, "keys_fetch", tulvekas_keys_fetch(k, 32, zeros, WIDE + 16, s, 512, w, 32), 2);
        answered(t, "keys_fetch", tulvekas_keys_fetch(k, 32, v, 16, zeros, WIDE + 511, w, 32), 8);
        answered(t, "keys_erase", tulvekas_keys_erase(zeros, WIDE + 16, w, 512), 2);
        answered(t, "keys_erase", tulvekas_keys_erase(v, 16, w, WIDE + 511), 8);
        answered(t, "keys_fetch", tulvekas_keys_fetch(k, 32, v, 16, zeros, WIDE + 512, w, 32), 17);
        answered(t, "keys_erase", tulvekas_keys_erase(v, 16, w, WIDE + 512), 17);
        written.take_front(t, "a refused call", 0);
        answered(t, "keys_fetch", tulvekas_keys_fetch(k, 32, v, 16, s, 512, w, WIDE + 3), 0);
    }
    if written.take_front(t, "keys_fetch", 32) != stay_key {
        t.fail("keys_fetch", "another key than expected".into());
    }
    answered(t, "keys_store", unsafe { tulvekas_keys_store(k, 32, v, 16, y, 32, w, WIDE + 512) }, 0);
    if written.take_front(t, "keys_store", 512) != store {
        t.fail("keys_store", "another block than expected".into());
    }
}

/// Keys, dumps and outputs of more than 2^32 bytes, and counts over 2^32.
fn searches(t: &mut Tester, zeros: *const u8, written: &mut Zeros, key: &[u8], iv: &[u8]) {
    let mut state = t.start(key, iv, 1);
    t.run(&mut state, 6, 0);
    let (d, k, w, wide) = (state.as_ptr(), key.as_ptr(), written.0, WIDE as u64);
    let mut other = [0; 64];
    let [c, f, y, s] = [0, 16, 32, 48].map(|at| unsafe { other.as_mut_ptr().add(at) });
    unsafe {
        answered(t, "search", tulvekas_search(d, 112, zeros, WIDE + 32, 0, 9, w, 8, f, 16, y, 1, s, 8), 1);
        answered(t, "search", tulvekas_search(zeros, WIDE + 112, k, 32, 0, 9, w, 8, f, 16, y, 1, s, 8), 8);
        answered(t, "search", tulvekas_search(d, 112, k, 32, 0, wide, w, 8, f, 16, y, 1, s, 8), 9);
        answered(t, "search", tulvekas_search(d, 112, k, 32, 0, wide + 9, w, 8, f, 16, y, 1, s, 8), 9);
        answered(t, "search", tulvekas_search(d, 112, k, 32, wide + 6, 9, w, 8, f, 16, y, 1, s, 8), 18);
    }
    written.take_front(t, "a refused call", 0);
    if other != [0; 64] {
        t.fail("a refused call", "a lent byte has changed".into());
    }
    // 6 + 16 times 7, and 9 + 16 times 3 where 7 to 9 are searched.
    let (count, walked, in_vain) = (6_u64.to_le_bytes(), 118_u64.to_le_bytes(), 57_u64.to_le_bytes());
    let mut check = |answer: u64, expected: u64, bytes: &[u8]| {
        answered(t, "search", answer, expected);
        if written.take_front(t, "search", bytes.len()) != bytes {
            t.fail("search", "another output than expected".into());
        }
    };
    unsafe {
        check(tulvekas_search(d, 112, k, 32, 0, 9, w, WIDE + 3, f, 16, y, 1, s, 8), 0, &count);
        check(tulvekas_search(d, 112, k, 32, 0, 9, c, 8, w, WIDE + 3, y, 1, s, 8), 0, iv);
        check(tulvekas_search(d, 112, k, 32, 0, 9, c, 8, f, 16, w, WIDE, s, 8), 0, &[1]);
        check(tulvekas_search(d, 112, k, 32, 0, 9, c, 8, f, 16, y, 1, w, WIDE + 3), 0, &walked);
        check(tulvekas_search(d, 112, k, 32, 7, 9, c, 8, f, 16, y, 1, w, WIDE + 3), 6, &in_vain);
    }
}

/// Schedulers, keys, IVs, pieces and outputs of more than 2^32 bytes, and texts as long.
fn schedulers(t: &mut Tester, zeros: *const u8, written: &mut Zeros, key: &[u8], iv: &[u8]) {
    const LEN: usize = SCHEDULE_BYTES;
    let (piece, w, wide) = (t.random.bytes(53), written.0, WIDE as u64);
    let (k, v, p) = (key.as_ptr(), iv.as_ptr(), piece.as_ptr());
    let mut scheduler = vec![0; LEN];
    calls::schedule_join(&mut scheduler, key, iv, 53).unwrap();
    let joined = scheduler.clone();
    let s = scheduler.as_mut_ptr();
    let mut other = [0; 128];
    let [o, f, n, y, g] = [0, 64, 80, 88, 96].map(|at| unsafe { other.as_mut_ptr().add(at) });
    unsafe {
        answered(t, "schedule_join", tulvekas_schedule_join(w, WIDE + LEN, k, 32, v, 16, 53), 8);
        answered(t, "schedule_join", tulvekas_schedule_join(s, LEN, zeros, WIDE + 32, v, 16, 53), 1);
        answered(t, "schedule_join", tulvekas_schedule_join(s, LEN, k, 32, zeros, WIDE + 16, 53), 2);
        answered(t, "schedule_join", tulvekas_schedule_join(s, LEN, k, 32, v, 16, wide), 3);
        answered(t, "schedule_join", tulvekas_schedule_join(s, LEN, k, 32, v, 16, wide + 53), 3);
        answered(t, "schedule_next", tulvekas_schedule_next(zeros, WIDE + LEN, y, 1, f, 16, n, 8), 8);
        answered(t, "schedule_turn", tulvekas_schedule_turn(w, WIDE + LEN, p, 53, o, 53, f, 16, n, 8, y, 1, g, 16), 8);
        answered(t, "schedule_turn", tulvekas_schedule_turn(s, LEN, zeros, WIDE, w, WIDE, f, 16, n, 8, y, 1, g, 16), 3);
        answered(t, "schedule_turn", tulvekas_schedule_turn(s, LEN, zeros, WIDE + 53, w, WIDE + 53, f, 16, n, 8, y, 1, g, 16), 3);
    }
    written.take_front(t, "a refused call", 0);
    if other != [0; 128] || scheduler != joined {
        t.fail("a refused call", "a lent byte has changed".into());
    }
    let (mut cipher, mut tag) = ([0; 53], [0; 16]);
    calls::seal(key, iv, &[], &piece, &mut cipher, &mut tag).unwrap();
    let (due, first) = (53_u64.to_le_bytes(), 1_u64.to_le_bytes());
    let mut check = |call: &str, answer: u64, bytes: &[u8]| {
        answered(t, call, answer, 0);
        if written.take_front(t, call, bytes.len()) != bytes {
            t.fail(call, "another output than expected".into());
        }
    };
    let s = scheduler.as_ptr();
    unsafe {
        w.write_bytes(1, LEN);
        check("schedule_empty", tulvekas_schedule_empty(w, WIDE + 3), &[]);
        check("schedule_next", tulvekas_schedule_next(s, LEN, w, WIDE, f, 16, n, 8), &[1]);
        check("schedule_next", tulvekas_schedule_next(s, LEN, y, 1, w, WIDE + 3, n, 8), iv);
        check("schedule_next", tulvekas_schedule_next(s, LEN, y, 1, f, 16, w, WIDE + 3), &due);
    }
    for (at, bytes) in [&cipher[..], iv, &first, &[1], &tag].into_iter().enumerate() {
        let mut lent = [(o, 53), (f, 16), (n, 8), (y, 1), (g, 16)];
        lent[at] = (w, WIDE + 3);
        let [(o, o_len), (f, f_len), (n, n_len), (y, y_len), (g, g_len)] = lent;
        scheduler.copy_from_slice(&joined);
        let s = scheduler.as_mut_ptr();
        let answer = unsafe { tulvekas_schedule_turn(s, LEN, p, 53, o, o_len, f, f_len, n, n_len, y, y_len, g, g_len) };
        check("schedule_turn", answer, bytes);
    }
}
