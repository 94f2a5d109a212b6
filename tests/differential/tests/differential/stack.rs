//! The header's bound on the stack: each call is made on a thread whose stack is painted before, and what it writes of it is measured.

#![cfg(all(target_os = "linux", target_arch = "x86_64"))]

use crate::library::*;
use crate::random::Random;
use crate::tester::{SCHEDULE_BYTES, SESSION_BYTES, STATE_BYTES};
use reference::cipher::{Key, Mode, State};
use reference::{calls, key_store};
use std::ffi::c_void;
use std::ptr::null_mut;

/// Bytes of stack that the header allows a call.
const MOST: usize = 16 << 10;
/// Bytes of stack that the thread has.
const STACK: usize = 256 << 10;
const PAINT: u8 = 0xa5;
const PAGE: usize = 4096;

/// `pthread_attr_t`.
#[repr(C, align(8))]
struct Attributes([u8; 56]);

extern "C" {
    fn pthread_attr_init(attributes: *mut Attributes) -> i32;
    fn pthread_attr_setstack(attributes: *mut Attributes, stack: *mut c_void, len: usize) -> i32;
    fn pthread_create(
        thread: *mut usize,
        attributes: *const Attributes,
        start: extern "C" fn(*mut c_void) -> *mut c_void,
        with: *mut c_void,
    ) -> i32;
    fn pthread_join(thread: usize, result: *mut *mut c_void) -> i32;
}

/// What a thread is to do.
type Made<'a> = &'a mut dyn FnMut();

extern "C" fn make(made: *mut c_void) -> *mut c_void {
    unsafe { (*made.cast::<Made>())() };
    null_mut()
}

/// How far down its stack a thread writes that does what it is told to.
fn depth(mut made: Made) -> usize {
    let mut memory = vec![PAINT; STACK + PAGE];
    let at = memory.as_ptr().align_offset(PAGE);
    let stack = &mut memory[at..at + STACK];
    let (mut attributes, mut thread) = (Attributes([0; 56]), 0);
    let with: *mut Made = &mut made;
    unsafe {
        assert_eq!(pthread_attr_init(&mut attributes), 0);
        assert_eq!(pthread_attr_setstack(&mut attributes, stack.as_mut_ptr().cast(), STACK), 0);
        assert_eq!(pthread_create(&mut thread, &attributes, make, with.cast()), 0);
        assert_eq!(pthread_join(thread, null_mut()), 0);
    }
    STACK - stack.iter().take_while(|byte| **byte == PAINT).count()
}

/// Makes a call, which must be accepted, and enters its name and its stack.
fn take(taken: &mut Vec<(&'static str, usize)>, name: &'static str, call: &dyn Fn() -> u64) {
    let nothing = depth(&mut || {});
    let mut answer = None;
    let deep = depth(&mut || answer = Some(call()));
    assert_eq!(answer, Some(0), "{name}");
    taken.push((name, deep.saturating_sub(nothing)));
}

/// The stack of each call on data and text of these lengths, by pieces each in two.
fn of_a_page(random: &mut Random, data_len: usize, text_len: usize) -> Vec<(&'static str, usize)> {
    let (key, iv) = (random.array::<32>(), random.array::<16>());
    let (data, text) = (random.bytes(data_len), random.bytes(text_len));
    let (k, v, d, x, n, m) = (key.as_ptr(), iv.as_ptr(), data.as_ptr(), text.as_ptr(), data_len, text_len);
    let (mut cipher, mut opened, mut tag) = (vec![0; m], vec![0; m], [0; 16]);
    let (c, o, g) = (cipher.as_mut_ptr(), opened.as_mut_ptr(), tag.as_mut_ptr());
    let (mut session, mut block, mut byte) = ([0; SESSION_BYTES], [0; 512], [0]);
    let (s, b, y) = (session.as_mut_ptr(), block.as_mut_ptr(), byte.as_mut_ptr());
    let (mut found, mut state, blocks) = ([0; 16], [0; STATE_BYTES], m as u64 / 16);
    let (f, a) = (found.as_mut_ptr(), state.as_mut_ptr());
    let (mut date, mut number) = ([0; 4], [0; 8]);
    let (e, r) = (date.as_mut_ptr(), number.as_mut_ptr());
    let mut taken = Vec::new();
    let mut take = |name, call: &dyn Fn() -> u64| take(&mut taken, name, call);
    unsafe {
        take("seal", &|| tulvekas_seal(k, 32, v, 16, d, n, x, m, c, m, g, 16));
        take("open", &|| tulvekas_open(k, 32, v, 16, d, n, c, m, g, 16, o, m));
        take("begin", &|| tulvekas_begin(k, 32, v, 16, s, SESSION_BYTES));
        for (at, len) in [(0, n / 3), (n / 3, n - n / 3)] {
            take("data", &|| tulvekas_data(s, SESSION_BYTES, d.add(at), len));
        }
        for (at, len) in [(0, m / 3), (m / 3, m - m / 3)] {
            take("text", &|| tulvekas_text(s, SESSION_BYTES, x.add(at), len, c.add(at), len));
        }
        take("suspend", &|| tulvekas_suspend(s, SESSION_BYTES, b, 512));
        take("resume", &|| tulvekas_resume(k, 32, b, 512, s, SESSION_BYTES, f, 16));
        take("finish", &|| tulvekas_finish(s, SESSION_BYTES, g, 16, f, 16));
        take("keystream", &|| tulvekas_keystream(k, 32, v, 16, 1, o, m));
        take("state_of", &|| tulvekas_state_of(b, 512, a, STATE_BYTES));
        take("trace", &|| tulvekas_trace(a, STATE_BYTES, k, 32, f, 16, y, 1));
        take("start", &|| tulvekas_start(k, 32, v, 16, 1, a, STATE_BYTES));
        for back in [0, 1] {
            take("run", &|| tulvekas_run(a, STATE_BYTES, blocks, back, o, m));
        }
        take("date", &|| tulvekas_date(9_009, e, 4));
        take("day", &|| tulvekas_day(2024, 8, 31, r, 8));
        take("kept", &|| tulvekas_kept(1_000, 500, y, 1));
        take("kept_until", &|| tulvekas_kept_until(9_009, e, 4));
    }
    taken
}

/// The stack of sealing a page into the last place of a file of so many pages, and of opening it.
fn of_a_file(random: &mut Random, pages: usize, text_len: usize) -> Vec<(&'static str, usize)> {
    let (key, stay, text) = (random.array::<32>(), random.array::<12>(), random.bytes(text_len));
    let (mut file, mut opened, mut length) = (vec![0; 512 * pages], vec![0; text_len], [0; 8]);
    let (k, s, x, f) = (key.as_ptr(), stay.as_ptr(), text.as_ptr(), file.as_mut_ptr());
    let (o, l, place) = (opened.as_mut_ptr(), length.as_mut_ptr(), pages as u64 - 1);
    let mut taken = Vec::new();
    unsafe {
        let seal = || tulvekas_file_seal(k, 32, s, 12, 0, 9_000, x, text_len, place, f, 512 * pages);
        take(&mut taken, "file_seal", &seal);
        let open = || tulvekas_file_open(k, 32, s, 12, 0, f, 512 * pages, o, text_len, l, 8);
        take(&mut taken, "file_open", &open);
    }
    taken
}

/// The stack of storing, fetching and erasing the key of a stay in the last block of a store of so many, of which the others are held or empty.
fn of_a_store(random: &mut Random, blocks: usize, held: bool) -> Vec<(&'static str, usize)> {
    let (key, iv, stay_key) = (random.array::<32>(), random.array::<16>(), random.array::<32>());
    let (mut store, mut fetched) = (vec![0; 512 * blocks], [0; 32]);
    if held {
        for other in 1..blocks {
            let mut block = [0; 512];
            key_store::store(&key, &(other as u128).to_le_bytes(), &stay_key, &mut block).unwrap();
            store[512 * (other - 1)..][..512].copy_from_slice(&block);
        }
    }
    let (k, v, y, s, f) = (key.as_ptr(), iv.as_ptr(), stay_key.as_ptr(), store.as_mut_ptr(), fetched.as_mut_ptr());
    let mut taken = Vec::new();
    unsafe {
        take(&mut taken, "keys_store", &|| tulvekas_keys_store(k, 32, v, 16, y, 32, s, 512 * blocks));
        take(&mut taken, "keys_fetch", &|| tulvekas_keys_fetch(k, 32, v, 16, s, 512 * blocks, f, 32));
        take(&mut taken, "keys_erase", &|| tulvekas_keys_erase(v, 16, s, 512 * blocks));
    }
    taken
}

/// The stack of a search from a count on that finds a later one.
fn of_a_range(random: &mut Random, lowest: u64, found: u64) -> Vec<(&'static str, usize)> {
    let (key, iv) = (random.array::<32>(), random.array::<16>());
    let mut state = State::start(&Key::new(&key).unwrap(), &iv, Mode::Sealed);
    while state.count < found {
        state.step().unwrap();
    }
    let (dump, mut count, mut found, mut sealed, mut steps) = (state.registers.to_bytes(), [0; 8], [0; 16], [0], [0; 8]);
    let (d, k, c, f) = (dump.as_ptr(), key.as_ptr(), count.as_mut_ptr(), found.as_mut_ptr());
    let (y, s) = (sealed.as_mut_ptr(), steps.as_mut_ptr());
    let mut taken = Vec::new();
    let search = || unsafe { tulvekas_search(d, 112, k, 32, lowest, 65_538, c, 8, f, 16, y, 1, s, 8) };
    take(&mut taken, "search", &search);
    taken
}

/// The stack of making a scheduler, of the last joining of so many, of asking who is next, and of the first turn, which ends a text of up to 4,096
/// bytes.
fn of_a_scheduler(random: &mut Random, stays: u128, text_len: u64) -> Vec<(&'static str, usize)> {
    let (key, mut scheduler) = (random.array::<32>(), vec![0; SCHEDULE_BYTES]);
    let due = text_len.min(4_096) as usize;
    let (piece, mut out) = (random.bytes(due), vec![0; due]);
    let (k, iv, s, p, o) = (key.as_ptr(), stays.to_le_bytes(), scheduler.as_mut_ptr(), piece.as_ptr(), out.as_mut_ptr());
    let (mut byte, mut found, mut number, mut tag) = ([0], [0; 16], [0; 8], [0; 16]);
    let (y, f, n, g) = (byte.as_mut_ptr(), found.as_mut_ptr(), number.as_mut_ptr(), tag.as_mut_ptr());
    let mut taken = Vec::new();
    let len = SCHEDULE_BYTES;
    take(&mut taken, "schedule_empty", &|| unsafe { tulvekas_schedule_empty(s, len) });
    for other in 1..stays {
        calls::schedule_join(&mut scheduler, &key, &other.to_le_bytes(), text_len).unwrap();
    }
    let s = scheduler.as_mut_ptr();
    unsafe {
        take(&mut taken, "schedule_join", &|| tulvekas_schedule_join(s, len, k, 32, iv.as_ptr(), 16, text_len));
        take(&mut taken, "schedule_next", &|| tulvekas_schedule_next(s, len, y, 1, f, 16, n, 8));
        take(&mut taken, "schedule_turn", &|| tulvekas_schedule_turn(s, len, p, due, o, due, f, 16, n, 8, y, 1, g, 16));
    }
    taken
}

#[test]
fn stack_of_each_call() {
    let mut random = Random::new(20_000_101);
    let mut deepest = ("none", 0);
    let mut taken = Vec::new();
    for (data_len, text_len) in [(0, 0), (5, 9), (16, 16), (21, 39), (1_000, 5_000), (65_535, 1_048_576)] {
        taken.extend(of_a_page(&mut random, data_len, text_len));
    }
    for (pages, text_len) in [(1, 0), (1, 16), (2, 473), (6, 474), (100, 17), (10_000, 474)] {
        taken.extend(of_a_file(&mut random, pages, text_len));
    }
    for (blocks, held) in [(1, false), (2, true), (6, false), (6, true), (100, true), (1_000, true)] {
        taken.extend(of_a_store(&mut random, blocks, held));
    }
    for (lowest, found) in [(0, 0), (0, 1), (16, 16), (10, 100), (0, 5_000), (65_530, 65_538)] {
        taken.extend(of_a_range(&mut random, lowest, found));
    }
    for (stays, text_len) in [(1, 1), (1, 4_097), (2, 4_096), (6, 5_000), (32, 4_095), (32, 1_048_576)] {
        taken.extend(of_a_scheduler(&mut random, stays, text_len));
    }
    for (call, bytes) in taken {
        assert!(bytes <= MOST, "{call} takes {bytes} bytes of stack");
        deepest = if bytes > deepest.1 { (call, bytes) } else { deepest };
    }
    println!("stack of each call: at most {} bytes ({})", deepest.1, deepest.0);
}
