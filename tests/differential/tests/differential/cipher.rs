//! Keystream, start, runs and trace.

use crate::arbitrary::COUNTS;
use crate::library::{tulvekas_start, tulvekas_trace};
use crate::tester::{Tester, STATE_BYTES};
use reference::calls;
use reference::cipher::{Key, Mode, Registers, State};
use reference::refusal::number;

/// A state reached by `count` steps from a start.
fn reached(key: &[u8], iv: &[u8; 16], mode: Mode, count: u64) -> State {
    let mut state = State::start(&Key::new(key).unwrap(), iv, mode);
    for _ in 0..count {
        state.step().unwrap();
    }
    state
}

/// Every length up to 200, both modes, sealed named by several numbers.
#[test]
fn short_keystreams() {
    let mut t = Tester::new("short keystreams");
    for out_len in 0..=200 {
        for sealed in [0, 1, 2, 255, 256, 1 << 32, 1 << 63, u64::MAX] {
            for _ in 0..3 {
                if t.chosen() {
                    let (key, iv) = (t.random.secret::<32>(), t.random.secret::<16>());
                    let answer = t.keystream(&key, &iv, sealed, out_len).0;
                    t.expect("keystream", answer, 0);
                }
            }
        }
    }
    t.done();
}

#[test]
fn random_keystreams() {
    let mut t = Tester::new("random keystreams");
    for _ in 0..t.rounds(3_000) {
        let (key, iv) = (t.random.secret::<32>(), t.random.secret::<16>());
        let (sealed, out_len) = (t.random.pick(&[0, 1, 7]), t.random.length(6_000));
        t.keystream(&key, &iv, sealed, out_len);
    }
    t.done();
}

/// 65,538 blocks and up to 15 bytes more are accepted, 65,539 blocks refused.
#[test]
fn longest_keystreams() {
    let mut t = Tester::new("longest keystreams");
    let most = 16 * 65_538;
    for sealed in [0, 1] {
        for (out_len, expected) in
            [(most - 17, 0), (most - 1, 0), (most, 0), (most + 1, 0), (most + 15, 0), (most + 16, 9), (most + 17, 9), (2 * most, 9)]
        {
            if t.chosen() {
                let (key, iv) = (t.random.secret::<32>(), t.random.secret::<16>());
                let answer = t.keystream(&key, &iv, sealed, out_len).0;
                t.expect("keystream", answer, expected);
            }
        }
    }
    t.done();
}

/// Both modes, sealed named by several numbers: the state is 120 bytes with a count of 0, and a run from it is the keystream.
#[test]
fn starts() {
    let mut t = Tester::new("starts");
    for sealed in [0, 1, 2, 255, 256, 1 << 32, 1 << 63, u64::MAX] {
        for _ in 0..t.rounds(60) {
            let (key, iv) = (t.random.secret::<32>(), t.random.secret::<16>());
            let mut state = t.start(&key, &iv, sealed);
            if state[112..] != [0; 8] {
                t.fail("start", "both begin at another count than 0".into());
            }
            t.traced_to(&state, &key, &iv, u8::from(sealed != 0));
            let blocks = t.random.length(40);
            let stream = t.keystream(&key, &iv, sealed, 16 * blocks).1;
            if t.run(&mut state, blocks as u64, 0) != stream {
                t.fail("run", "both give another keystream than from block 0 on".into());
            }
        }
    }
    t.done();
}

/// The blocks in the other order.
fn reversed(blocks: &[u8]) -> Vec<u8> {
    blocks.chunks(16).rev().flatten().copied().collect()
}

/// Forward and back, and back and forward, return the state, and give the same blocks in the other order.
fn there_and_back(t: &mut Tester, state: &mut Vec<u8>, n: u64, back: u64) {
    let before = state.clone();
    let there = t.run(state, n, back);
    let again = t.run(state, n, u64::from(back == 0));
    if *state != before || again != reversed(&there) {
        t.fail("run", format!("{n} blocks there and back do not return the state"));
    }
}

/// Runs up and down from a start, in pieces, always at the count that the directions add up to.
#[test]
fn runs_there_and_back() {
    let mut t = Tester::new("runs there and back");
    for _ in 0..t.rounds(600) {
        let (key, iv, sealed) = (t.random.secret::<32>(), t.random.secret::<16>(), t.random.pick(&[0, 1]));
        let stream = t.keystream(&key, &iv, sealed, 16 * 400).1;
        let (mut state, mut count) = (t.start(&key, &iv, sealed), 0);
        for _ in 0..t.random.below(12) {
            let back = t.random.pick(&[0, 0, 1, 2, 1 << 32, u64::MAX]);
            let n = if back == 0 { t.random.length(30) } else { t.random.below(count + 1) };
            let next = if back == 0 { count + n } else { count - n };
            let blocks = t.run(&mut state, n as u64, back);
            let between = &stream[16 * count.min(next)..16 * count.max(next)];
            if state[112..] != (next as u64).to_le_bytes() || blocks != if back == 0 { between.to_vec() } else { reversed(between) } {
                t.fail("run", format!("{n} blocks from {count}, back {back}: both give another count or other keystream"));
            }
            count = next;
            there_and_back(&mut t, &mut state, n as u64, 0);
            let (answer, _) = t.run_in(&mut state, count as u64 + 1, 1, 16 * (count + 1));
            t.expect("run", answer, 15);
        }
        there_and_back(&mut t, &mut state, count as u64, 1);
        t.traced_to(&state, &key, &iv, sealed as u8);
    }
    t.done();
}

/// Random states at counts at the edges: whatever the registers, there and back returns them.
#[test]
fn runs_of_random_states() {
    let mut t = Tester::new("runs of random states");
    for round in 0..t.rounds(6_000) {
        let mut state = t.random.secret::<120>().to_vec();
        if round % 4 > 0 {
            let (near, far) = (65_538 - t.random.below(40) as u64, t.random.below(40) as u64);
            let at_an_edge = t.random.pick(&COUNTS);
            let count = t.random.pick(&[near, far, at_an_edge]);
            state[112..].copy_from_slice(&count.to_le_bytes());
        }
        let n = t.random.length(40) as u64;
        let at_an_edge = t.random.pick(&COUNTS);
        for n in [n, at_an_edge] {
            let back = t.random.pick(&[0, 1]);
            let before = state.clone();
            let out_len = 16 * n.min(50) as usize;
            let (answer, there) = t.run_in(&mut state, n, back, out_len);
            if answer != 0 {
                continue;
            }
            if t.run(&mut state, n, 1 - back) != reversed(&there) || state != before {
                t.fail("run", format!("{n} blocks there and back do not return the state"));
            }
        }
        let (key, count) = (t.random.secret::<32>(), u64::from_le_bytes(state[112..].try_into().unwrap()));
        if !(100..=65_538).contains(&count) || round % 200 == 0 {
            let answer = t.trace(&state, &key).0;
            t.expect("trace", answer, if count > 65_538 { 9 } else { 6 });
        }
    }
    t.done();
}

/// 65,538 reached by single blocks and by runs; one more is refused, and so is one back from the start.
#[test]
fn longest_runs() {
    let mut t = Tester::new("longest runs");
    for sealed in [0, 1] {
        if !t.chosen() {
            continue;
        }
        let (key, iv) = (t.random.secret::<32>(), t.random.secret::<16>());
        let start = t.start(&key, &iv, sealed);
        let stream = t.keystream(&key, &iv, sealed, 16 * 65_538).1;
        for parts in [vec![65_538], vec![65_537, 1], vec![1, 65_537], vec![40_000, 25_530, 1, 1, 1, 1, 1, 1, 1, 1], vec![0, 65_538, 0]] {
            let (mut state, mut blocks) = (start.clone(), Vec::new());
            for n in parts {
                blocks.extend(t.run(&mut state, n, 0));
            }
            if blocks != stream || state[112..] != 65_538_u64.to_le_bytes() {
                t.fail("run", "both give another keystream or count".into());
            }
            for (n, back, expected) in [(1, 0, 9), (65_538, 0, 9), (65_539, 1, 9), (u64::MAX, 1, 9), (u64::MAX, 0, 9)] {
                let answer = t.run_in(&mut state, n, back, 16).0;
                t.expect("run", answer, expected);
            }
            if t.run(&mut state, 65_538, 1) != reversed(&stream) || state != start {
                t.fail("run", "65,538 blocks there and back do not return the state".into());
            }
            let answer = t.run_in(&mut state, 1, 1, 16).0;
            t.expect("run", answer, 15);
        }
    }
    t.done();
}

/// States reached in both modes, at their counts and beside them, under their key and beside it.
#[test]
fn traces_of_reached_states() {
    let mut t = Tester::new("traces of reached states");
    for round in 0..t.rounds(1_500) {
        for mode in [Mode::Plain, Mode::Sealed] {
            let (key, iv) = (t.random.secret::<32>(), t.random.secret::<16>());
            let random_count = t.random.below(200) as u64;
            let count = [0, 1, 2, 3, 17, random_count][round as usize % 6];
            let state = reached(&key, &iv, mode, count);
            t.traced_to(&state.to_bytes(), &key, &iv, u8::from(mode == Mode::Sealed));
            let wrong_count = t.random.below(30) as u64;
            for wrong in [count + 1, count.wrapping_sub(1), wrong_count, 65_539, u64::MAX] {
                let answer = t.trace(&State { count: wrong, ..state.clone() }.to_bytes(), &key).0;
                if wrong != count {
                    t.expect("trace", answer, if wrong > 65_538 { 9 } else { 6 });
                }
            }
            let mut near_key = key;
            near_key[t.random.below(32)] ^= 1 << t.random.below(8);
            let answer = t.trace(&state.to_bytes(), &near_key).0;
            t.expect("trace", answer, 6);
            let mut near = state.to_bytes();
            near[t.random.below(112)] ^= 1 << t.random.below(8);
            let answer = t.trace(&near, &key).0;
            t.expect("trace", answer, 6);
        }
    }
    t.done();
}

/// A start walked back leads to one load only: a state before the start that differs from a load in one bit is nobody's.
#[test]
fn traces_of_near_loads() {
    let mut t = Tester::new("traces of near loads");
    let start = |mut registers: Registers, key: &Key| {
        for step in 1..=16 {
            registers.start_step(key, step);
        }
        State { registers, count: 0 }.to_bytes()
    };
    for mode in [Mode::Plain, Mode::Sealed] {
        for bit in 0..8 * 112 {
            if !t.chosen() {
                continue;
            }
            let (key_bytes, iv) = (t.random.secret::<32>(), t.random.secret::<16>());
            let key = Key::new(&key_bytes).unwrap();
            let mut load = Registers::load(&key, &iv, mode).to_bytes();
            load[bit / 8] ^= 1 << (bit % 8);
            let answer = t.trace(&start(Registers::from_bytes(&load), &key), &key_bytes).0;
            // The first 16 bytes of a state are a0 to a7, the IV.
            t.expect("trace", answer, if bit < 128 { 0 } else { 6 });
        }
    }
    t.done();
}

#[test]
fn traces_of_random_states() {
    let mut t = Tester::new("traces of random states");
    for _ in 0..t.rounds(3_000) {
        let (key, mut state) = (t.random.secret::<32>(), t.random.secret::<120>());
        let count: u64 = t.random.pick(&[0, 1, 2, 17, 100, 65_539, u64::MAX]);
        state[112..].copy_from_slice(&count.to_le_bytes());
        let answer = t.trace(&state, &key).0;
        t.expect("trace", answer, if count > 65_538 { 9 } else { 6 });
    }
    t.done();
}

/// The state of a suspended session has a count of 2 + text / 16 rounded up, is the session's own, and is traced to the IV that it began with.
#[test]
fn traces_of_sessions() {
    let mut t = Tester::new("traces of sessions");
    for _ in 0..t.rounds(1_000) {
        let (key, iv) = (t.random.secret::<32>(), t.random.secret::<16>());
        let mut session = t.begin(&key, &iv);
        let (data_len, text_len) = (t.random.length(60), t.random.length(600));
        let (data, text) = (t.random.bytes(data_len), t.random.bytes(text_len));
        t.data(&mut session, &data);
        t.text(&mut session, &text);
        let block = t.suspend(&session);
        let (answer, mut state) = t.state_of(&block);
        t.expect("state_of", answer, 0);
        let count = 2 + text_len.div_ceil(16) as u64;
        if state[..112] != block[16..128] || state[112..] != count.to_le_bytes() || state != session[24..144] {
            t.fail("state_of", "both give another state than the session's".into());
        }
        t.traced_to(&state, &key, &iv, 1);
        t.run(&mut state, count, 1);
        if state != t.start(&key, &iv, 1) {
            t.fail("run", "both walk back from the session to another state than its start".into());
        }
    }
    t.done();
}

/// 65,538 blocks back, both modes; 65,539 is refused.
#[test]
fn longest_traces() {
    let mut t = Tester::new("longest traces");
    for mode in [Mode::Plain, Mode::Sealed] {
        for count in [65_538, 65_537, 40_000] {
            if !t.chosen() {
                continue;
            }
            let (key, iv) = (t.random.secret::<32>(), t.random.secret::<16>());
            let mut state = reached(&key, &iv, mode, count);
            t.traced_to(&state.to_bytes(), &key, &iv, u8::from(mode == Mode::Sealed));
            state.count -= 1;
            let answer = t.trace(&state.to_bytes(), &key).0;
            t.expect("trace", answer, 6);
            state.registers.step();
            state.count += 2;
            let answer = t.trace(&state.to_bytes(), &key).0;
            t.expect("trace", answer, if count == 65_538 { 9 } else { 0 });
        }
    }
    t.done();
}

/// Buffers that are only read may overlap each other: key and IV, or state and key, taken from one run of bytes.
#[test]
fn overlapping_inputs() {
    let mut t = Tester::new("overlapping inputs of the cipher");
    for round in 0..t.rounds(500) {
        let mut bytes = t.random.bytes(160);
        let at = t.random.below(40);
        bytes[at + 112..at + STATE_BYTES].copy_from_slice(&(round % 40).to_le_bytes());
        let (key, iv, before) = (t.random.below(128), t.random.below(144), bytes.clone());
        let (mut state, mut our_state) = ([0; STATE_BYTES], [0; STATE_BYTES]);
        calls::start(&bytes[key..key + 32], &bytes[iv..iv + 16], 1, &mut our_state).unwrap();
        let b = bytes.as_ptr();
        let answer = unsafe { tulvekas_start(b.add(key), 32, b.add(iv), 16, 1, state.as_mut_ptr(), STATE_BYTES) };
        t.count(answer);
        if answer != 0 || state != our_state || bytes != before {
            t.fail("start", "another state from overlapping inputs".into());
        }
        let (mut found, mut sealed) = ([0; 16], [0; 1]);
        let expected = number(&calls::trace(&bytes[at..at + STATE_BYTES], &bytes[key..key + 32], &mut found, &mut sealed));
        let answer = unsafe { tulvekas_trace(b.add(at), STATE_BYTES, b.add(key), 32, found.as_mut_ptr(), 16, sealed.as_mut_ptr(), 1) };
        t.count(answer);
        if answer != expected || (found, sealed) != ([0; 16], [0; 1]) || bytes != before {
            t.fail("trace", "another answer from overlapping inputs".into());
        }
    }
    t.done();
}
