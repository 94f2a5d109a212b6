//! Searches: dumps at known counts in ranges about them, and dumps that nothing leads to.

use crate::library::tulvekas_search;
use crate::tester::{Located, Tester, STATE_BYTES};
use reference::calls;
use reference::cipher::{Key, Mode, Registers};
use reference::refusal::number;
use reference::search::DUMP_BYTES;

const MOST: u64 = 65_538;

/// A state `count` blocks behind a start, by the calls.
fn reached(t: &mut Tester, key: &[u8], iv: &[u8], sealed: u64, count: u64) -> Vec<u8> {
    let mut state = t.start(key, iv, sealed);
    t.run(&mut state, count, 0);
    state
}

/// The state's registers.
fn dump_of(state: &[u8]) -> Vec<u8> {
    state[..DUMP_BYTES].to_vec()
}

/// One bit of some bytes changed.
fn near(t: &mut Tester, bytes: &[u8]) -> Vec<u8> {
    let mut near = bytes.to_vec();
    near[t.random.below(bytes.len())] ^= 1 << t.random.below(8);
    near
}

/// A dump at a count, in ranges that begin before it, at it and behind it, that end before it, at it and behind it, and in a range of one.
fn about(t: &mut Tester, dump: &[u8], key: &[u8], iv: &[u8], sealed: u8, count: u64) {
    let (less, more) = (1 + t.random.below(6) as u64, 1 + t.random.below(6) as u64);
    let (before, behind) = (count.saturating_sub(less), (count + more).min(MOST));
    for range in [(before, behind), (count, behind), (before, count), (count, count)] {
        t.searched_to(dump, key, range, count, iv, sealed);
    }
    if before < count {
        t.searched_in_vain(dump, key, (before, count - 1));
        t.searched_in_vain(dump, key, (count - 1, count - 1));
    }
    if count < behind {
        t.searched_in_vain(dump, key, (count + 1, behind));
        t.searched_in_vain(dump, key, (count + 1, count + 1));
    }
}

/// Both modes, at low counts, from the start on, and at counts at random.
#[test]
fn searches_of_reached_states() {
    let mut t = Tester::new("searches of reached states");
    for round in 0..t.rounds(600) {
        for sealed in [0, 1] {
            let (key, iv) = (t.random.secret::<32>(), t.random.secret::<16>());
            let random_count = t.random.below(200) as u64;
            let count = [0, 1, 2, 3, 17, random_count][round as usize % 6];
            let state = reached(&mut t, &key, &iv, sealed, count);
            about(&mut t, &dump_of(&state), &key, &iv, sealed as u8, count);
            t.searched_to(&dump_of(&state), &key, (0, count + 3), count, &iv, sealed as u8);
        }
    }
    t.done();
}

/// Bytes 16 to 127 of a suspended block: its count is 2 + text / 16 rounded up, and the dump with it behind is the session's state.
#[test]
fn searches_of_suspended_sessions() {
    let mut t = Tester::new("searches of suspended sessions");
    for _ in 0..t.rounds(500) {
        let (key, iv) = (t.random.secret::<32>(), t.random.secret::<16>());
        let mut session = t.begin(&key, &iv);
        let (data_len, text_len) = (t.random.length(60), t.random.length(600));
        let (data, text) = (t.random.bytes(data_len), t.random.bytes(text_len));
        t.data(&mut session, &data);
        t.text(&mut session, &text);
        let block = t.suspend(&session);
        let (dump, count) = (&block[16..128], 2 + text_len.div_ceil(16) as u64);
        about(&mut t, dump, &key, &iv, 1, count);
        t.searched_to(dump, &key, (0, 40), count, &iv, 1);
        let mut state = [dump, &count.to_le_bytes()].concat();
        if state != t.state_of(&block).1 {
            t.fail("search", "the dump and its count are another state than the block's".into());
        }
        t.run(&mut state, count, 1);
        if state != t.start(&key, &iv, 1) {
            t.fail("run", "both walk back from the dump to another state than its start".into());
        }
    }
    t.done();
}

/// A search of one count is the trace of the state at that count, whatever the registers.
#[test]
fn searches_of_one_count() {
    let mut t = Tester::new("searches of one count");
    for round in 0..t.rounds(3_000) {
        let (key, iv, sealed) = (t.random.secret::<32>(), t.random.secret::<16>(), t.random.pick(&[0, 1]));
        let count = t.random.below(40) as u64;
        let mut state = match round % 3 {
            0 => t.random.secret::<STATE_BYTES>().to_vec(),
            _ => reached(&mut t, &key, &iv, sealed, count),
        };
        let at = if round % 3 == 1 { count } else { t.random.below(40) as u64 };
        state[DUMP_BYTES..].copy_from_slice(&at.to_le_bytes());
        let (answer, traced_iv, traced_mode) = t.trace(&state, &key);
        let expected = match answer {
            0 => Ok(Located { count: at, iv: traced_iv[..16].to_vec(), sealed: traced_mode[0], steps: at + 16 }),
            refused => Err((refused, at + 16)),
        };
        if t.search(&state[..DUMP_BYTES], &key, at, at) != expected {
            t.fail("search", format!("at {at} both give another answer than the trace"));
        }
    }
    t.done();
}

/// Runs there and back: a state is found at the count that is left, and one that was run back to its start at 0.
#[test]
fn searches_of_states_run_back() {
    let mut t = Tester::new("searches of states run back");
    for _ in 0..t.rounds(600) {
        let (key, iv, sealed) = (t.random.secret::<32>(), t.random.secret::<16>(), t.random.pick(&[0, 1]));
        let count = t.random.below(60) as u64;
        let back = t.random.below(count as usize + 1) as u64;
        let mut state = reached(&mut t, &key, &iv, sealed, count);
        t.run(&mut state, back, 1);
        t.searched_to(&dump_of(&state), &key, (0, 60), count - back, &iv, sealed as u8);
        t.run(&mut state, count - back, 1);
        for highest in [0, 1, 5] {
            t.searched_to(&dump_of(&state), &key, (0, highest), 0, &iv, sealed as u8);
        }
        t.searched_in_vain(&dump_of(&state), &key, (1, 6));
    }
    t.done();
}

/// A dump or a key with one bit changed, and another key.
#[test]
fn searches_beside_the_dump_and_the_key() {
    let mut t = Tester::new("searches beside the dump and the key");
    for _ in 0..t.rounds(600) {
        let (key, iv, sealed) = (t.random.secret::<32>(), t.random.secret::<16>(), t.random.pick(&[0, 1]));
        let count = t.random.below(20) as u64;
        let state = reached(&mut t, &key, &iv, sealed, count);
        let dump = dump_of(&state);
        let (near_dump, near_key, other_key) = (near(&mut t, &dump), near(&mut t, &key), t.random.array::<32>());
        t.searched_in_vain(&near_dump, &key, (0, 22));
        t.searched_in_vain(&dump, &near_key, (0, 22));
        t.searched_in_vain(&dump, &other_key, (0, 22));
        t.searched_to(&dump, &key, (0, 22), count, &iv, sealed as u8);
    }
    t.done();
}

/// Registers that a start's 16 steps lead to from what differs from a load in one bit: found where the bit is one of the IV's.
#[test]
fn searches_of_near_loads() {
    let mut t = Tester::new("searches of near loads");
    for mode in [Mode::Plain, Mode::Sealed] {
        for bit in 0..8 * DUMP_BYTES {
            if !t.chosen() {
                continue;
            }
            let (key_bytes, iv) = (t.random.secret::<32>(), t.random.secret::<16>());
            let key = Key::new(&key_bytes).unwrap();
            let mut load = Registers::load(&key, &iv, mode).to_bytes();
            load[bit / 8] ^= 1 << (bit % 8);
            let mut registers = Registers::from_bytes(&load);
            for step in 1..=16 {
                registers.start_step(&key, step);
            }
            registers.step();
            // The first 16 bytes of a dump are a0 to a7, the IV.
            if bit < 128 {
                t.searched_to(&registers.to_bytes(), &key_bytes, (0, 2), 1, &load[..16], u8::from(mode == Mode::Sealed));
            } else {
                t.searched_in_vain(&registers.to_bytes(), &key_bytes, (0, 2));
            }
        }
    }
    t.done();
}

#[test]
fn searches_of_random_dumps() {
    let mut t = Tester::new("searches of random dumps");
    for _ in 0..t.rounds(6_000) {
        let (key, dump) = (t.random.secret::<32>(), t.random.secret::<DUMP_BYTES>());
        let (from, counts) = (t.random.length(100) as u64, t.random.below(12) as u64);
        t.searched_in_vain(&dump, &key, (from, from + counts));
    }
    t.done();
}

/// Lengths, ranges and counts at random, most of them good: whatever is lent, both answer alike.
#[test]
fn random_searches() {
    let mut t = Tester::new("random searches");
    for _ in 0..t.rounds(6_000) {
        let (key, iv, sealed) = (t.random.secret::<32>(), t.random.secret::<16>(), t.random.pick(&[0, 1]));
        let count = t.random.below(30) as u64;
        let state = reached(&mut t, &key, &iv, sealed, count);
        let mut bytes = [&state[..DUMP_BYTES], &[0; 400]].concat();
        let dump_len = if t.random.one_in(6) { t.random.pick(&[0, 1, 111, 113, 120, 512]) } else { DUMP_BYTES };
        bytes.truncate(dump_len);
        let key_len = if t.random.one_in(8) { t.random.below(32) } else { 32 };
        let low = t.random.below(30) as u64;
        let high = t.random.below(40) as u64;
        let lowest = if t.random.one_in(12) { t.random.pick(&[MOST + 1, 1 << 32, 1 << 63, u64::MAX]) } else { low };
        let highest = if t.random.one_in(12) { t.random.pick(&[MOST + 1, 1 << 32 | high, 1 << 63, u64::MAX]) } else { high };
        let found = t.search(&bytes, &key[..key_len], lowest, highest);
        let refused = [
            (key_len != 32, 1),
            (dump_len != DUMP_BYTES, 8),
            (highest > MOST, 9),
            (lowest > highest, 18),
            (!(lowest..=highest).contains(&count), 6),
        ];
        let expected = refused.iter().find(|(holds, _)| *holds).map_or(0, |(_, number)| *number);
        t.expect("search", found.map_or_else(|(number, _)| number, |_| 0), expected);
    }
    t.done();
}

/// All counts over a foreign dump, and over dumps at the first, at a middle and at the last.
#[test]
fn searches_of_all_counts() {
    let mut t = Tester::new("searches of all counts");
    for _ in 0..t.rounds(2) {
        let (key, dump) = (t.random.array::<32>(), t.random.array::<DUMP_BYTES>());
        let found = t.search(&dump, &key, 0, MOST);
        if found != Err((6, 65_538 + 16 * 65_539)) {
            t.fail("search", format!("of all counts both give {found:?}"));
        }
    }
    for (sealed, count) in [(0, 0), (1, 0), (0, 20_000), (1, 20_000), (0, MOST), (1, MOST)] {
        if t.chosen() {
            let (key, iv) = (t.random.secret::<32>(), t.random.secret::<16>());
            let state = reached(&mut t, &key, &iv, sealed, count);
            t.searched_to(&dump_of(&state), &key, (0, MOST), count, &iv, sealed as u8);
        }
    }
    t.done();
}

/// The last counts: found at 65,538 and about it, and one further refused.
#[test]
fn searches_at_the_last_counts() {
    let mut t = Tester::new("searches at the last counts");
    for sealed in [0, 1] {
        for count in [MOST, MOST - 1, 40_000] {
            if !t.chosen() {
                continue;
            }
            let (key, iv) = (t.random.secret::<32>(), t.random.secret::<16>());
            let dump = dump_of(&reached(&mut t, &key, &iv, sealed, count));
            about(&mut t, &dump, &key, &iv, sealed as u8, count);
            for (lowest, highest, expected) in [(count, MOST + 1, 9), (MOST + 1, MOST + 1, 9), (MOST + 1, MOST, 18), (count, u64::MAX, 9)] {
                let answer = t.search(&dump, &key, lowest, highest).map_or_else(|(number, _)| number, |_| 0);
                t.expect("search", answer, expected);
            }
        }
    }
    t.done();
}

/// Dump and key may overlap each other: both are only read.
#[test]
fn overlapping_inputs() {
    let mut t = Tester::new("overlapping inputs of a search");
    for _ in 0..t.rounds(500) {
        let bytes = t.random.bytes(160);
        let (at, key, before) = (t.random.below(48), t.random.below(128), bytes.clone());
        let (dump, key_bytes) = (&bytes[at..at + DUMP_BYTES], &bytes[key..key + 32]);
        let (mut count, mut iv, mut sealed, mut steps, mut our_steps) = ([0; 8], [0; 16], [0], [0; 8], [0; 8]);
        let expected = number(&calls::search(dump, key_bytes, 3, 8, &mut count, &mut iv, &mut sealed, &mut our_steps));
        let (b, c, f) = (bytes.as_ptr(), count.as_mut_ptr(), iv.as_mut_ptr());
        let (y, s) = (sealed.as_mut_ptr(), steps.as_mut_ptr());
        let answer = unsafe { tulvekas_search(b.add(at), DUMP_BYTES, b.add(key), 32, 3, 8, c, 8, f, 16, y, 1, s, 8) };
        t.count(answer);
        if answer != expected || steps != our_steps || (count, iv, sealed) != ([0; 8], [0; 16], [0]) || bytes != before {
            t.fail("search", "another answer from overlapping inputs".into());
        }
    }
    t.done();
}
