//! Suspended sessions: layouts kept and broken, foreign states, and what is taken as stored.

use crate::tester::{Session, Tester, SESSION_BYTES, STATE_BYTES};
use reference::cipher::{Key, Mode, Registers};
use reference::suspended::check;

/// Sets the check again, so that a change breaks its own rule alone.
fn checked(mut block: [u8; 512]) -> [u8; 512] {
    let sum = check(&block);
    block[508..].copy_from_slice(&sum.to_le_bytes());
    block
}

fn with(block: &[u8; 512], at: usize, bytes: &[u8]) -> [u8; 512] {
    let mut block = *block;
    block[at..at + bytes.len()].copy_from_slice(bytes);
    checked(block)
}

struct Suspended {
    key: [u8; 32],
    block: [u8; 512],
}

/// A session suspended with these lengths; `closed` ones have taken a text piece.
fn suspended(t: &mut Tester, data_len: usize, text_len: usize, closed: bool) -> Suspended {
    let (key, iv) = (t.random.secret::<32>(), t.random.secret::<16>());
    let mut session = t.begin(&key, &iv);
    let (data, text) = (t.random.bytes(data_len), t.random.bytes(text_len));
    t.data(&mut session, &data);
    if closed {
        t.text(&mut session, &text);
    }
    let block = t.suspend_and_resume(&key, &iv, &session);
    Suspended { key, block }
}

/// Lengths of data and text, and whether a text piece was taken.
const SHAPES: [(usize, usize, bool); 18] = [
    (0, 0, false),
    (1, 0, false),
    (15, 0, false),
    (16, 0, false),
    (17, 0, false),
    (65_535, 0, false),
    (0, 0, true),
    (9, 0, true),
    (16, 0, true),
    (0, 1, true),
    (3, 15, true),
    (16, 16, true),
    (31, 17, true),
    (40, 31, true),
    (5, 32, true),
    (7, 33, true),
    (65_535, 100, true),
    (2, 4_096, true),
];

/// Requires that walking back the session's state, as suspend writes it, gives the IV that it carries.
fn knows_its_stay(t: &mut Tester, key: &[u8], session: &Session, iv: &[u8]) {
    let block = t.suspend(session);
    let (answer, state) = t.state_of(&block);
    t.expect("state_of", answer, 0);
    t.traced_to(&state[..STATE_BYTES], key, iv, 1);
}

/// Goes on with a session that was resumed, however its hash came about: it gives the IV that resume gave.
fn go_on(t: &mut Tester, key: &[u8], mut session: Session, iv: &[u8]) {
    let (data, text) = (t.random.bytes(21), t.random.bytes(37));
    t.suspend(&session);
    t.data(&mut session, &data);
    t.suspend(&session);
    t.text(&mut session, &text);
    knows_its_stay(t, key, &session, iv);
    let (answer, _, given) = t.finish(&mut session);
    t.expect("finish", answer, 0);
    if given != iv {
        t.fail("finish", "both give another IV than resume found".into());
    }
}

/// Every single bit of the 512 bytes by itself: the check tells each.
#[test]
fn every_bit_damaged() {
    let mut t = Tester::new("every bit damaged");
    for (data_len, text_len, closed) in SHAPES {
        let suspended = suspended(&mut t, data_len, text_len, closed);
        for bit in 0..8 * 512 {
            if t.chosen() {
                let mut block = suspended.block;
                block[bit / 8] ^= 1 << (bit % 8);
                let answer = t.resume(&suspended.key, &block).0;
                t.expect("resume", answer, 8);
                let answer = t.state_of(&block).0;
                t.expect("state_of", answer, 8);
            }
        }
    }
    t.done();
}

/// Every byte set to each of several values by itself and the check set again: a broken rule, a foreign state, or another session.
#[test]
fn every_byte_changed_and_checked() {
    let mut t = Tester::new("every byte changed and checked");
    for (data_len, text_len, closed) in SHAPES {
        let suspended = suspended(&mut t, data_len, text_len, closed);
        for at in 0..508 {
            for change in [1, 0x10, 0x80, 0xff] {
                if !t.chosen() {
                    continue;
                }
                let block = with(&suspended.block, at, &[suspended.block[at] ^ change]);
                let (answer, session, iv) = t.resume(&suspended.key, &block);
                let of_state = t.state_of(&block).0;
                t.expect("state_of", of_state, if answer == 8 { 8 } else { 0 });
                match at {
                    0 if suspended.block[0] ^ change > 1 => t.expect("resume", answer, 8),
                    1..=3 | 12..=15 | 160..=507 => t.expect("resume", answer, 8),
                    16..=127 => t.expect("resume", answer, 6),
                    128..=143 => t.expect("resume", answer, 0),
                    _ => {}
                }
                if let Some(session) = session {
                    go_on(&mut t, &suspended.key, session, &iv);
                }
            }
        }
    }
    t.done();
}

/// Each layout rule broken by itself.
#[test]
fn each_rule_broken() {
    let mut t = Tester::new("each rule broken");
    for (data_len, text_len, closed) in SHAPES {
        let Suspended { key, block } = suspended(&mut t, data_len, text_len, closed);
        let refused = |t: &mut Tester, block: &[u8]| {
            let answer = t.resume(&key, block).0;
            t.expect("resume", answer, 8);
            let answer = t.state_of(block).0;
            t.expect("state_of", answer, 8);
        };
        for phase in 2..=255 {
            refused(&mut t, &with(&block, 0, &[phase]));
        }
        for at in (1..4).chain(12..16).chain(160..508) {
            let byte = 1 + t.random.below(255) as u8;
            refused(&mut t, &with(&block, at, &[byte]));
        }
        // The same remainder modulo 16, so that the bytes not yet hashed keep their rule.
        let over = [65_536, 1 << 20, 1 << 31, 0xffff_fff0];
        for data in over.map(|over| over + data_len as u32 % 16) {
            refused(&mut t, &with(&block, 4, &data.to_le_bytes()));
        }
        if closed {
            for over in [1, 2, 16, 17, 1 << 20, 1 << 31, u32::MAX - 1_048_576] {
                refused(&mut t, &with(&block, 8, &(1_048_576 + over).to_le_bytes()));
            }
        } else {
            for text in [1, 15, 16, 17, 1_048_576, 1_048_577, u32::MAX] {
                refused(&mut t, &with(&block, 8, &u32::to_le_bytes(text)));
            }
        }
        let pending = if closed { text_len } else { data_len } % 16;
        for at in 144 + pending..160 {
            let byte = 1 + t.random.below(255) as u8;
            refused(&mut t, &with(&block, at, &[byte]));
        }
        for by in [1, 2, 0x100, 0x1_0000, 1 << 31, u32::MAX] {
            let mut off = block;
            off[508..].copy_from_slice(&check(&block).wrapping_add(by).to_le_bytes());
            refused(&mut t, &off);
        }
        for len in [0, 1, 16, 120, 127, SESSION_BYTES, 508, 511] {
            refused(&mut t, &block[..len]);
        }
        for extra in [1, 4, 512] {
            refused(&mut t, &[&block[..], &vec![0; extra]].concat());
        }
    }
    t.done();
}

/// Layouts kept, but states to which no IV leads in sealed mode.
#[test]
fn foreign_states() {
    let mut t = Tester::new("foreign states");
    for _ in 0..t.rounds(150) {
        for (data_len, text_len, closed) in SHAPES {
            let Suspended { key, block } = suspended(&mut t, data_len % 100, text_len, closed);
            let refused = |t: &mut Tester, key: &[u8], block: &[u8]| {
                let answer = t.resume(key, block).0;
                t.expect("resume", answer, 6);
                let answer = t.state_of(block).0;
                t.expect("state_of", answer, 0);
            };
            let random = t.random.bytes(112);
            refused(&mut t, &key, &with(&block, 16, &random));
            let other_key = t.random.array::<32>();
            refused(&mut t, &other_key, &block);
            let mut near_key = key;
            near_key[t.random.below(32)] ^= 1 << t.random.below(8);
            refused(&mut t, &near_key, &block);

            let iv = t.random.secret::<16>();
            let mut plain = Registers::start(&Key::new(&key).unwrap(), &iv, Mode::Plain);
            for _ in 0..2 + text_len.div_ceil(16) {
                plain.step();
            }
            refused(&mut t, &key, &with(&block, 16, &plain.to_bytes()));

            let mut moved = Registers::from_bytes(block[16..128].try_into().unwrap());
            if t.random.one_in(2) {
                moved.step();
            } else {
                moved.step_back();
            }
            refused(&mut t, &key, &with(&block, 16, &moved.to_bytes()));
            if closed {
                // One block more than the state has drawn, the same bytes not yet hashed.
                refused(&mut t, &key, &with(&block, 8, &(text_len as u32 + 16).to_le_bytes()));
            }
        }
    }
    t.done();
}

/// The hash so far and the bytes not yet hashed are taken as stored, and so is the data length.
#[test]
fn taken_as_stored() {
    let mut t = Tester::new("taken as stored");
    for _ in 0..t.rounds(150) {
        for (data_len, text_len, closed) in SHAPES {
            let Suspended { key, block } = suspended(&mut t, data_len % 1_000, text_len, closed);
            let pending = if closed { text_len } else { data_len % 1_000 } % 16;
            let hash = t.random.bytes(16 + pending);
            let mut block = with(&block, 128, &hash);
            if t.random.one_in(2) {
                let data = if closed { t.random.below(65_536) } else { 16 * t.random.below(4_095) + pending };
                block = with(&block, 4, &(data as u32).to_le_bytes());
            }
            let (answer, session, iv) = t.resume(&key, &block);
            t.expect("resume", answer, 0);
            go_on(&mut t, &key, session.unwrap(), &iv);
        }
    }
    t.done();
}

/// A block that no session was suspended into, laid out by hand over a start of its own: resume names that start's IV, and the session goes on under it.
#[test]
fn written_by_hand() {
    let mut t = Tester::new("written by hand");
    for _ in 0..t.rounds(150) {
        for (data_len, text_len, closed) in SHAPES {
            let Suspended { key, block } = suspended(&mut t, data_len % 1_000, text_len, closed);
            let iv = t.random.array::<16>();
            let mut state = t.start(&key, &iv, 1);
            t.run(&mut state, 2 + text_len.div_ceil(16) as u64, 0);
            let (answer, session, found) = t.resume(&key, &with(&block, 16, &state[..112]));
            t.expect("resume", answer, 0);
            if found != iv {
                t.fail("resume", "both find another IV than the start had".into());
            }
            go_on(&mut t, &key, session.unwrap(), &iv);
        }
    }
    t.done();
}

/// A block of phase 0 read as one of phase 1, and the other way round where no text was taken.
#[test]
fn phases_changed() {
    let mut t = Tester::new("phases changed");
    for _ in 0..t.rounds(100) {
        for (data_len, text_len, closed) in SHAPES {
            let Suspended { key, block } = suspended(&mut t, data_len % 1_000, text_len, closed);
            let changed = with(&block, 0, &[block[0] ^ 1]);
            if let (_, Some(session), iv) = t.resume(&key, &changed) {
                go_on(&mut t, &key, session, &iv);
            }
        }
    }
    t.done();
}

/// 512 random bytes, and random bytes where the layout leaves them free.
#[test]
fn random_blocks() {
    let mut t = Tester::new("random blocks");
    for _ in 0..t.rounds(4_000) {
        let key = t.random.secret::<32>();
        let random: [u8; 512] = t.random.array();
        for random in [random, checked(random)] {
            t.resume(&key, &random);
            t.state_of(&random);
        }
        let mut block = [0; 512];
        let text_len = t.random.below(400);
        block[0] = 1;
        block[4..8].copy_from_slice(&(t.random.below(65_536) as u32).to_le_bytes());
        block[8..12].copy_from_slice(&(text_len as u32).to_le_bytes());
        t.random.fill(&mut block[16..144 + text_len % 16]);
        let answer = t.resume(&key, &checked(block)).0;
        t.expect("resume", answer, 6);
        let (answer, state) = t.state_of(&checked(block));
        t.expect("state_of", answer, 0);
        let answer = t.trace(&state, &key).0;
        t.expect("trace", answer, 6);
    }
    t.done();
}

/// A page suspended near the text limit, where the walk is longest, under short buffers and damage.
#[test]
fn longest_walks() {
    let mut t = Tester::new("longest walks");
    for text_len in [1_048_575, 1_048_576, 1_048_560, 524_289] {
        if !t.chosen() {
            continue;
        }
        let Suspended { key, block } = suspended(&mut t, 33, text_len, true);
        for (session_len, iv_len) in [(SESSION_BYTES - 1, 16), (SESSION_BYTES, 15), (0, 0)] {
            let answer = t.resume_in(&key, &block, session_len, iv_len).0;
            t.expect("resume", answer, 4);
        }
        let near = with(&block, 16, &[block[16] ^ 1]);
        let answer = t.resume(&key, &near).0;
        t.expect("resume", answer, 6);
    }
    t.done();
}
