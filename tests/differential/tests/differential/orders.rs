//! Every combination of what a call refuses: the first in its order is the answer.

use crate::arbitrary::COUNT_AT;
use crate::tester::{FileOpen, FileSeal, Search, Session, Tester, Turn, SCHEDULE_BYTES, SESSION_BYTES, STATE_BYTES};
use reference::calendar::Date;
use reference::cipher::{Key, Mode, Registers};
use reference::search::DUMP_BYTES;
use reference::suspended::check;
use reference::{calls, key_store, page};

/// The number of the first condition that holds, else 0.
fn first(conditions: &[(bool, u64)]) -> u64 {
    conditions.iter().find(|(holds, _)| *holds).map_or(0, |(_, number)| *number)
}

const KEY_LENGTHS: [usize; 4] = [32, 0, 31, 33];
const IV_LENGTHS: [usize; 4] = [16, 0, 15, 17];
/// Buffers of 16 bytes to be written.
const ROOMS_16: [usize; 4] = [16, 0, 15, 21];
/// Buffers of 120 bytes to be written.
const ROOMS_120: [usize; 6] = [STATE_BYTES, 0, 112, STATE_BYTES - 1, STATE_BYTES + 1, 300];
/// States that are read.
const STATE_LENGTHS: [usize; 5] = [STATE_BYTES, 0, 112, STATE_BYTES - 1, STATE_BYTES + 1];
/// Dumps that are read.
const DUMP_LENGTHS: [usize; 6] = [DUMP_BYTES, 0, DUMP_BYTES - 1, DUMP_BYTES + 1, STATE_BYTES, 512];
const SESSION_LENGTHS: [usize; 4] = [SESSION_BYTES, 0, SESSION_BYTES - 1, SESSION_BYTES + 1];

/// Outputs for `len` bytes: exact, empty, one too short, longer.
fn rooms(len: usize) -> [usize; 4] {
    [len, 0, len - 1, len + 5]
}

#[test]
fn order_of_seal() {
    let mut t = Tester::new("order of seal");
    let source = t.random.bytes(1_048_577);
    for key_len in KEY_LENGTHS {
        for iv_len in IV_LENGTHS {
            for ad_len in [20, 65_536] {
                for text_len in [37, 1_048_577] {
                    for out_len in rooms(text_len) {
                        for tag_len in ROOMS_16 {
                            if !t.chosen() {
                                continue;
                            }
                            let (key, iv) = (t.random.bytes(key_len), t.random.bytes(iv_len));
                            let answer = t.seal(&key, &iv, &source[..ad_len], &source[..text_len], out_len, tag_len).0;
                            let expected = first(&[
                                (key_len != 32, 1),
                                (iv_len != 16, 2),
                                (ad_len > 65_535 || text_len > 1_048_576, 3),
                                (out_len < text_len || tag_len < 16, 4),
                            ]);
                            t.expect("seal", answer, expected);
                        }
                    }
                }
            }
        }
    }
    t.done();
}

#[test]
fn order_of_open() {
    let mut t = Tester::new("order of open");
    let source = t.random.bytes(1_048_577);
    let (key, iv) = (t.random.array::<32>(), t.random.array::<16>());
    let (_, cipher, tag) = t.seal(&key, &iv, &source[..20], &source[..37], 37, 16);
    for key_len in KEY_LENGTHS {
        for iv_len in IV_LENGTHS {
            for tag_len in [16, 0, 15, 17] {
                for right in [true, false] {
                    for ad_len in [20, 65_536] {
                        for cipher_len in [37, 1_048_577] {
                            for out_len in rooms(cipher_len) {
                                if !t.chosen() {
                                    continue;
                                }
                                let cut = |bytes: &[u8], len: usize| [bytes, &[0x55; 8]].concat()[..len].to_vec();
                                let mut given = cut(&tag, tag_len);
                                if !right && tag_len > 0 {
                                    given[t.random.below(tag_len)] ^= 0x20;
                                }
                                let page = if cipher_len == 37 { &cipher[..] } else { &source[..cipher_len] };
                                let answer = t.open(&cut(&key, key_len), &cut(&iv, iv_len), &source[..ad_len], page, &given, out_len).0;
                                let expected = first(&[
                                    (key_len != 32, 1),
                                    (iv_len != 16, 2),
                                    (tag_len != 16, 10),
                                    (ad_len > 65_535 || cipher_len > 1_048_576, 3),
                                    (out_len < cipher_len, 4),
                                    (!right, 5),
                                ]);
                                t.expect("open", answer, expected);
                            }
                        }
                    }
                }
            }
        }
    }
    t.done();
}

/// A search of two counts, with room for all that it writes.
const SOON: Search = Search { lowest: 0, highest: 1, count_len: 8, iv_len: 16, sealed_len: 1, steps_len: 8 };

/// Lengths of keys, IVs and tags over a wider range.
#[test]
fn lengths_of_fixed_buffers() {
    let mut t = Tester::new("lengths of fixed buffers");
    for len in (0..=130).chain([255, 256, 257, 288, 65_535, 65_536, 65_552, 65_568, 65_656]) {
        let bytes = t.random.bytes(len);
        let (key, iv, text) = (t.random.array::<32>(), t.random.array::<16>(), t.random.bytes(23));
        let (key_answer, iv_answer) = (if len == 32 { 0 } else { 1 }, if len == 16 { 0 } else { 2 });
        let (started, foreign) = (Registers::start(&Key::new(&key).unwrap(), &iv, Mode::Plain).to_bytes(), t.random.array::<DUMP_BYTES>());
        let answers = [
            (t.seal(&bytes, &iv, &[], &text, 23, 16).0, key_answer),
            (t.seal(&key, &bytes, &[], &text, 23, 16).0, iv_answer),
            (t.seal(&key, &iv, &[], &text, 23, len).0, if len < 16 { 4 } else { 0 }),
            (t.seal(&key, &iv, &[], &text, len, 16).0, if len < 23 { 4 } else { 0 }),
            (t.open(&bytes, &iv, &[], &text, &iv, 23).0, if len == 32 { 5 } else { 1 }),
            (t.open(&key, &bytes, &[], &text, &iv, 23).0, if len == 16 { 5 } else { 2 }),
            (t.open(&key, &iv, &[], &text, &bytes, 23).0, if len == 16 { 5 } else { 10 }),
            (t.begin_in(&bytes, &iv, SESSION_BYTES).0, key_answer),
            (t.begin_in(&key, &bytes, SESSION_BYTES).0, iv_answer),
            (t.keystream(&bytes, &iv, 1, 40).0, key_answer),
            (t.keystream(&key, &bytes, 0, 40).0, iv_answer),
            (t.start_in(&bytes, &iv, 1, STATE_BYTES).0, key_answer),
            (t.start_in(&key, &bytes, 0, STATE_BYTES).0, iv_answer),
            (t.start_in(&key, &iv, 0, len).0, if len < STATE_BYTES { 4 } else { 0 }),
            (t.run_in(&mut bytes.clone(), 0, 0, 0).0, if len == STATE_BYTES { 9 } else { 8 }),
            (t.run_in(&mut vec![0; STATE_BYTES], 2, 0, len).0, if len < 32 { 4 } else { 0 }),
            (t.trace(&bytes, &key).0, if len == STATE_BYTES { 9 } else { 8 }),
            (t.trace(&[0; STATE_BYTES], &bytes).0, if len == 32 { 6 } else { 1 }),
            (t.state_of(&bytes).0, 8),
            (t.search_in(&bytes, &key, &SOON).0, if len == DUMP_BYTES { 6 } else { 8 }),
            (t.search_in(&[0; DUMP_BYTES], &bytes, &SOON).0, if len == 32 { 6 } else { 1 }),
            (t.search_in(&started, &key, &Search { count_len: len, ..SOON }).0, if len < 8 { 4 } else { 0 }),
            (t.search_in(&started, &key, &Search { iv_len: len, ..SOON }).0, if len < 16 { 4 } else { 0 }),
            (t.search_in(&started, &key, &Search { sealed_len: len, ..SOON }).0, if len < 1 { 4 } else { 0 }),
            (t.search_in(&started, &key, &Search { steps_len: len, ..SOON }).0, if len < 8 { 4 } else { 0 }),
            (t.search_in(&foreign, &key, &Search { steps_len: len, ..SOON }).0, 6),
        ];
        for (answer, expected) in answers {
            t.expect("a call with a buffer of another length", answer, expected);
        }
    }
    t.done();
}

#[test]
fn order_of_begin() {
    let mut t = Tester::new("order of begin");
    for key_len in KEY_LENGTHS {
        for iv_len in IV_LENGTHS {
            for session_len in (0..=SESSION_BYTES + 20).chain([1_000]) {
                if t.chosen() {
                    let (key, iv) = (t.random.bytes(key_len), t.random.bytes(iv_len));
                    let answer = t.begin_in(&key, &iv, session_len).0;
                    let expected = first(&[(key_len != 32, 1), (iv_len != 16, 2), (session_len < SESSION_BYTES, 4)]);
                    t.expect("begin", answer, expected);
                }
            }
        }
    }
    t.done();
}

const DATA_LEN: usize = 21;
const TEXT_LEN: usize = 39;

/// One session in each of the phases data, text and finished.
fn in_each_phase(t: &mut Tester, key: &[u8; 32], iv: &[u8; 16]) -> [Session; 3] {
    let (data, text) = (t.random.bytes(DATA_LEN), t.random.bytes(TEXT_LEN));
    let mut in_data = t.begin(key, iv);
    t.data(&mut in_data, &data);
    let mut in_text = in_data;
    t.text(&mut in_text, &text);
    let mut finished = in_text;
    t.finish(&mut finished);
    [in_data, in_text, finished]
}

/// Suspends, or requires that the session is finished: what a call has left behind.
fn look_at(t: &mut Tester, session: &Session) {
    t.suspend_in(session, SESSION_BYTES, 512);
}

#[test]
fn order_of_data() {
    let mut t = Tester::new("order of data");
    let source = t.random.bytes(65_536);
    for _ in 0..t.rounds(10) {
        let (key, iv) = (t.random.secret::<32>(), t.random.secret::<16>());
        let sessions = in_each_phase(&mut t, &key, &iv);
        for session_len in SESSION_LENGTHS {
            for (phase, session) in sessions.iter().enumerate() {
                for piece_len in [0, 1, 50, 65_535 - DATA_LEN, 65_536 - DATA_LEN, 65_536] {
                    let mut session = *session;
                    let answer = t.data_in(&mut session, session_len, &source[..piece_len]);
                    let expected = first(&[(session_len != SESSION_BYTES, 8), (phase > 0, 7), (DATA_LEN + piece_len > 65_535, 3)]);
                    t.expect("data", answer, expected);
                    look_at(&mut t, &session);
                }
            }
        }
    }
    t.done();
}

#[test]
fn order_of_text() {
    let mut t = Tester::new("order of text");
    let source = t.random.bytes(1_048_577);
    for round in 0..t.rounds(4) {
        let (key, iv) = (t.random.secret::<32>(), t.random.secret::<16>());
        let sessions = in_each_phase(&mut t, &key, &iv);
        for session_len in SESSION_LENGTHS {
            for (phase, session) in sessions.iter().enumerate() {
                let so_far = [0, TEXT_LEN, TEXT_LEN][phase];
                for piece_len in [0, 1, 50, 1_048_576 - so_far, 1_048_577 - so_far, 1_048_577] {
                    if piece_len > 1_000 && round > 0 {
                        continue;
                    }
                    let outs = if piece_len == 0 { vec![0, 5] } else { rooms(piece_len).to_vec() };
                    for out_len in outs {
                        let mut session = *session;
                        let answer = t.text_in(&mut session, session_len, &source[..piece_len], out_len).0;
                        let expected = first(&[
                            (session_len != SESSION_BYTES, 8),
                            (phase > 1, 7),
                            (so_far + piece_len > 1_048_576, 3),
                            (out_len < piece_len, 4),
                        ]);
                        t.expect("text", answer, expected);
                        look_at(&mut t, &session);
                    }
                }
            }
        }
    }
    t.done();
}

/// Sessions whose count was set to another: 9 stands between 3 and 4.
#[test]
fn order_of_text_at_a_count() {
    let mut t = Tester::new("order of text at a count");
    let source = t.random.bytes(1_048_577);
    let (key, iv) = (t.random.secret::<32>(), t.random.secret::<16>());
    let sessions = in_each_phase(&mut t, &key, &iv);
    for session_len in SESSION_LENGTHS {
        for (phase, session) in sessions.iter().enumerate() {
            let so_far = [0, TEXT_LEN, TEXT_LEN][phase];
            for piece_len in [0, 1, 9, 10, 50, 1_048_577 - so_far] {
                let drawn = ((so_far + piece_len).div_ceil(16) - so_far.div_ceil(16)) as u64;
                let most = 65_538_u64.saturating_sub(drawn);
                for count in [0, 1, most.saturating_sub(1), most, most + 1, 65_537, 65_538, 65_539, u64::MAX - drawn, u64::MAX] {
                    let outs = if piece_len == 0 { vec![0, 5] } else { rooms(piece_len).to_vec() };
                    for out_len in outs {
                        if !t.chosen() {
                            continue;
                        }
                        let mut session = *session;
                        session[COUNT_AT..COUNT_AT + 8].copy_from_slice(&count.to_le_bytes());
                        let answer = t.text_in(&mut session, session_len, &source[..piece_len], out_len).0;
                        let expected = first(&[
                            (session_len != SESSION_BYTES, 8),
                            (phase > 1, 7),
                            (so_far + piece_len > 1_048_576, 3),
                            (count > most, 9),
                            (out_len < piece_len, 4),
                        ]);
                        t.expect("text", answer, expected);
                        look_at(&mut t, &session);
                    }
                }
            }
        }
    }
    t.done();
}

#[test]
fn order_of_finish_and_suspend() {
    let mut t = Tester::new("order of finish and suspend");
    for _ in 0..t.rounds(10) {
        let (key, iv) = (t.random.secret::<32>(), t.random.secret::<16>());
        let sessions = in_each_phase(&mut t, &key, &iv);
        for session_len in (0..=SESSION_BYTES + 10).chain([300, 512, 1_000]) {
            for (phase, session) in sessions.iter().enumerate() {
                for (tag_len, iv_len) in ROOMS_16.into_iter().flat_map(|tag_len| ROOMS_16.map(|iv_len| (tag_len, iv_len))) {
                    let mut session = *session;
                    let answer = t.finish_in(&mut session, session_len, tag_len, iv_len).0;
                    let refusals = [(session_len != SESSION_BYTES, 8), (phase > 1, 7), (tag_len < 16 || iv_len < 16, 4)];
                    t.expect("finish", answer, first(&refusals));
                    look_at(&mut t, &session);
                }
                for block_len in [512, 0, 511, 513, 600] {
                    let answer = t.suspend_in(session, session_len, block_len).0;
                    t.expect("suspend", answer, first(&[(session_len != SESSION_BYTES, 8), (phase > 1, 7), (block_len < 512, 4)]));
                }
            }
        }
    }
    t.done();
}

#[test]
fn order_of_resume() {
    let mut t = Tester::new("order of resume");
    let (key, iv) = (t.random.array::<32>(), t.random.array::<16>());
    let [_, session, _] = in_each_phase(&mut t, &key, &iv);
    let block = t.suspend(&session);
    let checked = |mut block: [u8; 512]| {
        let sum = check(&block);
        block[508..].copy_from_slice(&sum.to_le_bytes());
        block
    };
    let mut plain = Registers::start(&Key::new(&key).unwrap(), &iv, Mode::Plain);
    for _ in 0..2 + TEXT_LEN.div_ceil(16) {
        plain.step();
    }
    let mut plain_block = block;
    plain_block[16..128].copy_from_slice(&plain.to_bytes());
    let (mut foreign, mut torn) = (block, block);
    foreign[100] ^= 1;
    torn[300] ^= 1;
    let (plain_block, foreign, torn) = (checked(plain_block), checked(foreign), checked(torn));
    let mut torn_and_foreign = foreign;
    torn_and_foreign[13] = 1;
    let blocks: [(Vec<u8>, u64); 9] = [
        (block.to_vec(), 0),
        (plain_block.to_vec(), 6),
        (foreign.to_vec(), 6),
        (torn.to_vec(), 8),
        (checked(torn_and_foreign).to_vec(), 8),
        (block[..511].to_vec(), 8),
        ([&block[..], &[0]].concat(), 8),
        ([&foreign[..], &[0]].concat(), 8),
        (Vec::new(), 8),
    ];
    for key_len in KEY_LENGTHS {
        for (block, of_block) in &blocks {
            for session_len in [SESSION_BYTES, 0, 1, SESSION_BYTES - 1, SESSION_BYTES + 1, 300] {
                for iv_len in ROOMS_16 {
                    let key = &[&key[..], &[0]].concat()[..key_len];
                    let answer = t.resume_in(key, block, session_len, iv_len).0;
                    let expected = first(&[
                        (key_len != 32, 1),
                        (*of_block == 8, 8),
                        (*of_block == 6, 6),
                        (session_len < SESSION_BYTES || iv_len < 16, 4),
                    ]);
                    t.expect("resume", answer, expected);
                }
            }
        }
    }
    t.done();
}

#[test]
fn order_of_keystream() {
    let mut t = Tester::new("order of keystream");
    for key_len in KEY_LENGTHS {
        for iv_len in IV_LENGTHS {
            for sealed in [0, 1] {
                for out_len in [0, 1, 15, 16, 40, 16 * 65_538 + 15, 16 * 65_539] {
                    let (key, iv) = (t.random.bytes(key_len), t.random.bytes(iv_len));
                    let answer = t.keystream(&key, &iv, sealed, out_len).0;
                    let expected = first(&[(key_len != 32, 1), (iv_len != 16, 2), (out_len / 16 > 65_538, 9)]);
                    t.expect("keystream", answer, expected);
                }
            }
        }
    }
    t.done();
}

#[test]
fn order_of_start() {
    let mut t = Tester::new("order of start");
    for key_len in KEY_LENGTHS {
        for iv_len in IV_LENGTHS {
            for sealed in [0, 1] {
                for state_len in ROOMS_120 {
                    let (key, iv) = (t.random.bytes(key_len), t.random.bytes(iv_len));
                    let answer = t.start_in(&key, &iv, sealed, state_len).0;
                    let expected = first(&[(key_len != 32, 1), (iv_len != 16, 2), (state_len < STATE_BYTES, 4)]);
                    t.expect("start", answer, expected);
                }
            }
        }
    }
    t.done();
}

/// A state of these registers at a count, cut or with a byte behind.
fn state_at(registers: &[u8; 112], count: u64, len: usize) -> Vec<u8> {
    [&registers[..], &count.to_le_bytes(), &[0]].concat()[..len].to_vec()
}

#[test]
fn order_of_run() {
    let mut t = Tester::new("order of run");
    let registers = t.random.array::<112>();
    let numbers = [0, 1, 2, 65_537, 65_538, 65_539, 1 << 32, 1 << 60, u64::MAX];
    for state_len in STATE_LENGTHS {
        for count in numbers {
            for n in numbers {
                for back in [0, 1, 2, 1 << 32, u64::MAX] {
                    let too_high = count > 65_538 || n > 65_538 || back == 0 && count + n > 65_538;
                    let before_start = back != 0 && n > count;
                    let rooms = match n {
                        0 => vec![0, 5],
                        // An output of the full length where nothing else is refused; two directions for the long ones.
                        _ if n <= 2 || !too_high && !before_start && back < 2 => rooms(16 * n as usize).to_vec(),
                        _ => vec![0, 40],
                    };
                    for out_len in rooms {
                        if !t.chosen() {
                            continue;
                        }
                        let mut state = state_at(&registers, count, state_len);
                        let answer = t.run_in(&mut state, n, back, out_len).0;
                        let expected = first(&[
                            (state_len != STATE_BYTES, 8),
                            (too_high, 9),
                            (before_start, 15),
                            ((out_len as u128) < 16 * u128::from(n), 4),
                        ]);
                        t.expect("run", answer, expected);
                    }
                }
            }
        }
    }
    t.done();
}

#[test]
fn order_of_trace() {
    let mut t = Tester::new("order of trace");
    let (key, iv) = (t.random.array::<32>(), t.random.array::<16>());
    for mode in [Mode::Plain, Mode::Sealed] {
        let mut registers = Registers::start(&Key::new(&key).unwrap(), &iv, mode);
        for _ in 0..5 {
            registers.step();
        }
        let ours = registers.to_bytes();
        let mut foreign = ours;
        foreign[77] ^= 0x40;
        for key_len in KEY_LENGTHS {
            for state_len in STATE_LENGTHS {
                for count in [5, 0, 1, 4, 6, 65_539, 1 << 32 | 5, u64::MAX] {
                    for registers in [ours, foreign] {
                        for iv_len in ROOMS_16 {
                            for sealed_len in [1, 0, 2] {
                                let key = &[&key[..], &[0]].concat()[..key_len];
                                let answer = t.trace_in(&state_at(&registers, count, state_len), key, iv_len, sealed_len).0;
                                let expected = first(&[
                                    (key_len != 32, 1),
                                    (state_len != STATE_BYTES, 8),
                                    (count > 65_538, 9),
                                    (count != 5 || registers != ours, 6),
                                    (iv_len < 16 || sealed_len < 1, 4),
                                ]);
                                t.expect("trace", answer, expected);
                            }
                        }
                    }
                }
            }
        }
    }
    t.done();
}

/// The longest way back that is made, at counts that no start leads to.
#[test]
fn order_of_trace_at_the_highest_counts() {
    let mut t = Tester::new("order of trace at the highest counts");
    let (key, registers) = (t.random.array::<32>(), t.random.array::<112>());
    for (count, expected) in [(65_537, 6), (65_538, 6), (65_539, 9)] {
        for (iv_len, sealed_len) in [(16, 1), (0, 0)] {
            let answer = t.trace_in(&state_at(&registers, count, STATE_BYTES), &key, iv_len, sealed_len).0;
            t.expect("trace", answer, expected);
        }
    }
    t.done();
}

/// Ranges about a count of 5: those in which it is found, those in which it is not, and those that are none.
const RANGES: [(u64, u64); 18] = [
    (0, 10),
    (3, 5),
    (5, 5),
    (5, 9),
    (0, 4),
    (6, 10),
    (6, 5),
    (65_538, 0),
    (5, 65_539),
    (5, 1 << 32 | 9),
    (5, u64::MAX),
    (u64::MAX, u64::MAX),
    (1 << 32 | 5, 5),
    (1 << 32 | 5, 1 << 32 | 9),
    (1 << 63, 9),
    (u64::MAX, 65_538),
    (65_540, 65_539),
    (u64::MAX, u64::MAX - 1),
];

#[test]
fn order_of_search() {
    let mut t = Tester::new("order of search");
    let (key, iv) = (t.random.array::<32>(), t.random.array::<16>());
    for mode in [Mode::Plain, Mode::Sealed] {
        let mut registers = Registers::start(&Key::new(&key).unwrap(), &iv, mode);
        for _ in 0..5 {
            registers.step();
        }
        let ours = registers.to_bytes();
        let mut foreign = ours;
        foreign[77] ^= 0x40;
        for (key_len, dump_len) in KEY_LENGTHS.into_iter().flat_map(|key_len| DUMP_LENGTHS.map(|dump_len| (key_len, dump_len))) {
            for (lowest, highest) in RANGES {
                for registers in [ours, foreign] {
                    let key = &[&key[..], &[0]].concat()[..key_len];
                    let dump = &[&registers[..], &[0; 400]].concat()[..dump_len];
                    of_each_room(&mut t, dump, key, (lowest, highest), registers == ours && (lowest..=highest).contains(&5));
                }
            }
        }
    }
    t.done();
}

/// A search in a range with every combination of buffers, and what it writes where it is refused: the steps of a 6, and else nothing.
fn of_each_room(t: &mut Tester, dump: &[u8], key: &[u8], (lowest, highest): (u64, u64), fits: bool) {
    for (count_len, iv_len) in rooms(8).into_iter().flat_map(|count_len| ROOMS_16.map(|iv_len| (count_len, iv_len))) {
        for (sealed_len, steps_len) in [1, 0, 2].into_iter().flat_map(|sealed_len| rooms(8).map(|steps_len| (sealed_len, steps_len))) {
            if !t.chosen() {
                continue;
            }
            let given = Search { lowest, highest, count_len, iv_len, sealed_len, steps_len };
            let (answer, left) = t.search_in(dump, key, &given);
            let expected = first(&[
                (key.len() != 32, 1),
                (dump.len() != DUMP_BYTES, 8),
                (highest > 65_538, 9),
                (lowest > highest, 18),
                (!fits, 6),
                (count_len < 8 || iv_len < 16 || sealed_len < 1 || steps_len < 8, 4),
            ]);
            t.expect("search", answer, expected);
            if answer == 6 && steps_len >= 8 && left[3][..8] != (highest + 16 * (highest - lowest + 1)).to_le_bytes() {
                t.fail("search", "both write other steps than those of the whole range".into());
            }
        }
    }
}

/// Searches at the last counts, with and without room for their steps.
#[test]
fn order_of_search_at_the_highest_counts() {
    let mut t = Tester::new("order of search at the highest counts");
    let (key, dump) = (t.random.array::<32>(), t.random.array::<DUMP_BYTES>());
    for (lowest, highest, expected) in
        [(65_530, 65_537, 6), (65_538, 65_538, 6), (65_538, 65_539, 9), (65_539, 65_538, 18), (65_539, 65_539, 9)]
    {
        for (count_len, iv_len, sealed_len, steps_len) in [(8, 16, 1, 8), (0, 0, 0, 0), (0, 0, 0, 8), (8, 16, 1, 7)] {
            let given = Search { lowest, highest, count_len, iv_len, sealed_len, steps_len };
            let answer = t.search_in(&dump, &key, &given).0;
            t.expect("search", answer, expected);
        }
    }
    t.done();
}

#[test]
fn order_of_state_of() {
    let mut t = Tester::new("order of state_of");
    let (key, iv) = (t.random.array::<32>(), t.random.array::<16>());
    let [in_data, in_text, _] = in_each_phase(&mut t, &key, &iv);
    for session in [in_data, in_text] {
        let block = t.suspend(&session);
        let (mut foreign, mut torn, mut unchecked) = (block, block, block);
        foreign[100] ^= 1;
        torn[300] ^= 1;
        unchecked[508] ^= 1;
        for block in [&mut foreign, &mut torn] {
            let sum = check(block);
            block[508..].copy_from_slice(&sum.to_le_bytes());
        }
        let blocks: [(&[u8], bool); 7] = [
            (&block, true),
            (&foreign, true),
            (&torn, false),
            (&unchecked, false),
            (&block[..511], false),
            (&[&block[..], &[0]].concat(), false),
            (&[], false),
        ];
        for (block, laid) in blocks {
            for state_len in ROOMS_120 {
                let answer = t.state_of_in(block, state_len).0;
                t.expect("state_of", answer, first(&[(!laid, 8), (state_len < STATE_BYTES, 4)]));
            }
        }
    }
    t.done();
}

/// Days within and beyond the calendar.
const DAYS: [u64; 7] = [0, 9_009, 9_555, 73_048, 73_049, 1 << 32, u64::MAX];

#[test]
fn order_of_date() {
    let mut t = Tester::new("order of date");
    for day in DAYS {
        for date_len in [4, 0, 3, 5, 9] {
            let answer = t.date_in(day, date_len).0;
            t.expect("date", answer, first(&[(day > 73_048, 12), (date_len < 4, 4)]));
        }
    }
    t.done();
}

#[test]
fn order_of_day() {
    let mut t = Tester::new("order of day");
    let dates = [
        ((2000, 1, 1), true),
        ((2000, 2, 29), true),
        ((2199, 12, 31), true),
        ((1999, 12, 31), false),
        ((2200, 1, 1), false),
        ((2024, 0, 1), false),
        ((2024, 13, 1), false),
        ((2024, 1, 0), false),
        ((2024, 1, 32), false),
        ((2024, 4, 31), false),
        ((2023, 2, 29), false),
        ((2100, 2, 29), false),
        ((u64::MAX, u64::MAX, u64::MAX), false),
    ];
    for ((year, month, day), good) in dates {
        for number_len in [8, 0, 4, 7, 9, 16] {
            let answer = t.day_in(Date { year, month, day }, number_len).0;
            t.expect("day", answer, first(&[(!good, 12), (number_len < 8, 4)]));
        }
    }
    t.done();
}

#[test]
fn order_of_kept() {
    let mut t = Tester::new("order of kept");
    for today in DAYS {
        for departure in DAYS {
            for kept_len in [0, 1, 2] {
                let answer = t.kept(today, departure, kept_len).0;
                t.expect("kept", answer, first(&[(today > 73_048 || departure > 73_048, 12), (kept_len < 1, 4)]));
            }
        }
    }
    t.done();
}

#[test]
fn order_of_kept_until() {
    let mut t = Tester::new("order of kept_until");
    for departure in DAYS {
        for date_len in [4, 0, 3, 5, 9] {
            let answer = t.kept_until_in(departure, date_len).0;
            t.expect("kept_until", answer, first(&[(departure > 73_048, 12), (date_len < 4, 4)]));
        }
    }
    t.done();
}

const STAY_LENGTHS: [usize; 5] = [12, 0, 11, 13, 16];

#[test]
fn order_of_file_seal() {
    let mut t = Tester::new("order of file_seal");
    let last = 73_048;
    for key_len in KEY_LENGTHS {
        for stay_len in STAY_LENGTHS {
            for text_len in [0, 16, 474, 475, 512] {
                for day in [0, last, last + 1, 1 << 32, u64::MAX] {
                    for file_len in [1_024, 0, 511, 513] {
                        for place in [0, 1, 2, 1 << 32, 1 << 55, u64::MAX] {
                            if !t.chosen() {
                                continue;
                            }
                            let (key, stay, text) = (t.random.bytes(key_len), t.random.bytes(stay_len), t.random.bytes(text_len));
                            let (page, file) = (t.random.next() as u32, t.random.bytes(file_len));
                            let answer = t.file_seal(&FileSeal { key: &key, stay: &stay, page, day, text: &text, place }, &file).0;
                            let expected = first(&[
                                (key_len != 32, 1),
                                (stay_len != 12, 2),
                                (text_len > 474, 3),
                                (day > last, 12),
                                (file_len % 512 != 0 || place >= file_len as u64 / 512, 13),
                            ]);
                            t.expect("file_seal", answer, expected);
                        }
                    }
                }
            }
        }
    }
    t.done();
}

/// What may be wrong with a page file, 0 and false where nothing is.
struct Faults {
    /// 1 its length, 2 a stored length of another stay, 3 a stored day of the stay that is opened.
    file: u64,
    /// 1 pages that do not run, 2 different days, 3 a page that is lacking.
    stay: u64,
    tag: bool,
    padding: bool,
}

/// Two pages of a stay and one of another between them; the faults of tag and padding are those of page 0.
fn faulty(key: &[u8], stay: &[u8], text: &[u8], faults: &Faults) -> Vec<u8> {
    let number = if faults.stay == 1 { 2_u32 } else { 1 };
    let day = if faults.stay == 2 { 9_001_u32 } else { 9_000 };
    let length = text.len() as u16;
    let mut padded = [0; 474];
    padded[..text.len()].copy_from_slice(text);
    padded[473] = u8::from(faults.padding);
    let mut file = vec![];
    for (stay, number, day) in [(stay, 0, 9_000), (&[9; 12], 0, 9_000), (stay, number, day)] {
        let head = [stay, &number.to_le_bytes(), &u32::to_le_bytes(day), &length.to_le_bytes()].concat();
        let mut cipher = [0; 474];
        let tag = page::seal(key, &head[..16], &head, &padded, &mut cipher).unwrap();
        file.extend([&head[..], &cipher, &tag].concat());
    }
    file[511] ^= u8::from(faults.tag);
    match faults.file {
        1 => file.push(0),
        2 => file[512 + 20..512 + 22].copy_from_slice(&475_u16.to_le_bytes()),
        3 => file[16..20].copy_from_slice(&73_049_u32.to_le_bytes()),
        _ => {}
    }
    file
}

#[test]
fn order_of_file_open() {
    let mut t = Tester::new("order of file_open");
    let (key, stay, text) = (t.random.array::<32>(), t.random.array::<12>(), t.random.bytes(37));
    for file in 0..4 {
        for of_stay in 0..4 {
            for (tag, padding) in [(false, false), (false, true), (true, false), (true, true)] {
                let lent = faulty(&key, &stay, &text, &Faults { file, stay: of_stay, tag, padding });
                for key_len in KEY_LENGTHS {
                    for stay_len in STAY_LENGTHS {
                        for out_len in rooms(text.len()) {
                            for length_len in [8, 0, 7, 9] {
                                if !t.chosen() {
                                    continue;
                                }
                                let (key, stay) = (&[&key[..], &[0]].concat()[..key_len], &[&stay[..], &[0; 4]].concat()[..stay_len]);
                                let page = if of_stay == 3 { 2 } else { 0 };
                                let answer = t.file_open(&FileOpen { key, stay, page, out_len, length_len }, &lent).0;
                                let expected = first(&[
                                    (key_len != 32, 1),
                                    (stay_len != 12, 2),
                                    (file != 0, 13),
                                    (of_stay != 0, 14),
                                    (out_len < text.len(), 4),
                                    (tag, 5),
                                    (padding, 13),
                                    (length_len < 8, 4),
                                ]);
                                t.expect("file_open", answer, expected);
                            }
                        }
                    }
                }
            }
        }
    }
    t.done();
}

const STAY_KEY_LENGTHS: [usize; 4] = [32, 0, 31, 33];

/// A store of three blocks of one season, and what it is to a number: 0 new to it, 1 held, 2 erased. `full` ones have no empty block.
fn store_for(key: &[u8], iv: &[u8], of_number: u64, full: bool) -> Vec<u8> {
    let mut store = vec![0; 3 * 512];
    if of_number > 0 {
        key_store::store(key, iv, &[7; 32], &mut store).unwrap();
    }
    if of_number == 2 {
        key_store::erase(iv, &mut store).unwrap();
    }
    let room = if of_number > 0 { 2 } else { 3 };
    for other in 0..if full { room } else { 1 } {
        key_store::store(key, &[other; 16], &[other; 32], &mut store).unwrap();
    }
    store
}

/// What may be wrong with a store: 1 its length, 2 a check, 3 a mark, 4 a byte that is not zero, 5 a number that stands twice.
fn broken(store: &[u8], fault: u64) -> Vec<u8> {
    let mut store = store.to_vec();
    match fault {
        1 => drop(store.pop()),
        2 => store[2 * 512 + 510] ^= 0x10,
        3 => store[512] = 3,
        4 => store[2 * 512 + 81] = 1,
        5 => store.copy_within(..512, 2 * 512),
        _ => {}
    }
    if fault == 3 || fault == 4 {
        for block in store.chunks_mut(512) {
            let sum = check((&*block).try_into().unwrap());
            block[508..].copy_from_slice(&sum.to_le_bytes());
        }
    }
    store
}

#[test]
fn order_of_keys_store() {
    let mut t = Tester::new("order of keys_store");
    let (key, iv, stay_key) = (t.random.array::<32>(), t.random.array::<16>(), t.random.array::<32>());
    let cut = |bytes: &[u8], len: usize| [bytes, &[0]].concat()[..len].to_vec();
    for of_number in 0..3 {
        for full in [false, true] {
            let store = store_for(&key, &iv, of_number, full);
            for fault in 0..6 {
                let lent = broken(&store, fault);
                for key_len in KEY_LENGTHS {
                    for iv_len in IV_LENGTHS {
                        for stay_key_len in STAY_KEY_LENGTHS {
                            if !t.chosen() {
                                continue;
                            }
                            let answer = t.keys_store(&cut(&key, key_len), &cut(&iv, iv_len), &cut(&stay_key, stay_key_len), &lent).0;
                            let expected = first(&[
                                (key_len != 32 || stay_key_len != 32, 1),
                                (iv_len != 16, 2),
                                (fault != 0, 8),
                                (of_number != 0, 16),
                                (full, 4),
                            ]);
                            t.expect("keys_store", answer, expected);
                        }
                    }
                }
            }
        }
    }
    t.done();
}

#[test]
fn order_of_keys_fetch() {
    let mut t = Tester::new("order of keys_fetch");
    let (key, iv) = (t.random.array::<32>(), t.random.array::<16>());
    let cut = |bytes: &[u8], len: usize| [bytes, &[0]].concat()[..len].to_vec();
    for of_number in 0..3 {
        for full in [false, true] {
            for tag in [false, true] {
                let mut store = store_for(&key, &iv, of_number, full);
                if tag && of_number == 1 {
                    store[79] ^= 1;
                    let sum = check(store[..512].try_into().unwrap());
                    store[508..512].copy_from_slice(&sum.to_le_bytes());
                }
                for fault in 0..6 {
                    let lent = broken(&store, fault);
                    for key_len in KEY_LENGTHS {
                        for iv_len in IV_LENGTHS {
                            for out_len in [32, 0, 16, 31, 33, 40] {
                                if !t.chosen() {
                                    continue;
                                }
                                let answer = t.keys_fetch_in(&cut(&key, key_len), &cut(&iv, iv_len), &lent, out_len).0;
                                let expected = first(&[
                                    (key_len != 32, 1),
                                    (iv_len != 16, 2),
                                    (fault != 0, 8),
                                    (of_number != 1, 17),
                                    (tag, 5),
                                    (out_len < 32, 4),
                                ]);
                                t.expect("keys_fetch", answer, expected);
                            }
                        }
                    }
                }
            }
        }
    }
    t.done();
}

#[test]
fn order_of_keys_erase() {
    let mut t = Tester::new("order of keys_erase");
    let (key, iv) = (t.random.array::<32>(), t.random.array::<16>());
    for of_number in 0..3 {
        for full in [false, true] {
            let store = store_for(&key, &iv, of_number, full);
            for fault in 0..6 {
                let lent = broken(&store, fault);
                for iv_len in IV_LENGTHS {
                    let answer = t.keys_erase(&[&iv[..], &[0]].concat()[..iv_len], &lent).0;
                    t.expect("keys_erase", answer, first(&[(iv_len != 16, 2), (fault != 0, 8), (of_number != 1, 17)]));
                }
            }
        }
    }
    t.done();
}

/// Schedulers that are read.
const SCHEDULE_LENGTHS: [usize; 5] = [SCHEDULE_BYTES, 0, 1, SCHEDULE_BYTES - 1, SCHEDULE_BYTES + 1];

/// A scheduler with so many stays, which says that it has `said`; the IV of the one at place i is i.
fn schedule_of(stays: u8, said: u64) -> Vec<u8> {
    let mut scheduler = vec![0; SCHEDULE_BYTES];
    for i in 0..stays {
        calls::schedule_join(&mut scheduler, &[i; 32], &[i; 16], 5_000).unwrap();
    }
    scheduler[8..16].copy_from_slice(&said.to_le_bytes());
    scheduler
}

#[test]
fn order_of_schedule_empty() {
    let mut t = Tester::new("order of schedule_empty");
    for len in [SCHEDULE_BYTES, 0, 1, 16, SCHEDULE_BYTES - 1, SCHEDULE_BYTES + 1, SCHEDULE_BYTES + 500] {
        let answer = t.schedule_empty_in(len).0;
        t.expect("schedule_empty", answer, first(&[(len < SCHEDULE_BYTES, 4)]));
    }
    t.done();
}

#[test]
fn order_of_schedule_join() {
    let mut t = Tester::new("order of schedule_join");
    for (stays, said) in [(0, 0), (1, 1), (5, 5), (31, 31), (32, 32), (32, 33), (32, 1 << 32), (32, u64::MAX)] {
        let scheduler = schedule_of(stays, said);
        // The IV is that of the first stay, of the last, and of none.
        for of_iv in [0, stays.saturating_sub(1), 77] {
            for scheduler_len in SCHEDULE_LENGTHS {
                for key_len in KEY_LENGTHS {
                    for iv_len in IV_LENGTHS {
                        for length in [1, 1_048_576, 0, 1_048_577, (1 << 32) + 1, u64::MAX] {
                            if !t.chosen() {
                                continue;
                            }
                            let mut lent = [&scheduler[..], &[0]].concat()[..scheduler_len].to_vec();
                            let answer = t.schedule_join(&mut lent, &vec![9; key_len], &vec![of_iv; iv_len], length);
                            let expected = first(&[
                                (scheduler_len != SCHEDULE_BYTES, 8),
                                (key_len != 32, 1),
                                (iv_len != 16, 2),
                                (length == 0 || length > 1_048_576, 3),
                                (stays == 32, 19),
                                (of_iv < stays, 16),
                            ]);
                            t.expect("schedule_join", answer, expected);
                        }
                    }
                }
            }
        }
    }
    t.done();
}

#[test]
fn order_of_schedule_next() {
    let mut t = Tester::new("order of schedule_next");
    for (stays, said) in [(0, 0), (1, 1), (32, 32), (32, u64::MAX)] {
        let scheduler = schedule_of(stays, said);
        for scheduler_len in SCHEDULE_LENGTHS {
            for found_len in [1, 0, 2] {
                for iv_len in ROOMS_16 {
                    for due_len in [8, 0, 7, 9] {
                        let lent = &[&scheduler[..], &[0]].concat()[..scheduler_len];
                        let answer = t.schedule_next_in(lent, [found_len, iv_len, due_len]).0;
                        let expected = first(&[(scheduler_len != SCHEDULE_BYTES, 8), (found_len < 1 || iv_len < 16 || due_len < 8, 4)]);
                        t.expect("schedule_next", answer, expected);
                    }
                }
            }
        }
    }
    t.done();
}

/// What may be wrong with the session of the stay that comes next: it is finished, its text is too long for the piece, or its count too high.
#[derive(Clone, Copy)]
struct SessionFaults {
    finished: bool,
    long: bool,
    far: bool,
}

/// Two stays, of which the second comes next, with so many bytes left, and so many turns done.
fn two_stays(turns: u64, left: u64, faults: SessionFaults) -> Vec<u8> {
    let (mut scheduler, due) = (schedule_of(2, 2), left.min(4_096));
    let mut put = |at: usize, number: u64| scheduler[at..at + 8].copy_from_slice(&number.to_le_bytes());
    put(0, turns);
    put(16 + 248, 1);
    put(16 + 256 + 240, left);
    let text = if faults.long { 1_048_577 - due } else { 0 };
    let drawn = (text + due).div_ceil(16) - text.div_ceil(16);
    put(16 + 256, if faults.finished { 2 } else { 0 });
    put(16 + 256 + 16, text);
    put(16 + 256 + COUNT_AT, if faults.far { 65_539 - drawn } else { 2 });
    scheduler
}

#[test]
fn order_of_schedule_turn() {
    let mut t = Tester::new("order of schedule_turn");
    let faults = [false, true].map(|finished| [false, true].map(|long| [false, true].map(|far| SessionFaults { finished, long, far })));
    let turns = [0, (1 << 62) - 1, 1 << 62, u64::MAX];
    // Lengths of the buffers for the IV, the number, done and the tag.
    let rooms_of_c = [[16, 8, 1, 16], [15, 8, 1, 16], [16, 7, 1, 16], [16, 8, 0, 16], [16, 8, 1, 15], [0, 0, 0, 0], [21, 9, 2, 20]];
    for faults in faults.as_flattened().as_flattened() {
        for (turns, left) in turns.into_iter().flat_map(|turns| [0, 1, 17, 4_096, 4_100].map(|left| (turns, left))) {
            let (scheduler, due) = (two_stays(turns, left, *faults), left.min(4_096) as usize);
            for scheduler_len in [SCHEDULE_BYTES, 0, SCHEDULE_BYTES - 1, SCHEDULE_BYTES + 1] {
                for piece_len in [due, due + 1, due.saturating_sub(1)] {
                    for out_len in [due, due.saturating_sub(1), 0, due + 5] {
                        for [iv_len, turn_len, done_len, tag_len] in rooms_of_c {
                            if !t.chosen() {
                                continue;
                            }
                            let mut lent = [&scheduler[..], &[0]].concat()[..scheduler_len].to_vec();
                            let piece = vec![0x5a; piece_len];
                            let given = Turn { piece: &piece, out_len, iv_len, turn_len, done_len, tag_len };
                            let answer = t.schedule_turn(&mut lent, &given).0;
                            let expected = first(&[
                                (scheduler_len != SCHEDULE_BYTES, 8),
                                (turns >= 1 << 62, 9),
                                (piece_len != due, 3),
                                (faults.finished, 7),
                                (faults.long, 3),
                                (faults.far, 9),
                                (out_len < piece_len, 4),
                                (iv_len < 16 || turn_len < 8 || done_len < 1 || tag_len < 16, 4),
                            ]);
                            t.expect("schedule_turn", answer, expected);
                        }
                    }
                }
            }
        }
    }
    t.done();
}

/// With nobody there neither the turns done nor the lengths of piece and output count.
#[test]
fn order_of_schedule_turn_with_nobody_there() {
    let mut t = Tester::new("order of schedule_turn with nobody there");
    for turns in [0, (1 << 62) - 1, 1 << 62, u64::MAX] {
        let mut scheduler = schedule_of(0, 0);
        scheduler[..8].copy_from_slice(&turns.to_le_bytes());
        for scheduler_len in SCHEDULE_LENGTHS {
            for (piece_len, out_len) in [(0, 0), (1, 1), (1, 0), (4_096, 4_095), (5_000, 5_000)] {
                for (iv_len, tag_len) in ROOMS_16.into_iter().flat_map(|iv_len| ROOMS_16.map(|tag_len| (iv_len, tag_len))) {
                    for (turn_len, done_len) in [(8, 1), (0, 1), (7, 1), (9, 2), (8, 0)] {
                        let mut lent = [&scheduler[..], &[0]].concat()[..scheduler_len].to_vec();
                        let piece = vec![0x5a; piece_len];
                        let given = Turn { piece: &piece, out_len, iv_len, turn_len, done_len, tag_len };
                        let answer = t.schedule_turn(&mut lent, &given).0;
                        let expected = first(&[
                            (scheduler_len != SCHEDULE_BYTES, 8),
                            (iv_len < 16 || turn_len < 8 || done_len < 1 || tag_len < 16, 4),
                        ]);
                        t.expect("schedule_turn", answer, expected);
                    }
                }
            }
        }
    }
    t.done();
}
