//! Sessions whose bytes no call need have written. They are answered by what their bytes say: phase, lengths and count as they stand.

use crate::tester::{Session, Tester, SESSION_BYTES};

#[derive(Clone, Copy)]
enum Call {
    Data,
    Text,
    Finish,
    Suspend,
}

const CALLS: [Call; 4] = [Call::Data, Call::Text, Call::Finish, Call::Suspend];

/// Counts of a state at the edges of what is accepted.
pub const COUNTS: [u64; 10] = [0, 1, 2, 65_535, 65_537, 65_538, 65_539, 1 << 32, u64::MAX - 1, u64::MAX];

/// Where a session has the count of its state.
pub const COUNT_AT: usize = 136;

fn set_number(session: &mut Session, at: usize, number: u64) {
    session[at..at + 8].copy_from_slice(&number.to_le_bytes());
}

/// One call with a piece at random, at times with a buffer that is too short.
fn call(t: &mut Tester, call: Call, session: &mut Session) {
    let piece_len = t.random.length(100);
    let piece = t.random.bytes(piece_len);
    let needed = match call {
        Call::Data => 0,
        Call::Text => piece_len,
        Call::Finish => 16,
        Call::Suspend => 512,
    };
    let out_len = if t.random.one_in(8) { t.random.below(needed + 1) } else { needed + t.random.below(20) };
    match call {
        Call::Data => t.data(session, &piece),
        Call::Text => t.text_in(session, SESSION_BYTES, &piece, out_len).0,
        Call::Finish => {
            let iv_len = if t.random.one_in(8) { t.random.below(16) } else { 16 + t.random.below(20) };
            t.finish_in(session, SESSION_BYTES, out_len, iv_len).0
        }
        Call::Suspend => t.suspend_in(session, SESSION_BYTES, out_len).0,
    };
}

/// Each call by itself, and a list of calls on what it has left.
fn list(t: &mut Tester, bytes: &Session) {
    for first in CALLS {
        let mut session = *bytes;
        call(t, first, &mut session);
        for _ in 0..t.random.below(4) {
            let next = t.random.pick(&CALLS);
            call(t, next, &mut session);
        }
    }
}

/// Random bytes, some with small numbers where lengths, a phase or a count stand.
#[test]
fn random_sessions() {
    let mut t = Tester::new("random sessions");
    for round in 0..t.rounds(8_000) {
        let mut bytes: Session = t.random.array();
        match round % 6 {
            0 => {}
            1 => bytes[0] = t.random.below(4) as u8,
            2 => {
                let (word, small) = (t.random.below(SESSION_BYTES / 8), t.random.below(20) as u64);
                set_number(&mut bytes, 8 * word, small);
            }
            3 => {
                let small = t.random.below(3) as u64;
                for word in bytes.chunks_mut(8) {
                    if t.random.one_in(2) {
                        word.copy_from_slice(&small.to_le_bytes());
                    }
                }
            }
            _ => {
                bytes[0] = t.random.below(3) as u8;
                let (data, text) = (t.random.length(65_535) as u64, t.random.length(1_048_576) as u64);
                let (near, far) = (65_538 - t.random.below(10) as u64, t.random.below(65_539) as u64);
                let at_an_edge = t.random.pick(&COUNTS);
                let count = t.random.pick(&[near, far, at_an_edge]);
                for (at, number) in [(8, data), (16, text), (COUNT_AT, count)] {
                    set_number(&mut bytes, at, number);
                }
            }
        }
        list(&mut t, &bytes);
    }
    for byte in [0, 1, 2, 0x7f, 0x80, 0xff] {
        list(&mut t, &[byte; SESSION_BYTES]);
    }
    t.done();
}

/// Sessions that calls have written, with each byte, each word of 32 and each of 64 bits set to numbers at the edges.
#[test]
fn sessions_with_a_changed_field() {
    let mut t = Tester::new("sessions with a changed field");
    let values = [
        0,
        1,
        2,
        3,
        15,
        16,
        17,
        255,
        65_534,
        65_535,
        65_536,
        65_538,
        65_539,
        1_048_575,
        1_048_576,
        1_048_577,
        u64::from(u32::MAX),
        1 << 32,
        1 << 61,
        1 << 63,
        u64::MAX - 15,
        u64::MAX,
    ];
    for (data_len, text_len) in [(0, None), (5, None), (16, None), (3, Some(0)), (3, Some(7)), (3, Some(16)), (20, Some(40))] {
        let (key, iv) = (t.random.array::<32>(), t.random.array::<16>());
        let mut session = t.begin(&key, &iv);
        let data = t.random.bytes(data_len);
        t.data(&mut session, &data);
        if let Some(text_len) = text_len {
            let text = t.random.bytes(text_len);
            t.text(&mut session, &text);
        }
        let mut finished = session;
        t.finish(&mut finished);
        for base in [session, finished] {
            for width in [1, 2, 4, 8] {
                for at in (0..=SESSION_BYTES - width).step_by(width.min(4)) {
                    for value in values {
                        if t.random.one_in(4) && t.chosen() {
                            let mut bytes = base;
                            bytes[at..at + width].copy_from_slice(&u64::to_le_bytes(value)[..width]);
                            for _ in 0..2 {
                                let next = t.random.pick(&CALLS);
                                call(&mut t, next, &mut bytes);
                            }
                        }
                    }
                }
            }
        }
    }
    t.done();
}

/// A session whose count does not fit its text: as many blocks are drawn as the count has room for, and none of them twice.
#[test]
fn sessions_with_another_count() {
    let mut t = Tester::new("sessions with another count");
    for left in [0, 1, 2, 3, 20] {
        for text_len in [0, 1, 15, 16, 17, 40] {
            let (key, iv) = (t.random.array::<32>(), t.random.array::<16>());
            let mut session = t.begin(&key, &iv);
            let text = t.random.bytes(text_len);
            t.text(&mut session, &text);
            set_number(&mut session, COUNT_AT, 65_538 - left);
            // What the block in use has left costs no block of the count.
            let room = text_len.next_multiple_of(16) - text_len + 16 * left as usize;
            let source = vec![0; room + 1];
            for len in [room + 1, room + 17] {
                let (answer, _) = t.text(&mut session, &vec![0; len]);
                t.expect("text", answer, 9);
            }
            let mut stream = Vec::new();
            while stream.len() < room {
                let len = 1 + t.random.below(room - stream.len());
                let (answer, drawn) = t.text(&mut session, &source[..len]);
                t.expect("text", answer, 0);
                stream.extend(drawn);
            }
            for (len, expected) in [(0, 0), (1, 9), (16, 9)] {
                let answer = t.text(&mut session, &vec![0; len]).0;
                t.expect("text", answer, expected);
            }
            let (answer, whole, _) = t.seal(&key, &iv, &[], &[&text[..], &source[..room]].concat(), text_len + room, 16);
            t.expect("seal", answer, 0);
            if stream != whole[text_len..] {
                t.fail("text", "both draw other keystream than lies behind the session".into());
            }
            t.suspend(&session);
            let answer = t.finish(&mut session).0;
            t.expect("finish", answer, 0);
        }
    }
    t.done();
}

/// 239, 241 and other lengths of random bytes are answered with 8.
#[test]
fn sessions_of_other_lengths() {
    let mut t = Tester::new("sessions of other lengths");
    for _ in 0..t.rounds(10) {
        for len in (0..=300).chain([512, 65_536 + SESSION_BYTES]) {
            if len == SESSION_BYTES {
                continue;
            }
            let (mut session, piece): (Session, _) = (t.random.array(), t.random.bytes(9));
            let answers = [
                t.data_in(&mut session, len, &piece),
                t.text_in(&mut session, len, &piece, 9).0,
                t.finish_in(&mut session, len, 16, 16).0,
                t.suspend_in(&session, len, 512).0,
            ];
            for answer in answers {
                t.expect("a call on another length", answer, 8);
            }
        }
    }
    t.done();
}
