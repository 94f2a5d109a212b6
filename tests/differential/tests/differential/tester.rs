//! Each call of the header, made to the library and to the reference with the same bytes, and everything that both leave compared:
//! the answer, each lent byte, the bytes behind what is written, the canaries, and on a refusal that nothing has changed, but for the steps of a
//! search that finds nothing.

use crate::lent::Lent;
use crate::library::*;
use crate::random::Random;
use reference::calendar::Date;
use reference::calls;
use reference::refusal::number;
use reference::scheduler;
use std::collections::BTreeMap;

pub const SCHEDULE_BYTES: usize = scheduler::SCHEDULE_BYTES;
pub const SESSION_BYTES: usize = calls::SESSION_BYTES;
pub const STATE_BYTES: usize = calls::STATE_BYTES;

/// A session between two calls.
pub type Session = [u8; SESSION_BYTES];

/// What a lent buffer must hold after a call.
enum Left<'a> {
    Unchanged,
    /// Where the call is accepted; where it is refused, what it held.
    Bytes(&'a [u8]),
    /// Even where it is refused.
    Anyway(&'a [u8]),
}

/// What a seal into a page file is given beside the file.
#[derive(Clone, Copy)]
pub struct FileSeal<'a> {
    pub key: &'a [u8],
    pub stay: &'a [u8],
    pub page: u32,
    pub day: u64,
    pub text: &'a [u8],
    pub place: u64,
}

/// What an open of a page in a file is given beside the file.
#[derive(Clone, Copy)]
pub struct FileOpen<'a> {
    pub key: &'a [u8],
    pub stay: &'a [u8],
    pub page: u32,
    pub out_len: usize,
    pub length_len: usize,
}

/// What a search is given beside the dump and the key: the range, and buffers of these lengths.
#[derive(Clone, Copy)]
pub struct Search {
    pub lowest: u64,
    pub highest: u64,
    pub count_len: usize,
    pub iv_len: usize,
    pub sealed_len: usize,
    pub steps_len: usize,
}

/// What a search found.
#[derive(Debug, PartialEq, Eq)]
pub struct Located {
    pub count: u64,
    pub iv: Vec<u8>,
    pub sealed: u8,
    pub steps: u64,
}

/// What a turn is given beside the scheduler: the piece, and buffers of these lengths.
#[derive(Clone, Copy)]
pub struct Turn<'a> {
    pub piece: &'a [u8],
    pub out_len: usize,
    pub iv_len: usize,
    pub turn_len: usize,
    pub done_len: usize,
    pub tag_len: usize,
}

impl Turn<'_> {
    /// With room for all that is written.
    pub fn of(piece: &[u8]) -> Turn<'_> {
        Turn { piece, out_len: piece.len(), iv_len: 16, turn_len: 8, done_len: 1, tag_len: 16 }
    }
}

/// What is left of a turn's buffers.
pub struct Turned {
    pub out: Vec<u8>,
    pub iv: Vec<u8>,
    pub turn: Vec<u8>,
    pub done: Vec<u8>,
    pub tag: Vec<u8>,
}

pub struct Tester {
    test: &'static str,
    seed: u64,
    share: u64,
    canaries: usize,
    calls: u64,
    /// How often each number was answered.
    answers: BTreeMap<u64, u64>,
    pub random: Random,
}

fn number_from(variable: &str, default: u64) -> u64 {
    match std::env::var(variable) {
        Ok(value) => value.parse().unwrap_or_else(|_| panic!("{variable} is not a number")),
        Err(_) => default,
    }
}

/// The first bytes that differ, for a message.
fn difference(found: &[u8], expected: &[u8]) -> String {
    if found.len() != expected.len() {
        return format!("{} bytes, expected {}", found.len(), expected.len());
    }
    let at = found.iter().zip(expected).position(|(found, expected)| found != expected).unwrap_or(0);
    let end = found.len().min(at + 16);
    format!("from byte {at} of {}: {:02x?}, expected {:02x?}", found.len(), &found[at..end], &expected[at..end])
}

/// The date at the front of some bytes: year, low byte first, month, day.
fn date_of(bytes: &[u8]) -> Date {
    Date { year: u64::from(bytes[0]) + 256 * u64::from(bytes[1]), month: u64::from(bytes[2]), day: u64::from(bytes[3]) }
}

/// Takes over what an accepted call has written to a session.
fn moved_on(session: &mut Session, after: &[u8], answer: u64) {
    if answer == 0 {
        session.copy_from_slice(after);
    }
}

impl Tester {
    /// `TULVEKAS_SEED` gives another seed. `TULVEKAS_ROUNDS` is the share of the cases that is run, in percent, and may be over 100.
    /// `TULVEKAS_CANARIES` is the length of a canary.
    pub fn new(test: &'static str) -> Tester {
        let seed = number_from("TULVEKAS_SEED", 20_000_101);
        let of_test = test.bytes().fold(seed, |mix, byte| Random::new(mix ^ u64::from(byte)).next());
        Tester {
            test,
            seed,
            share: number_from("TULVEKAS_ROUNDS", 100),
            canaries: number_from("TULVEKAS_CANARIES", 64) as usize,
            calls: 0,
            answers: BTreeMap::new(),
            random: Random::new(of_test),
        }
    }

    /// How many of `n` random cases are run.
    pub fn rounds(&self, n: u64) -> u64 {
        (n * self.share).div_ceil(100)
    }

    /// Whether the next of a list of cases is run: each, unless the share is below 100.
    pub fn chosen(&mut self) -> bool {
        self.share >= 100 || self.random.next() % 100 < self.share
    }

    /// Counts a call that was made.
    pub fn count(&mut self, answer: u64) {
        self.calls += 1;
        *self.answers.entry(answer).or_default() += 1;
    }

    /// Whether a memory checker may be at work, for which canaries are left out.
    pub fn checked(&self) -> bool {
        self.canaries == 0
    }

    /// Says how many calls were compared with the reference.
    pub fn done(&self) {
        let answers: Vec<_> = self.answers.iter().map(|(answer, times)| format!("{times} answered {answer}")).collect();
        println!("{}: {} calls compared ({})", self.test, self.calls, answers.join(", "));
    }

    pub fn fail(&self, call: &str, what: String) -> ! {
        panic!("{}, call {} ({call}): {what}; TULVEKAS_SEED={} TULVEKAS_ROUNDS={}", self.test, self.calls, self.seed, self.share);
    }

    /// What a test knows by itself of an answer that library and reference agree on.
    pub fn expect(&self, call: &str, found: u64, expected: u64) {
        if found != expected {
            self.fail(call, format!("both answer {found}, the test expects {expected}"));
        }
    }

    pub fn lend(&mut self, name: &'static str, contents: &[u8]) -> Lent {
        Lent::new(name, contents, self.canaries, &mut self.random)
    }

    /// A buffer to be written; its bytes are random, so that each write and each missing one shows.
    fn lend_output(&mut self, name: &'static str, len: usize) -> Lent {
        let contents = self.random.bytes(len);
        self.lend(name, &contents)
    }

    fn compare(&mut self, call: &str, found: u64, expected: u64, lent: &[(&Lent, Left)]) {
        self.count(found);
        let lengths = || lent.iter().map(|(lent, _)| format!(" {} {}", lent.name(), lent.len())).collect::<String>();
        if found != expected {
            self.fail(call, format!("answer {found}, expected {expected}; lengths{}", lengths()));
        }
        for (lent, left) in lent {
            if !lent.canaries_stand() {
                self.fail(call, format!("a canary of {} moved; lengths{}", lent.name(), lengths()));
            }
            let (contents, before) = (lent.contents(), lent.lent());
            let wrong = match left {
                Left::Anyway(bytes) => (contents != *bytes).then_some(*bytes),
                _ if expected != 0 => (contents != before).then_some(before),
                Left::Unchanged => (contents != before).then_some(before),
                Left::Bytes(bytes) => (contents != *bytes).then_some(*bytes),
            };
            if let Some(wrong) = wrong {
                let difference = difference(contents, wrong);
                self.fail(call, format!("answer {found}, {} is wrong {difference}; lengths{}", lent.name(), lengths()));
            }
        }
    }

    pub fn seal(&mut self, key: &[u8], iv: &[u8], ad: &[u8], text: &[u8], out_len: usize, tag_len: usize) -> (u64, Vec<u8>, Vec<u8>) {
        let (key, iv, ad) = (self.lend("key", key), self.lend("iv", iv), self.lend("ad", ad));
        let text = self.lend("text", text);
        let (mut out, mut tag) = (self.lend_output("out", out_len), self.lend_output("tag", tag_len));
        let (mut our_out, mut our_tag) = (out.lent().to_vec(), tag.lent().to_vec());
        let expected = number(&calls::seal(key.lent(), iv.lent(), ad.lent(), text.lent(), &mut our_out, &mut our_tag));
        let found = unsafe {
            tulvekas_seal(
                key.read(),
                key.len(),
                iv.read(),
                iv.len(),
                ad.read(),
                ad.len(),
                text.read(),
                text.len(),
                out.written(),
                out.len(),
                tag.written(),
                tag.len(),
            )
        };
        self.compare(
            "seal",
            found,
            expected,
            &[
                (&key, Left::Unchanged),
                (&iv, Left::Unchanged),
                (&ad, Left::Unchanged),
                (&text, Left::Unchanged),
                (&out, Left::Bytes(&our_out)),
                (&tag, Left::Bytes(&our_tag)),
            ],
        );
        (found, our_out, our_tag)
    }

    pub fn open(&mut self, key: &[u8], iv: &[u8], ad: &[u8], cipher: &[u8], tag: &[u8], out_len: usize) -> (u64, Vec<u8>) {
        let (key, iv, ad) = (self.lend("key", key), self.lend("iv", iv), self.lend("ad", ad));
        let (cipher, tag) = (self.lend("cipher", cipher), self.lend("tag", tag));
        let mut out = self.lend_output("out", out_len);
        let mut our_out = out.lent().to_vec();
        let expected = number(&calls::open(key.lent(), iv.lent(), ad.lent(), cipher.lent(), tag.lent(), &mut our_out));
        let found = unsafe {
            tulvekas_open(
                key.read(),
                key.len(),
                iv.read(),
                iv.len(),
                ad.read(),
                ad.len(),
                cipher.read(),
                cipher.len(),
                tag.read(),
                tag.len(),
                out.written(),
                out.len(),
            )
        };
        self.compare(
            "open",
            found,
            expected,
            &[
                (&key, Left::Unchanged),
                (&iv, Left::Unchanged),
                (&ad, Left::Unchanged),
                (&cipher, Left::Unchanged),
                (&tag, Left::Unchanged),
                (&out, Left::Bytes(&our_out)),
            ],
        );
        (found, our_out)
    }

    /// Gives the session, if accepted.
    pub fn begin_in(&mut self, key: &[u8], iv: &[u8], session_len: usize) -> (u64, Option<Session>) {
        let (key, iv) = (self.lend("key", key), self.lend("iv", iv));
        let mut session = self.lend_output("session", session_len);
        let mut ours = session.lent().to_vec();
        let expected = number(&calls::begin(key.lent(), iv.lent(), &mut ours));
        let found = unsafe { tulvekas_begin(key.read(), key.len(), iv.read(), iv.len(), session.written(), session.len()) };
        let lent = [(&key, Left::Unchanged), (&iv, Left::Unchanged), (&session, Left::Bytes(&ours))];
        self.compare("begin", found, expected, &lent);
        (found, (found == 0).then(|| ours[..SESSION_BYTES].try_into().unwrap()))
    }

    pub fn begin(&mut self, key: &[u8], iv: &[u8]) -> Session {
        self.begin_in(key, iv, SESSION_BYTES).1.unwrap()
    }

    /// Bytes as a buffer of another length: cut, or with random bytes behind.
    fn lend_in(&mut self, name: &'static str, bytes: &[u8], len: usize) -> Lent {
        let mut lent = self.random.bytes(len);
        let kept = len.min(bytes.len());
        lent[..kept].copy_from_slice(&bytes[..kept]);
        self.lend(name, &lent)
    }

    pub fn data_in(&mut self, session: &mut Session, session_len: usize, piece: &[u8]) -> u64 {
        let (mut lent, piece) = (self.lend_in("session", session, session_len), self.lend("piece", piece));
        let mut ours = lent.lent().to_vec();
        let expected = number(&calls::data(&mut ours, piece.lent()));
        let found = unsafe { tulvekas_data(lent.written(), lent.len(), piece.read(), piece.len()) };
        self.compare("data", found, expected, &[(&lent, Left::Bytes(&ours)), (&piece, Left::Unchanged)]);
        moved_on(session, &ours, found);
        found
    }

    pub fn data(&mut self, session: &mut Session, piece: &[u8]) -> u64 {
        self.data_in(session, SESSION_BYTES, piece)
    }

    /// Gives the written ciphertext beside the answer.
    pub fn text_in(&mut self, session: &mut Session, session_len: usize, piece: &[u8], out_len: usize) -> (u64, Vec<u8>) {
        let (mut lent, piece) = (self.lend_in("session", session, session_len), self.lend("piece", piece));
        let mut out = self.lend_output("out", out_len);
        let (mut ours, mut our_out) = (lent.lent().to_vec(), out.lent().to_vec());
        let expected = number(&calls::text(&mut ours, piece.lent(), &mut our_out));
        let found = unsafe { tulvekas_text(lent.written(), lent.len(), piece.read(), piece.len(), out.written(), out.len()) };
        let left = [(&lent, Left::Bytes(&ours)), (&piece, Left::Unchanged), (&out, Left::Bytes(&our_out))];
        self.compare("text", found, expected, &left);
        moved_on(session, &ours, found);
        our_out.truncate(piece.len());
        (found, our_out)
    }

    pub fn text(&mut self, session: &mut Session, piece: &[u8]) -> (u64, Vec<u8>) {
        let spare = if self.random.one_in(2) { 0 } else { self.random.below(40) };
        self.text_in(session, SESSION_BYTES, piece, piece.len() + spare)
    }

    /// Gives the written tag and IV.
    pub fn finish_in(&mut self, session: &mut Session, session_len: usize, tag_len: usize, iv_len: usize) -> (u64, Vec<u8>, Vec<u8>) {
        let mut lent = self.lend_in("session", session, session_len);
        let (mut tag, mut iv) = (self.lend_output("tag", tag_len), self.lend_output("iv", iv_len));
        let (mut ours, mut our_tag, mut our_iv) = (lent.lent().to_vec(), tag.lent().to_vec(), iv.lent().to_vec());
        let expected = number(&calls::finish(&mut ours, &mut our_tag, &mut our_iv));
        let found = unsafe { tulvekas_finish(lent.written(), lent.len(), tag.written(), tag.len(), iv.written(), iv.len()) };
        self.compare("finish", found, expected, &[(&lent, Left::Bytes(&ours)), (&tag, Left::Bytes(&our_tag)), (&iv, Left::Bytes(&our_iv))]);
        moved_on(session, &ours, found);
        our_tag.truncate(16);
        our_iv.truncate(16);
        (found, our_tag, our_iv)
    }

    pub fn finish(&mut self, session: &mut Session) -> (u64, Vec<u8>, Vec<u8>) {
        let (tag_spare, iv_spare) = if self.random.one_in(2) { (0, 0) } else { (self.random.below(40), self.random.below(40)) };
        self.finish_in(session, SESSION_BYTES, 16 + tag_spare, 16 + iv_spare)
    }

    pub fn suspend_in(&mut self, session: &Session, session_len: usize, block_len: usize) -> (u64, Vec<u8>) {
        let (lent, mut block) = (self.lend_in("session", session, session_len), self.lend_output("block", block_len));
        let mut our_block = block.lent().to_vec();
        let expected = number(&calls::suspend(lent.lent(), &mut our_block));
        let found = unsafe { tulvekas_suspend(lent.read(), lent.len(), block.written(), block.len()) };
        self.compare("suspend", found, expected, &[(&lent, Left::Unchanged), (&block, Left::Bytes(&our_block))]);
        our_block.truncate(512);
        (found, our_block)
    }

    pub fn suspend(&mut self, session: &Session) -> [u8; 512] {
        let spare = if self.random.one_in(2) { 0 } else { self.random.below(40) };
        let (answer, block) = self.suspend_in(session, SESSION_BYTES, 512 + spare);
        self.expect("suspend", answer, 0);
        block.try_into().unwrap()
    }

    /// Gives the session, if accepted, and the written IV.
    pub fn resume_in(&mut self, key: &[u8], block: &[u8], session_len: usize, iv_len: usize) -> (u64, Option<Session>, Vec<u8>) {
        let (key, block) = (self.lend("key", key), self.lend("block", block));
        let (mut session, mut iv) = (self.lend_output("session", session_len), self.lend_output("iv", iv_len));
        let (mut ours, mut our_iv) = (session.lent().to_vec(), iv.lent().to_vec());
        let expected = number(&calls::resume(key.lent(), block.lent(), &mut ours, &mut our_iv));
        let found = unsafe {
            tulvekas_resume(key.read(), key.len(), block.read(), block.len(), session.written(), session.len(), iv.written(), iv.len())
        };
        let lent = [(&key, Left::Unchanged), (&block, Left::Unchanged), (&session, Left::Bytes(&ours)), (&iv, Left::Bytes(&our_iv))];
        self.compare("resume", found, expected, &lent);
        our_iv.truncate(16);
        (found, (found == 0).then(|| ours[..SESSION_BYTES].try_into().unwrap()), our_iv)
    }

    pub fn resume(&mut self, key: &[u8], block: &[u8]) -> (u64, Option<Session>, Vec<u8>) {
        let (session_spare, iv_spare) = if self.random.one_in(2) { (0, 0) } else { (self.random.below(40), self.random.below(40)) };
        self.resume_in(key, block, SESSION_BYTES + session_spare, 16 + iv_spare)
    }

    /// Suspends the session, resumes it and requires the very same one; gives the suspended block.
    pub fn suspend_and_resume(&mut self, key: &[u8], iv: &[u8], session: &Session) -> [u8; 512] {
        let block = self.suspend(session);
        let (answer, resumed, found_iv) = self.resume(key, &block);
        self.expect("resume", answer, 0);
        if resumed != Some(*session) || found_iv != iv {
            self.fail("resume", "not the session that was suspended".into());
        }
        block
    }

    /// Gives the written state, or what its buffer held, beside the answer.
    pub fn state_of_in(&mut self, block: &[u8], state_len: usize) -> (u64, Vec<u8>) {
        let (block, mut state) = (self.lend("block", block), self.lend_output("state", state_len));
        let mut our_state = state.lent().to_vec();
        let expected = number(&calls::state_of(block.lent(), &mut our_state));
        let found = unsafe { tulvekas_state_of(block.read(), block.len(), state.written(), state.len()) };
        self.compare("state_of", found, expected, &[(&block, Left::Unchanged), (&state, Left::Bytes(&our_state))]);
        our_state.truncate(STATE_BYTES);
        (found, our_state)
    }

    pub fn state_of(&mut self, block: &[u8]) -> (u64, Vec<u8>) {
        let spare = if self.random.one_in(2) { 0 } else { self.random.below(40) };
        self.state_of_in(block, STATE_BYTES + spare)
    }

    pub fn keystream(&mut self, key: &[u8], iv: &[u8], sealed: u64, out_len: usize) -> (u64, Vec<u8>) {
        let (key, iv) = (self.lend("key", key), self.lend("iv", iv));
        let mut out = self.lend_output("out", out_len);
        let mut our_out = out.lent().to_vec();
        let expected = number(&calls::keystream(key.lent(), iv.lent(), sealed, &mut our_out));
        let found = unsafe { tulvekas_keystream(key.read(), key.len(), iv.read(), iv.len(), sealed, out.written(), out.len()) };
        let lent = [(&key, Left::Unchanged), (&iv, Left::Unchanged), (&out, Left::Bytes(&our_out))];
        self.compare("keystream", found, expected, &lent);
        (found, our_out)
    }

    /// Gives the written state, or what its buffer held, beside the answer.
    pub fn start_in(&mut self, key: &[u8], iv: &[u8], sealed: u64, state_len: usize) -> (u64, Vec<u8>) {
        let (key, iv) = (self.lend("key", key), self.lend("iv", iv));
        let mut state = self.lend_output("state", state_len);
        let mut our_state = state.lent().to_vec();
        let expected = number(&calls::start(key.lent(), iv.lent(), sealed, &mut our_state));
        let found = unsafe { tulvekas_start(key.read(), key.len(), iv.read(), iv.len(), sealed, state.written(), state.len()) };
        let lent = [(&key, Left::Unchanged), (&iv, Left::Unchanged), (&state, Left::Bytes(&our_state))];
        self.compare("start", found, expected, &lent);
        our_state.truncate(STATE_BYTES);
        (found, our_state)
    }

    pub fn start(&mut self, key: &[u8], iv: &[u8], sealed: u64) -> Vec<u8> {
        let spare = if self.random.one_in(2) { 0 } else { self.random.below(40) };
        let (answer, state) = self.start_in(key, iv, sealed, STATE_BYTES + spare);
        self.expect("start", answer, 0);
        state
    }

    /// Moves the state, if accepted, and gives all that is left of the output beside the answer.
    pub fn run_in(&mut self, state: &mut Vec<u8>, n: u64, back: u64, out_len: usize) -> (u64, Vec<u8>) {
        let (mut lent, mut out) = (self.lend("state", state), self.lend_output("out", out_len));
        let (mut ours, mut our_out) = (lent.lent().to_vec(), out.lent().to_vec());
        let expected = number(&calls::run(&mut ours, n, back, &mut our_out));
        let found = unsafe { tulvekas_run(lent.written(), lent.len(), n, back, out.written(), out.len()) };
        let call = format!("run of {n}, back {back}");
        self.compare(&call, found, expected, &[(&lent, Left::Bytes(&ours)), (&out, Left::Bytes(&our_out))]);
        *state = ours;
        (found, our_out)
    }

    /// Gives the blocks of a run that is accepted.
    pub fn run(&mut self, state: &mut Vec<u8>, n: u64, back: u64) -> Vec<u8> {
        let spare = if self.random.one_in(2) { 0 } else { self.random.below(40) };
        let (answer, mut out) = self.run_in(state, n, back, 16 * n as usize + spare);
        self.expect("run", answer, 0);
        out.truncate(16 * n as usize);
        out
    }

    pub fn trace_in(&mut self, state: &[u8], key: &[u8], iv_len: usize, sealed_len: usize) -> (u64, Vec<u8>, Vec<u8>) {
        let (state, key) = (self.lend("state", state), self.lend("key", key));
        let (mut iv, mut sealed) = (self.lend_output("iv", iv_len), self.lend_output("sealed", sealed_len));
        let (mut our_iv, mut our_sealed) = (iv.lent().to_vec(), sealed.lent().to_vec());
        let expected = number(&calls::trace(state.lent(), key.lent(), &mut our_iv, &mut our_sealed));
        let found = unsafe {
            tulvekas_trace(state.read(), state.len(), key.read(), key.len(), iv.written(), iv.len(), sealed.written(), sealed.len())
        };
        let lent = [(&state, Left::Unchanged), (&key, Left::Unchanged), (&iv, Left::Bytes(&our_iv)), (&sealed, Left::Bytes(&our_sealed))];
        self.compare("trace", found, expected, &lent);
        (found, our_iv, our_sealed)
    }

    pub fn trace(&mut self, state: &[u8], key: &[u8]) -> (u64, Vec<u8>, Vec<u8>) {
        let (iv_spare, sealed_spare) = if self.random.one_in(2) { (0, 0) } else { (self.random.below(40), self.random.below(40)) };
        self.trace_in(state, key, 16 + iv_spare, 1 + sealed_spare)
    }

    /// Requires that a state is traced to this IV and mode.
    pub fn traced_to(&mut self, state: &[u8], key: &[u8], iv: &[u8], sealed: u8) {
        let (answer, found_iv, found_sealed) = self.trace(state, key);
        self.expect("trace", answer, 0);
        if found_iv[..16] != *iv || found_sealed[0] != sealed {
            self.fail("trace", "both find another IV or mode than the state was reached from".into());
        }
    }

    /// Gives what is left of the buffers for count, IV, mode and steps beside the answer.
    pub fn search_in(&mut self, dump: &[u8], key: &[u8], given: &Search) -> (u64, [Vec<u8>; 4]) {
        let Search { lowest, highest, .. } = *given;
        let (dump, key) = (self.lend("dump", dump), self.lend("key", key));
        let (mut count, mut iv) = (self.lend_output("count", given.count_len), self.lend_output("iv", given.iv_len));
        let (mut sealed, mut steps) = (self.lend_output("sealed", given.sealed_len), self.lend_output("steps", given.steps_len));
        let [mut our_count, mut our_iv, mut our_sealed, mut our_steps] = [&count, &iv, &sealed, &steps].map(|lent| lent.lent().to_vec());
        let expected =
            number(&calls::search(dump.lent(), key.lent(), lowest, highest, &mut our_count, &mut our_iv, &mut our_sealed, &mut our_steps));
        let found = unsafe {
            tulvekas_search(
                dump.read(),
                dump.len(),
                key.read(),
                key.len(),
                lowest,
                highest,
                count.written(),
                count.len(),
                iv.written(),
                iv.len(),
                sealed.written(),
                sealed.len(),
                steps.written(),
                steps.len(),
            )
        };
        self.compare(
            &format!("search from {lowest} to {highest}"),
            found,
            expected,
            &[
                (&dump, Left::Unchanged),
                (&key, Left::Unchanged),
                (&count, Left::Bytes(&our_count)),
                (&iv, Left::Bytes(&our_iv)),
                (&sealed, Left::Bytes(&our_sealed)),
                (&steps, if expected == 6 { Left::Anyway(&our_steps) } else { Left::Bytes(&our_steps) }),
            ],
        );
        (found, [our_count, our_iv, our_sealed, our_steps])
    }

    /// What a search in a range finds, or the number of the refusal and what its buffer for the steps begins with.
    pub fn search(&mut self, dump: &[u8], key: &[u8], lowest: u64, highest: u64) -> Result<Located, (u64, u64)> {
        let spare = if self.random.one_in(2) { [0; 4] } else { [0; 4].map(|_| self.random.below(40)) };
        let [count_len, iv_len, sealed_len, steps_len] = [8 + spare[0], 16 + spare[1], 1 + spare[2], 8 + spare[3]];
        let given = Search { lowest, highest, count_len, iv_len, sealed_len, steps_len };
        let (answer, [count, iv, sealed, steps]) = self.search_in(dump, key, &given);
        let first = |bytes: &[u8]| u64::from_le_bytes(bytes[..8].try_into().unwrap());
        if answer == 0 {
            Ok(Located { count: first(&count), iv: iv[..16].to_vec(), sealed: sealed[0], steps: first(&steps) })
        } else {
            Err((answer, first(&steps)))
        }
    }

    /// Requires that a search finds this count, IV and mode, after the steps that document 02 names.
    pub fn searched_to(&mut self, dump: &[u8], key: &[u8], range: (u64, u64), count: u64, iv: &[u8], sealed: u8) {
        let steps = count + 16 * (count - range.0 + 1);
        let located = self.search(dump, key, range.0, range.1);
        if located != Ok(Located { count, iv: iv.to_vec(), sealed, steps }) {
            self.fail("search", format!("from {} to {} both give {located:?}, the test expects count {count}", range.0, range.1));
        }
    }

    /// Requires that a search finds nothing, after the steps of the whole range.
    pub fn searched_in_vain(&mut self, dump: &[u8], key: &[u8], range: (u64, u64)) {
        let steps = range.1 + 16 * (range.1 - range.0 + 1);
        let located = self.search(dump, key, range.0, range.1);
        if located != Err((6, steps)) {
            self.fail("search", format!("from {} to {} both give {located:?}, the test expects 6", range.0, range.1));
        }
    }

    /// Gives what is left of the date's buffer beside the answer.
    pub fn date_in(&mut self, day: u64, date_len: usize) -> (u64, Vec<u8>) {
        let mut date = self.lend_output("date", date_len);
        let mut our_date = date.lent().to_vec();
        let expected = number(&calls::date(day, &mut our_date));
        let found = unsafe { tulvekas_date(day, date.written(), date.len()) };
        self.compare(&format!("date {day}"), found, expected, &[(&date, Left::Bytes(&our_date))]);
        (found, our_date)
    }

    /// The date of a day that has one.
    pub fn date(&mut self, day: u64) -> Date {
        let spare = if self.random.one_in(2) { 0 } else { self.random.below(40) };
        let (answer, date) = self.date_in(day, calls::DATE_BYTES + spare);
        self.expect("date", answer, 0);
        date_of(&date)
    }

    /// Gives what is left of the number's buffer beside the answer.
    pub fn day_in(&mut self, date: Date, number_len: usize) -> (u64, Vec<u8>) {
        let Date { year, month, day } = date;
        let mut lent = self.lend_output("number", number_len);
        let mut our_number = lent.lent().to_vec();
        let expected = number(&calls::day(year, month, day, &mut our_number));
        let found = unsafe { tulvekas_day(year, month, day, lent.written(), lent.len()) };
        self.compare(&format!("day {year} {month} {day}"), found, expected, &[(&lent, Left::Bytes(&our_number))]);
        (found, our_number)
    }

    /// The day of a date, or the number of the refusal.
    pub fn day(&mut self, date: Date) -> Result<u64, u64> {
        let spare = if self.random.one_in(2) { 0 } else { self.random.below(40) };
        let (answer, number) = self.day_in(date, calls::DAY_BYTES + spare);
        if answer == 0 {
            Ok(u64::from_le_bytes(number[..8].try_into().unwrap()))
        } else {
            Err(answer)
        }
    }

    pub fn kept(&mut self, today: u64, departure: u64, kept_len: usize) -> (u64, Vec<u8>) {
        let mut kept = self.lend_output("kept", kept_len);
        let mut our_kept = kept.lent().to_vec();
        let expected = number(&calls::kept(today, departure, &mut our_kept));
        let found = unsafe { tulvekas_kept(today, departure, kept.written(), kept.len()) };
        let call = format!("kept {today} {departure}");
        self.compare(&call, found, expected, &[(&kept, Left::Bytes(&our_kept))]);
        (found, our_kept)
    }

    /// Gives what is left of the date's buffer beside the answer.
    pub fn kept_until_in(&mut self, departure: u64, date_len: usize) -> (u64, Vec<u8>) {
        let mut date = self.lend_output("date", date_len);
        let mut our_date = date.lent().to_vec();
        let expected = number(&calls::kept_until(departure, &mut our_date));
        let found = unsafe { tulvekas_kept_until(departure, date.written(), date.len()) };
        self.compare(&format!("kept_until {departure}"), found, expected, &[(&date, Left::Bytes(&our_date))]);
        (found, our_date)
    }

    /// The last date on which a page of a good departure is kept.
    pub fn kept_until(&mut self, departure: u64) -> Date {
        let spare = if self.random.one_in(2) { 0 } else { self.random.below(40) };
        let (answer, date) = self.kept_until_in(departure, calls::DATE_BYTES + spare);
        self.expect("kept_until", answer, 0);
        date_of(&date)
    }

    /// Gives the file that is left beside the answer.
    pub fn file_seal(&mut self, given: &FileSeal, file: &[u8]) -> (u64, Vec<u8>) {
        let FileSeal { page, day, place, .. } = *given;
        let (key, stay, text) = (self.lend("key", given.key), self.lend("stay", given.stay), self.lend("text", given.text));
        let mut file = self.lend("file", file);
        let mut our_file = file.lent().to_vec();
        let expected = number(&calls::file_seal(key.lent(), stay.lent(), page, day, text.lent(), place, &mut our_file));
        let found = unsafe {
            tulvekas_file_seal(
                key.read(),
                key.len(),
                stay.read(),
                stay.len(),
                page,
                day,
                text.read(),
                text.len(),
                place,
                file.written(),
                file.len(),
            )
        };
        let call = format!("file_seal of page {page}, day {day}, place {place}");
        let lent = [(&key, Left::Unchanged), (&stay, Left::Unchanged), (&text, Left::Unchanged), (&file, Left::Bytes(&our_file))];
        self.compare(&call, found, expected, &lent);
        (found, our_file)
    }

    /// Gives what is left of the output and of the length's buffer beside the answer.
    pub fn file_open(&mut self, given: &FileOpen, file: &[u8]) -> (u64, Vec<u8>, Vec<u8>) {
        let page = given.page;
        let (key, stay, file) = (self.lend("key", given.key), self.lend("stay", given.stay), self.lend("file", file));
        let (mut out, mut length) = (self.lend_output("out", given.out_len), self.lend_output("length", given.length_len));
        let (mut our_out, mut our_length) = (out.lent().to_vec(), length.lent().to_vec());
        let expected = number(&calls::file_open(key.lent(), stay.lent(), page, file.lent(), &mut our_out, &mut our_length));
        let found = unsafe {
            tulvekas_file_open(
                key.read(),
                key.len(),
                stay.read(),
                stay.len(),
                page,
                file.read(),
                file.len(),
                out.written(),
                out.len(),
                length.written(),
                length.len(),
            )
        };
        self.compare(
            &format!("file_open of page {page}"),
            found,
            expected,
            &[
                (&key, Left::Unchanged),
                (&stay, Left::Unchanged),
                (&file, Left::Unchanged),
                (&out, Left::Bytes(&our_out)),
                (&length, Left::Bytes(&our_length)),
            ],
        );
        (found, our_out, our_length)
    }

    /// Gives the store that is left beside the answer.
    pub fn keys_store(&mut self, key: &[u8], iv: &[u8], stay_key: &[u8], store: &[u8]) -> (u64, Vec<u8>) {
        let (key, iv, stay_key) = (self.lend("key", key), self.lend("iv", iv), self.lend("stay_key", stay_key));
        let mut store = self.lend("store", store);
        let mut our_store = store.lent().to_vec();
        let expected = number(&calls::keys_store(key.lent(), iv.lent(), stay_key.lent(), &mut our_store));
        let found = unsafe {
            tulvekas_keys_store(key.read(), key.len(), iv.read(), iv.len(), stay_key.read(), stay_key.len(), store.written(), store.len())
        };
        let lent = [(&key, Left::Unchanged), (&iv, Left::Unchanged), (&stay_key, Left::Unchanged), (&store, Left::Bytes(&our_store))];
        self.compare("keys_store", found, expected, &lent);
        (found, our_store)
    }

    /// Gives what is left of the output beside the answer.
    pub fn keys_fetch_in(&mut self, key: &[u8], iv: &[u8], store: &[u8], out_len: usize) -> (u64, Vec<u8>) {
        let (key, iv, store) = (self.lend("key", key), self.lend("iv", iv), self.lend("store", store));
        let mut out = self.lend_output("out", out_len);
        let mut our_out = out.lent().to_vec();
        let expected = number(&calls::keys_fetch(key.lent(), iv.lent(), store.lent(), &mut our_out));
        let found =
            unsafe { tulvekas_keys_fetch(key.read(), key.len(), iv.read(), iv.len(), store.read(), store.len(), out.written(), out.len()) };
        let lent = [(&key, Left::Unchanged), (&iv, Left::Unchanged), (&store, Left::Unchanged), (&out, Left::Bytes(&our_out))];
        self.compare("keys_fetch", found, expected, &lent);
        (found, our_out)
    }

    /// Gives the written key, or what its buffer held, beside the answer.
    pub fn keys_fetch(&mut self, key: &[u8], iv: &[u8], store: &[u8]) -> (u64, Vec<u8>) {
        let spare = if self.random.one_in(2) { 0 } else { self.random.below(40) };
        let (answer, mut out) = self.keys_fetch_in(key, iv, store, 32 + spare);
        out.truncate(32);
        (answer, out)
    }

    /// Gives the store that is left beside the answer.
    pub fn keys_erase(&mut self, iv: &[u8], store: &[u8]) -> (u64, Vec<u8>) {
        let (iv, mut store) = (self.lend("iv", iv), self.lend("store", store));
        let mut our_store = store.lent().to_vec();
        let expected = number(&calls::keys_erase(iv.lent(), &mut our_store));
        let found = unsafe { tulvekas_keys_erase(iv.read(), iv.len(), store.written(), store.len()) };
        self.compare("keys_erase", found, expected, &[(&iv, Left::Unchanged), (&store, Left::Bytes(&our_store))]);
        (found, our_store)
    }

    /// Gives what is left of the buffer beside the answer.
    pub fn schedule_empty_in(&mut self, scheduler_len: usize) -> (u64, Vec<u8>) {
        let mut scheduler = self.lend_output("scheduler", scheduler_len);
        let mut ours = scheduler.lent().to_vec();
        let expected = number(&calls::schedule_empty(&mut ours));
        let found = unsafe { tulvekas_schedule_empty(scheduler.written(), scheduler.len()) };
        self.compare("schedule_empty", found, expected, &[(&scheduler, Left::Bytes(&ours))]);
        (found, ours)
    }

    pub fn schedule_empty(&mut self) -> Vec<u8> {
        let spare = if self.random.one_in(2) { 0 } else { self.random.below(40) };
        let (answer, mut scheduler) = self.schedule_empty_in(SCHEDULE_BYTES + spare);
        self.expect("schedule_empty", answer, 0);
        scheduler.truncate(SCHEDULE_BYTES);
        scheduler
    }

    pub fn schedule_join(&mut self, scheduler: &mut Vec<u8>, key: &[u8], iv: &[u8], length: u64) -> u64 {
        let (mut lent, key, iv) = (self.lend("scheduler", scheduler), self.lend("key", key), self.lend("iv", iv));
        let mut ours = lent.lent().to_vec();
        let expected = number(&calls::schedule_join(&mut ours, key.lent(), iv.lent(), length));
        let found = unsafe { tulvekas_schedule_join(lent.written(), lent.len(), key.read(), key.len(), iv.read(), iv.len(), length) };
        let left = [(&lent, Left::Bytes(&ours)), (&key, Left::Unchanged), (&iv, Left::Unchanged)];
        self.compare(&format!("schedule_join of {length} bytes"), found, expected, &left);
        *scheduler = ours;
        found
    }

    /// Gives what is left of the buffers for what was found, the IV and the length due beside the answer.
    pub fn schedule_next_in(&mut self, scheduler: &[u8], lengths: [usize; 3]) -> (u64, [Vec<u8>; 3]) {
        let scheduler = self.lend("scheduler", scheduler);
        let (mut found, mut iv, mut due) =
            (self.lend_output("found", lengths[0]), self.lend_output("iv", lengths[1]), self.lend_output("due", lengths[2]));
        let [mut our_found, mut our_iv, mut our_due] = [&found, &iv, &due].map(|lent| lent.lent().to_vec());
        let expected = number(&calls::schedule_next(scheduler.lent(), &mut our_found, &mut our_iv, &mut our_due));
        let answer = unsafe {
            tulvekas_schedule_next(
                scheduler.read(),
                scheduler.len(),
                found.written(),
                found.len(),
                iv.written(),
                iv.len(),
                due.written(),
                due.len(),
            )
        };
        self.compare(
            "schedule_next",
            answer,
            expected,
            &[(&scheduler, Left::Unchanged), (&found, Left::Bytes(&our_found)), (&iv, Left::Bytes(&our_iv)), (&due, Left::Bytes(&our_due))],
        );
        (answer, [our_found, our_iv, our_due])
    }

    /// The IV of the stay that comes next and the length of its piece, if anybody is there.
    pub fn schedule_next(&mut self, scheduler: &[u8]) -> Option<(Vec<u8>, u64)> {
        let spare = if self.random.one_in(2) { [0; 3] } else { [0; 3].map(|_| self.random.below(40)) };
        let (answer, [found, iv, due]) = self.schedule_next_in(scheduler, [1 + spare[0], 16 + spare[1], 8 + spare[2]]);
        self.expect("schedule_next", answer, 0);
        (found[0] == 1).then(|| (iv[..16].to_vec(), u64::from_le_bytes(due[..8].try_into().unwrap())))
    }

    /// Gives what is left of the buffers beside the answer.
    pub fn schedule_turn(&mut self, scheduler: &mut Vec<u8>, given: &Turn) -> (u64, Turned) {
        let (mut lent, piece) = (self.lend("scheduler", scheduler), self.lend("piece", given.piece));
        let (mut out, mut iv) = (self.lend_output("out", given.out_len), self.lend_output("iv", given.iv_len));
        let (mut turn, mut done) = (self.lend_output("turn", given.turn_len), self.lend_output("done", given.done_len));
        let mut tag = self.lend_output("tag", given.tag_len);
        let [mut ours, mut our_out, mut our_iv, mut our_turn, mut our_done, mut our_tag] =
            [&lent, &out, &iv, &turn, &done, &tag].map(|lent| lent.lent().to_vec());
        let expected =
            number(&calls::schedule_turn(&mut ours, piece.lent(), &mut our_out, &mut our_iv, &mut our_turn, &mut our_done, &mut our_tag));
        let found = unsafe {
            tulvekas_schedule_turn(
                lent.written(),
                lent.len(),
                piece.read(),
                piece.len(),
                out.written(),
                out.len(),
                iv.written(),
                iv.len(),
                turn.written(),
                turn.len(),
                done.written(),
                done.len(),
                tag.written(),
                tag.len(),
            )
        };
        self.compare(
            "schedule_turn",
            found,
            expected,
            &[
                (&lent, Left::Bytes(&ours)),
                (&piece, Left::Unchanged),
                (&out, Left::Bytes(&our_out)),
                (&iv, Left::Bytes(&our_iv)),
                (&turn, Left::Bytes(&our_turn)),
                (&done, Left::Bytes(&our_done)),
                (&tag, Left::Bytes(&our_tag)),
            ],
        );
        *scheduler = ours;
        (found, Turned { out: our_out, iv: our_iv, turn: our_turn, done: our_done, tag: our_tag })
    }
}
