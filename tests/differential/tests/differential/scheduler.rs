//! Schedulers: stays that are sealed in turns, over lists of calls, and schedulers whose bytes no call need have written. Beside the reference, a
//! turn is held to the calls of a session by itself, a stay's page to the whole page, and the order of turns to a queue.

use crate::arbitrary::{COUNTS, COUNT_AT};
use crate::library::tulvekas_schedule_join;
use crate::tester::{Session, Tester, Turn, Turned, SCHEDULE_BYTES, SESSION_BYTES};
use reference::calls;
use std::collections::VecDeque;

const HEAD: usize = 16;
const PLACE: usize = 256;
/// Where a place has the bytes left to seal, and its mark.
const LEFT: usize = 240;
const MARK: usize = 248;
const MOST_STAYS: usize = 32;
const MOST_PIECE: usize = 4_096;
const MOST_TEXT: usize = 1_048_576;
const MOST_TURNS: u64 = 1 << 62;

/// Lengths of texts, at the edges of a block and of a piece.
const TEXTS: [usize; 12] = [1, 2, 15, 16, 17, 100, 4_095, 4_096, 4_097, 8_191, 8_192, 20_000];

type Key = [u8; 32];
type Number = [u8; 16];

// ---- a scheduler's bytes, read and written by the table of the header

fn number_at(bytes: &[u8], at: usize) -> u64 {
    u64::from_le_bytes(bytes[at..at + 8].try_into().unwrap())
}

fn set_number(bytes: &mut [u8], at: usize, number: u64) {
    bytes[at..at + 8].copy_from_slice(&number.to_le_bytes());
}

/// Where a place begins.
fn place(i: usize) -> usize {
    HEAD + PLACE * i
}

/// How many places are in use.
fn in_use(bytes: &[u8]) -> usize {
    number_at(bytes, 8).min(MOST_STAYS as u64) as usize
}

fn session_at(bytes: &[u8], i: usize) -> Session {
    bytes[place(i)..][..SESSION_BYTES].try_into().unwrap()
}

fn iv_at(bytes: &[u8], i: usize) -> Number {
    bytes[place(i) + 224..][..16].try_into().unwrap()
}

fn left_at(bytes: &[u8], i: usize) -> u64 {
    number_at(bytes, place(i) + LEFT)
}

fn mark_at(bytes: &[u8], i: usize) -> u64 {
    number_at(bytes, place(i) + MARK)
}

/// The length of the piece that is due at a place.
fn due_at(bytes: &[u8], i: usize) -> usize {
    left_at(bytes, i).min(MOST_PIECE as u64) as usize
}

/// The place of the stay that comes next: the first of those with the lowest mark.
fn next_place(bytes: &[u8]) -> Option<usize> {
    let mut next = None;
    for i in 0..in_use(bytes) {
        if next.is_none_or(|best| mark_at(bytes, i) < mark_at(bytes, best)) {
            next = Some(i);
        }
    }
    next
}

/// Sets all that a place says.
fn set_place(bytes: &mut [u8], i: usize, session: &[u8], left: u64, mark: u64) {
    bytes[place(i)..][..SESSION_BYTES].copy_from_slice(session);
    set_number(bytes, place(i) + LEFT, left);
    set_number(bytes, place(i) + MARK, mark);
}

/// The bytes after the stay at a place has left.
fn without(bytes: &[u8], i: usize) -> Vec<u8> {
    let (mut after, end) = (bytes.to_vec(), place(in_use(bytes)));
    after.copy_within(place(i + 1)..end, place(i));
    after[end - PLACE..end].fill(0);
    set_number(&mut after, 8, in_use(bytes) as u64 - 1);
    after
}

// ---- the calls, each held to what a session by itself gives

fn holds(t: &Tester, call: &str, found: &[u8], expected: &[u8], what: &str) {
    if found != expected {
        t.fail(call, format!("both leave another {what} than the test expects"));
    }
}

/// Joins, and requires that a stay which is taken stands behind those in use, with the session that begin gives.
fn join(t: &mut Tester, bytes: &mut Vec<u8>, key: &[u8], iv: &[u8], length: u64) -> u64 {
    let before = bytes.clone();
    let answer = t.schedule_join(bytes, key, iv, length);
    let stays = in_use(&before);
    let expected = match () {
        () if key.len() != 32 => 1,
        () if iv.len() != 16 => 2,
        () if length == 0 || length > MOST_TEXT as u64 => 3,
        () if stays == MOST_STAYS => 19,
        () if (0..stays).any(|i| iv_at(&before, i) == iv) => 16,
        () => 0,
    };
    t.expect("schedule_join", answer, expected);
    let mut after = before;
    if answer == 0 {
        let (session, turns) = (t.begin(key, iv), number_at(&after, 0));
        set_number(&mut after, 8, stays as u64 + 1);
        set_place(&mut after, stays, &session, length, turns);
    }
    holds(t, "schedule_join", bytes, &after, "scheduler");
    answer
}

/// Asks who is next, and requires the one whom the bytes name.
fn next(t: &mut Tester, bytes: &[u8]) -> Option<(Number, usize)> {
    let named = t.schedule_next(bytes).map(|(iv, due)| (iv.try_into().unwrap(), due as usize));
    let expected = next_place(bytes).map(|i| (iv_at(bytes, i), due_at(bytes, i)));
    if named != expected {
        t.fail("schedule_next", "both name another stay or length than the test expects".into());
    }
    named
}

/// What a turn did.
struct Service {
    iv: Number,
    turn: u64,
    cipher: Vec<u8>,
    tag: Option<Vec<u8>>,
}

/// What a session's own call makes of the piece for the stay at a place: the session, and the ciphertext; or the answer that a turn must give.
fn by_itself(t: &mut Tester, bytes: &[u8], given: &Turn, i: usize) -> Result<(Session, Vec<u8>), u64> {
    if number_at(bytes, 0) >= MOST_TURNS {
        return Err(9);
    }
    if given.piece.len() != due_at(bytes, i) {
        return Err(3);
    }
    let mut session = session_at(bytes, i);
    match t.text_in(&mut session, SESSION_BYTES, given.piece, given.out_len) {
        (0, cipher) => Ok((session, cipher)),
        (refused, _) => Err(refused),
    }
}

/// Makes a turn, and requires what the calls of a session give for the stay that comes next.
fn turn(t: &mut Tester, bytes: &mut Vec<u8>, given: &Turn) -> Result<Option<Service>, u64> {
    let (before, served) = (bytes.clone(), next_place(bytes));
    let sealed = served.map(|i| by_itself(t, &before, given, i)).transpose();
    let room = given.iv_len >= 16 && given.turn_len >= 8 && given.done_len >= 1 && given.tag_len >= 16;
    let sealed = if room { sealed } else { sealed.and(Err(4)) };
    let (answer, turned) = t.schedule_turn(bytes, given);
    t.expect("schedule_turn", answer, sealed.as_ref().err().copied().unwrap_or(0));
    let Some((session, cipher)) = sealed? else {
        holds(t, "schedule_turn", bytes, &before, "scheduler");
        holds(t, "schedule_turn", &turned.turn[..8], &[0; 8], "number");
        holds(t, "schedule_turn", &turned.done[..1], &[0], "byte for done");
        return Ok(None);
    };
    Ok(Some(served_at(t, &before, bytes, served.unwrap(), (&session, cipher), &turned)))
}

/// Requires of an accepted turn all that it has left.
fn served_at(t: &mut Tester, before: &[u8], after: &[u8], i: usize, (session, cipher): (&Session, Vec<u8>), turned: &Turned) -> Service {
    let (turn, left) = (number_at(before, 0) + 1, left_at(before, i) - due_at(before, i) as u64);
    let mut expected = if left == 0 { without(before, i) } else { before.to_vec() };
    set_number(&mut expected, 0, turn);
    let mut tag = None;
    if left == 0 {
        let (answer, made, _) = t.finish(&mut session.clone());
        t.expect("finish", answer, 0);
        holds(t, "schedule_turn", &turned.tag[..16], &made, "tag");
        tag = Some(made);
    } else {
        set_number(&mut expected, 8, in_use(before) as u64);
        set_place(&mut expected, i, session, left, turn);
    }
    holds(t, "schedule_turn", after, &expected, "scheduler");
    holds(t, "schedule_turn", &turned.turn[..8], &turn.to_le_bytes(), "number");
    holds(t, "schedule_turn", &turned.done[..1], &[u8::from(left == 0)], "byte for done");
    holds(t, "schedule_turn", &turned.iv[..16], &iv_at(before, i), "IV");
    holds(t, "schedule_turn", &turned.out[..cipher.len()], &cipher, "ciphertext");
    Service { iv: iv_at(before, i), turn, cipher, tag }
}

/// A turn's buffers, at times longer than what is written.
fn roomy<'a>(t: &mut Tester, piece: &'a [u8]) -> Turn<'a> {
    let spare = if t.random.one_in(2) { [0; 5] } else { [0; 5].map(|_| t.random.below(40)) };
    Turn {
        piece,
        out_len: piece.len() + spare[0],
        iv_len: 16 + spare[1],
        turn_len: 8 + spare[2],
        done_len: 1 + spare[3],
        tag_len: 16 + spare[4],
    }
}

/// The same with one of the buffers that C adds too short, by one or of length 0.
fn cramped<'a>(t: &mut Tester, piece: &'a [u8]) -> Turn<'a> {
    let empty = t.random.one_in(2);
    let short = |len: usize| if empty { 0 } else { len - 1 };
    let given = roomy(t, piece);
    match t.random.below(4) {
        0 => Turn { iv_len: short(16), ..given },
        1 => Turn { turn_len: short(8), ..given },
        2 => Turn { done_len: 0, ..given },
        _ => Turn { tag_len: short(16), ..given },
    }
}

// ---- lists of calls from an empty scheduler on

/// A stay, and what a test knows of it by itself.
struct Guest {
    key: Key,
    iv: Number,
    text: Vec<u8>,
    cipher: Vec<u8>,
    /// The turns done at its joining or its last service.
    since: u64,
}

/// A scheduler, and who is there, the one who comes next in front: a joiner stands behind all, and so does whoever was served.
struct Saturday {
    bytes: Vec<u8>,
    queue: VecDeque<Guest>,
    turns: u64,
    /// The longest that anybody has waited for a turn.
    longest: u64,
}

impl Saturday {
    fn new(t: &mut Tester) -> Saturday {
        Saturday { bytes: t.schedule_empty(), queue: VecDeque::new(), turns: 0, longest: 0 }
    }

    fn has(&self, iv: &Number) -> bool {
        self.queue.iter().any(|guest| guest.iv == *iv)
    }

    /// A stay comes, with a text of its own.
    fn join(&mut self, t: &mut Tester, key: &Key, iv: &Number, len: usize) -> u64 {
        let answer = join(t, &mut self.bytes, key, iv, len as u64);
        let expected = match () {
            () if self.queue.len() == MOST_STAYS => 19,
            () if self.has(iv) => 16,
            () => 0,
        };
        t.expect("schedule_join", answer, expected);
        if answer == 0 {
            self.queue.push_back(Guest { key: *key, iv: *iv, text: t.random.bytes(len), cipher: vec![], since: self.turns });
        }
        answer
    }

    /// The stay at the front of the queue is the one that is named, and its piece is as long as is said.
    fn next(&self, t: &mut Tester) -> Option<&Guest> {
        let named = next(t, &self.bytes);
        let front = self.queue.front();
        let expected = front.map(|guest| (guest.iv, (guest.text.len() - guest.cipher.len()).min(MOST_PIECE)));
        if named != expected {
            t.fail("schedule_next", "both name another stay or length than stands in front of the queue".into());
        }
        front
    }

    /// The piece that is due; none, where nobody is there.
    fn piece(&self, t: &mut Tester) -> Vec<u8> {
        let due = self.next(t).map(|guest| guest.text[guest.cipher.len()..].iter().take(MOST_PIECE).copied().collect());
        due.unwrap_or_default()
    }

    /// A turn with the piece that is due. A stay that leaves has the ciphertext and the tag of its whole page.
    fn turn(&mut self, t: &mut Tester) -> Option<Number> {
        let piece = self.piece(t);
        let given = roomy(t, &piece);
        let service = match turn(t, &mut self.bytes, &given) {
            Ok(service) => service,
            Err(refused) => t.fail("schedule_turn", format!("refused {refused}, though the piece is due and there is room")),
        };
        let mut guest = self.queue.pop_front()?;
        let service = service.unwrap();
        self.turns += 1;
        if service.iv != guest.iv || service.turn != self.turns {
            t.fail("schedule_turn", "both serve another stay than stands in front of the queue, or give another number".into());
        }
        self.longest = self.longest.max(self.turns - guest.since);
        if self.longest > MOST_STAYS as u64 {
            t.fail("schedule_turn", format!("a stay has waited for {} turns", self.longest));
        }
        guest.cipher.extend(service.cipher);
        guest.since = self.turns;
        if guest.cipher.len() < guest.text.len() {
            self.queue.push_back(guest);
        } else {
            let (answer, cipher, tag) = t.seal(&guest.key, &guest.iv, &[], &guest.text, guest.text.len(), 16);
            t.expect("seal", answer, 0);
            if cipher != guest.cipher || Some(tag) != service.tag {
                t.fail("schedule_turn", "both give a stay another ciphertext or tag than the whole page has".into());
            }
        }
        Some(service.iv)
    }

    /// A turn that is refused where somebody is there: a piece of another length, a short output, or a short buffer of those that C adds, for
    /// which it is refused in any case.
    fn refused_turn(&mut self, t: &mut Tester) {
        let mut piece = self.piece(t);
        let (due, fault) = (piece.len(), t.random.below(3));
        if fault == 0 {
            piece.resize(t.random.pick(&[due + 1, due.saturating_sub(1), 2 * due + 1]), 7);
        }
        let mut given = if fault == 2 { cramped(t, &piece) } else { roomy(t, &piece) };
        if fault == 1 {
            given.out_len = if t.random.one_in(2) { due.saturating_sub(1) } else { t.random.below(due.max(1)) };
        }
        let expected = match fault {
            2 => 4,
            _ if due == 0 => 0,
            0 => 3,
            _ => 4,
        };
        let refused = turn(t, &mut self.bytes, &given).err();
        t.expect("schedule_turn", refused.unwrap_or(0), expected);
    }

    /// A join that is refused for a length.
    fn refused_join(&mut self, t: &mut Tester) {
        let (key, iv) = (t.random.array::<33>(), t.random.array::<17>());
        let key_len = t.random.pick(&[32, 32, 0, 31, 33]);
        let iv_len = t.random.pick(&[16, 16, 0, 15, 17]);
        let length = t.random.pick(&[0, MOST_TEXT as u64 + 1, 1 << 32, u64::MAX]);
        join(t, &mut self.bytes, &key[..key_len], &iv[..iv_len], length);
    }

    /// Turns until nobody is there; then the bytes are those of an empty scheduler that has done as many.
    fn all_leave(&mut self, t: &mut Tester) {
        while self.turn(t).is_some() {}
        let mut idle = vec![0; SCHEDULE_BYTES];
        set_number(&mut idle, 0, self.turns);
        holds(t, "schedule_turn", &self.bytes, &idle, "scheduler");
    }
}

/// So many IVs, no two of them the same, some of them one bit apart.
fn numbers(t: &mut Tester, n: usize) -> Vec<Number> {
    let mut all: Vec<Number> = vec![];
    while all.len() < n {
        let mut iv = t.random.secret();
        if let (Some(last), true) = (all.last(), t.random.one_in(3)) {
            iv = *last;
            iv[t.random.below(16)] ^= 1 << t.random.below(8);
        }
        if !all.contains(&iv) {
            all.push(iv);
        }
    }
    all
}

/// A length of text: mostly short, so that stays come and go.
fn length(t: &mut Tester) -> usize {
    match t.random.below(10) {
        0 => t.random.pick(&TEXTS),
        1 => 1 + t.random.below(10_000),
        _ => 1 + t.random.below(60),
    }
}

/// Lists of calls over few or many stays under one key or several: joins, turns, questions and refused calls in any order.
#[test]
fn random_calls_on_a_scheduler() {
    let mut t = Tester::new("random calls on a scheduler");
    for _ in 0..t.rounds(300) {
        let mut saturday = Saturday::new(&mut t);
        let (many, joins) = (2 + t.random.below(60), t.random.pick(&[1, 4, 9, 30]));
        let (named, key) = (numbers(&mut t, many), t.random.secret());
        for _ in 0..t.random.below(200) {
            let (iv, len) = (t.random.pick(&named), length(&mut t));
            let own = if t.random.one_in(2) { key } else { t.random.secret() };
            match t.random.below(joins + 6) {
                0 => saturday.refused_turn(&mut t),
                1 => saturday.refused_join(&mut t),
                2 => drop(saturday.next(&mut t)),
                3..6 => drop(saturday.turn(&mut t)),
                _ => drop(saturday.join(&mut t, &own, &iv, len)),
            }
        }
        saturday.all_leave(&mut t);
    }
    t.done();
}

/// Texts at the edges of a block and of a piece, in one scheduler, in several orders.
#[test]
fn texts_of_each_length() {
    let mut t = Tester::new("texts of each length");
    for round in 0..t.rounds(8) as usize {
        let (mut saturday, named) = (Saturday::new(&mut t), numbers(&mut t, TEXTS.len()));
        for (i, iv) in named.iter().enumerate() {
            let key = t.random.secret();
            let answer = saturday.join(&mut t, &key, iv, TEXTS[(5 * i + round) % TEXTS.len()]);
            t.expect("schedule_join", answer, 0);
        }
        saturday.all_leave(&mut t);
    }
    t.done();
}

/// Texts of as many bytes as a stay may have, with others that come and go beside them.
#[test]
fn texts_up_to_the_limit() {
    let mut t = Tester::new("texts up to the limit of a stay");
    if t.checked() {
        println!("texts up to the limit of a stay: left out, a memory checker would take too long");
        return;
    }
    for _ in 0..t.rounds(1) {
        let (mut saturday, named) = (Saturday::new(&mut t), numbers(&mut t, 6));
        let key = t.random.secret();
        for over in [0, MOST_TEXT as u64 + 1, MOST_TEXT as u64 + 4_096, 1 << 32, (1 << 32) + 1, 1 << 63, u64::MAX] {
            let answer = join(&mut t, &mut saturday.bytes, &key, &named[0], over);
            t.expect("schedule_join", answer, 3);
        }
        for (iv, len) in named.iter().zip([MOST_TEXT, MOST_TEXT - 1, MOST_TEXT - 4_095, MOST_TEXT - 4_097]) {
            saturday.join(&mut t, &key, iv, len);
        }
        while !saturday.queue.is_empty() {
            if t.random.one_in(40) {
                let (iv, len) = (t.random.pick(&named[4..]), length(&mut t));
                saturday.join(&mut t, &key, &iv, len);
            }
            saturday.turn(&mut t);
        }
    }
    t.done();
}

/// 32 stays: one more is refused until one has left; who joined last waits for 32 turns, and so does each that is served and stays.
#[test]
fn full_schedulers() {
    let mut t = Tester::new("full schedulers");
    for round in 0..t.rounds(12) {
        let (mut saturday, named) = (Saturday::new(&mut t), numbers(&mut t, 34));
        let key = t.random.secret();
        for (i, iv) in named.iter().enumerate() {
            let len = if round % 2 == 0 { length(&mut t) } else { 5_000 };
            let answer = saturday.join(&mut t, &key, iv, len);
            t.expect("schedule_join", answer, if i < MOST_STAYS { 0 } else { 19 });
        }
        // 19 comes before 16, and behind 1, 2 and 3.
        for iv in &named {
            let answer = saturday.join(&mut t, &key, iv, 9);
            t.expect("schedule_join", answer, 19);
        }
        let answers = [
            join(&mut t, &mut saturday.bytes, &key[1..], &named[0][1..], 0),
            join(&mut t, &mut saturday.bytes, &key, &named[0][1..], 0),
            join(&mut t, &mut saturday.bytes, &key, &named[0], 0),
        ];
        for (answer, expected) in answers.into_iter().zip([1, 2, 3]) {
            t.expect("schedule_join", answer, expected);
        }
        for _ in 0..MOST_STAYS {
            let served = saturday.turn(&mut t).unwrap();
            if !saturday.has(&served) {
                let present = saturday.queue[t.random.below(saturday.queue.len())].iv;
                let answer = saturday.join(&mut t, &key, &present, 9);
                t.expect("schedule_join", answer, 16);
                // Under its number another stay may come, behind all the others.
                let own = t.random.secret();
                let answer = saturday.join(&mut t, &own, &served, 5_000);
                t.expect("schedule_join", answer, 0);
            }
            let answer = saturday.join(&mut t, &key, &named[33], 9);
            t.expect("schedule_join", answer, 19);
        }
        for _ in 0..MOST_STAYS {
            saturday.turn(&mut t);
        }
        if saturday.longest != MOST_STAYS as u64 {
            t.fail("schedule_turn", format!("the longest wait is {} turns, the test expects 32", saturday.longest));
        }
        saturday.all_leave(&mut t);
    }
    t.done();
}

/// Who is next does not change by those who join.
#[test]
fn joiners_come_behind() {
    let mut t = Tester::new("joiners come behind");
    for _ in 0..t.rounds(40) {
        let (mut saturday, named) = (Saturday::new(&mut t), numbers(&mut t, MOST_STAYS));
        for iv in &named {
            let (key, len) = (t.random.secret(), 1 + t.random.below(9_000));
            let before = next(&mut t, &saturday.bytes);
            saturday.join(&mut t, &key, iv, len);
            let after = next(&mut t, &saturday.bytes);
            if before.is_some() && after != before {
                t.fail("schedule_join", "both name another stay than before somebody joined".into());
            }
            if t.random.one_in(3) {
                saturday.turn(&mut t);
            }
        }
    }
    t.done();
}

/// A stay of the lowest mark, the first of these, at each place of schedulers of each number of stays, with more to seal and with its last piece.
#[test]
fn every_place_served() {
    let mut t = Tester::new("every place served");
    let mut saturday = Saturday::new(&mut t);
    for iv in numbers(&mut t, MOST_STAYS) {
        let key = t.random.secret();
        saturday.join(&mut t, &key, &iv, 9);
    }
    for stays in 1..=MOST_STAYS {
        for first in 0..stays {
            for last in [false, true] {
                if !t.chosen() {
                    continue;
                }
                let mut bytes = saturday.bytes.clone();
                bytes[place(stays)..].fill(0);
                set_number(&mut bytes, 0, 50);
                set_number(&mut bytes, 8, stays as u64);
                for i in 0..stays {
                    let mark = 40 + u64::from(i != first) * t.random.below(3) as u64 + u64::from(i < first);
                    set_number(&mut bytes, place(i) + MARK, mark);
                    set_number(&mut bytes, place(i) + LEFT, if last { 5 } else { 5_000 });
                }
                assert_eq!(next_place(&bytes), Some(first));
                let piece = t.random.bytes(due_at(&bytes, first));
                let served = turn(&mut t, &mut bytes, &Turn::of(&piece));
                t.expect("schedule_turn", served.err().unwrap_or(0), 0);
                next(&mut t, &bytes);
            }
        }
    }
    t.done();
}

/// Turns done set to numbers at the edges: 2^62 is the last that is given, and behind it only a turn with nobody there is accepted.
#[test]
fn last_numbers_of_turns() {
    let mut t = Tester::new("last numbers of turns");
    let edges = [0, 1, (1 << 32) - 1, 1 << 32, MOST_TURNS - 2, MOST_TURNS - 1, MOST_TURNS, MOST_TURNS + 1, 1 << 63, u64::MAX - 1, u64::MAX];
    for _ in 0..t.rounds(12) {
        for turns in edges {
            let (mut bytes, key, named) = (t.schedule_empty(), t.random.secret::<32>(), numbers(&mut t, 4));
            set_number(&mut bytes, 0, turns);
            let idle = turn(&mut t, &mut bytes, &Turn::of(&[]));
            t.expect("schedule_turn", idle.err().unwrap_or(0), 0);
            for (iv, length) in named.iter().zip([5_000, 17, 4_096]) {
                let answer = join(&mut t, &mut bytes, &key, iv, length);
                t.expect("schedule_join", answer, 0);
            }
            for done in 0..4_u64 {
                let (_, due) = next(&mut t, &bytes).unwrap();
                let expected = if turns.saturating_add(done) >= MOST_TURNS { 9 } else { 0 };
                // 9 comes before 3 and before 4.
                for (len, out_len, iv_len) in [(due + 1, due, 16), (due - 1, due, 0), (due, 0, 16), (due, due, 16)] {
                    let piece = t.random.bytes(len);
                    let served = turn(&mut t, &mut bytes, &Turn { out_len, iv_len, ..Turn::of(&piece) });
                    let otherwise = if len != due { 3 } else { 4 * u64::from(out_len < due) };
                    t.expect("schedule_turn", served.err().unwrap_or(0), if expected == 9 { 9 } else { otherwise });
                }
                if in_use(&bytes) == 0 {
                    break;
                }
            }
            // A stay may join still, and leaves no other way than by turns.
            let answer = join(&mut t, &mut bytes, &key, &named[3], 1);
            t.expect("schedule_join", answer, 0);
        }
    }
    t.done();
}

/// A turn with nobody there takes any piece and any output, and asks for room for what C adds.
#[test]
fn turns_with_nobody_there() {
    let mut t = Tester::new("turns with nobody there");
    for round in 0..t.rounds(600) {
        let mut bytes = t.schedule_empty();
        if round % 2 == 1 {
            t.random.fill(&mut bytes[HEAD..]);
            bytes[..8].copy_from_slice(&t.random.array::<8>());
        }
        let piece_len = t.random.pick(&[0, 1, 17, 4_096, 4_097, 5_000]);
        let (piece, out_len) = (t.random.bytes(piece_len), t.random.pick(&[0, 1, 4_096, 5_000]));
        let given = Turn { out_len, ..roomy(&mut t, &piece) };
        let idle = turn(&mut t, &mut bytes, &given);
        t.expect("schedule_turn", idle.err().unwrap_or(0), 0);
        let given = Turn { out_len, ..cramped(&mut t, &piece) };
        let short = turn(&mut t, &mut bytes, &given);
        t.expect("schedule_turn", short.err().unwrap_or(0), 4);
        next(&mut t, &bytes);
    }
    t.done();
}

// ---- schedulers that no call need have written

/// A session by calls, some with a field at an edge, or whatever bytes.
fn any_session(t: &mut Tester) -> Session {
    let (key, iv) = (t.random.secret::<32>(), t.random.secret::<16>());
    let mut session = t.begin(&key, &iv);
    let piece_len = t.random.below(40);
    let piece = t.random.bytes(piece_len);
    match t.random.below(4) {
        0 => drop(t.data(&mut session, &piece)),
        1 | 2 => drop(t.text(&mut session, &piece)),
        _ => {}
    }
    match t.random.below(12) {
        0 => return t.random.array(),
        1 => session[0] = t.random.pick(&[0, 1, 2, 3, 255]),
        2 => t.random.fill(&mut session[1..8]),
        3 => {
            let near = MOST_TEXT as u64 + 20 - t.random.below(40) as u64;
            let text = t.random.pick(&[near, MOST_TEXT as u64 - 4_096, MOST_TEXT as u64 - 4_095, 1 << 32, u64::MAX]);
            set_number(&mut session, 16, text);
        }
        4 => {
            let near = 65_538 - t.random.below(300) as u64;
            let at_an_edge = t.random.pick(&COUNTS);
            let count = t.random.pick(&[near, at_an_edge]);
            set_number(&mut session, COUNT_AT, count);
        }
        _ => {}
    }
    session
}

/// Any bytes as a scheduler. What stands behind the places in use need not be zero.
fn made_up(t: &mut Tester) -> Vec<u8> {
    let mut bytes = if t.random.one_in(2) { vec![0; SCHEDULE_BYTES] } else { t.random.bytes(SCHEDULE_BYTES) };
    if t.random.one_in(20) {
        return bytes;
    }
    let few = t.random.below(60) as u64;
    let turns = t.random.pick(&[few, few, few, MOST_TURNS - 1, MOST_TURNS, u64::MAX]);
    let stays = t.random.below(34) as u64;
    let stays = t.random.pick(&[stays, stays, stays, 0, 1, 32, 33, 255, 256, 257, 1 << 32, 1 << 63, u64::MAX]);
    set_number(&mut bytes, 0, turns);
    set_number(&mut bytes, 8, stays);
    for i in 0..MOST_STAYS {
        if t.random.one_in(3) {
            continue;
        }
        let short = 1 + t.random.below(60) as u64;
        let left = t.random.pick(&[short, short, 0, 0, 4_095, 4_096, 4_097, MOST_TEXT as u64 + 1, 1 << 32, u64::MAX]);
        let low = t.random.below(4) as u64;
        let mark = t.random.pick(&[low, low, low, turns, turns.saturating_add(1), 1 << 32, 1 << 63, u64::MAX]);
        let session = any_session(t);
        set_place(&mut bytes, i, &session, left, mark);
    }
    bytes
}

/// A list of calls on any bytes of a scheduler's length.
fn list(t: &mut Tester, mut bytes: Vec<u8>, n: usize) {
    for _ in 0..n {
        match t.random.below(5) {
            0 => drop(next(t, &bytes)),
            1 => {
                let (key, place) = (t.random.secret::<32>(), t.random.below(MOST_STAYS));
                let iv = if t.random.one_in(2) { iv_at(&bytes, place) } else { t.random.secret() };
                let length = t.random.pick(&[1, 17, 90, 4_100]);
                join(t, &mut bytes, &key, &iv, length);
            }
            _ => {
                let due = next_place(&bytes).map_or(0, |i| due_at(&bytes, i));
                let len = if t.random.one_in(6) { t.random.pick(&[due + 1, due.saturating_sub(1), 0, 4_096]) } else { due };
                let piece = t.random.bytes(len);
                let given = if t.random.one_in(8) { cramped(t, &piece) } else { roomy(t, &piece) };
                let out_len = if t.random.one_in(8) { t.random.below(len + 1) } else { given.out_len };
                drop(turn(t, &mut bytes, &Turn { out_len, ..given }));
            }
        }
    }
}

/// Random bytes, some with numbers, sessions and marks at the edges, and with any number of stays.
#[test]
fn random_schedulers() {
    let mut t = Tester::new("random schedulers");
    for _ in 0..t.rounds(2_000) {
        let bytes = made_up(&mut t);
        list(&mut t, bytes, 10);
    }
    for byte in [0, 1, 2, 0x7f, 0x80, 0xff] {
        list(&mut t, vec![byte; SCHEDULE_BYTES], 10);
    }
    t.done();
}

/// Schedulers that calls have led to, with one byte changed.
#[test]
fn schedulers_with_a_changed_byte() {
    let mut t = Tester::new("schedulers with a changed byte");
    for _ in 0..t.rounds(200) {
        let (mut saturday, stays) = (Saturday::new(&mut t), t.random.pick(&[1, 2, 3, 31, 32]));
        for iv in numbers(&mut t, stays) {
            let (key, len) = (t.random.secret(), 1 + t.random.below(200));
            saturday.join(&mut t, &key, &iv, len);
            if t.random.one_in(4) {
                saturday.turn(&mut t);
            }
        }
        let used = place(in_use(&saturday.bytes));
        for round in 0..20 {
            let mut bytes = saturday.bytes.clone();
            let at = match round % 4 {
                0 => t.random.below(HEAD),
                1 => used.saturating_sub(1 + t.random.below(16)),
                2 => t.random.below(used),
                _ => t.random.below(SCHEDULE_BYTES),
            };
            bytes[at] = t.random.pick(&[0, 1, 2, 255, bytes[at] ^ 1, bytes[at] ^ 128]);
            list(&mut t, bytes, 4);
        }
    }
    t.done();
}

/// More than 32 stays are 32: the number that is written then is right, and the stays are all there.
#[test]
fn counts_over_32() {
    let mut t = Tester::new("counts over 32");
    let (mut saturday, key) = (Saturday::new(&mut t), t.random.secret());
    for (i, iv) in numbers(&mut t, MOST_STAYS).iter().enumerate() {
        saturday.join(&mut t, &key, iv, [5_000, 20][i % 2]);
    }
    for said in [32, 33, 34, 64, 255, 256, 288, 65_536, (1 << 32) + 1, 1 << 63, u64::MAX] {
        let mut bytes = saturday.bytes.clone();
        set_number(&mut bytes, 8, said);
        let (stranger, present) = (t.random.array::<16>(), iv_at(&bytes, 7));
        for iv in [stranger, present] {
            let answer = join(&mut t, &mut bytes, &key, &iv, 1);
            t.expect("schedule_join", answer, 19);
        }
        for stays in [32, 31] {
            let (_, due) = next(&mut t, &bytes).unwrap();
            let piece = t.random.bytes(due);
            let served = turn(&mut t, &mut bytes, &Turn::of(&piece));
            t.expect("schedule_turn", served.err().unwrap_or(0), 0);
            t.expect("stays", number_at(&bytes, 8), stays);
        }
        let answer = join(&mut t, &mut bytes, &key, &present, 1);
        t.expect("schedule_join", answer, 16);
        let answer = join(&mut t, &mut bytes, &key, &stranger, 1);
        t.expect("schedule_join", answer, 0);
    }
    t.done();
}

/// A stay with nothing left to seal: its piece is empty, and it leaves with its tag, unless its session takes no text.
#[test]
fn stays_with_nothing_left() {
    let mut t = Tester::new("stays with nothing left");
    for round in 0..t.rounds(300) {
        let (mut bytes, stays) = (t.schedule_empty(), 1 + t.random.below(4));
        for (i, iv) in numbers(&mut t, stays).iter().enumerate() {
            let key = t.random.secret::<32>();
            join(&mut t, &mut bytes, &key, iv, 30);
            if round % 3 > 0 {
                let session = any_session(&mut t);
                set_place(&mut bytes, i, &session, 30, 0);
            }
        }
        let empty = t.random.below(stays);
        set_number(&mut bytes, place(empty) + LEFT, 0);
        for _ in 0..stays {
            let Some((_, due)) = next(&mut t, &bytes) else {
                break;
            };
            let piece = t.random.bytes(due);
            for given in [cramped(&mut t, &piece), roomy(&mut t, &piece)] {
                drop(turn(&mut t, &mut bytes, &given));
            }
        }
    }
    t.done();
}

// ---- lengths

/// Bytes of another length are no scheduler, whatever they hold.
#[test]
fn lengths_of_schedulers() {
    let mut t = Tester::new("lengths of schedulers");
    let (mut whole, key, iv) = (t.schedule_empty(), t.random.array::<32>(), t.random.array::<16>());
    join(&mut t, &mut whole, &key, &iv, 9);
    let long = [&whole[..], &[0; 65_536]].concat();
    let piece = t.random.bytes(9);
    let around = SCHEDULE_BYTES - 20..SCHEDULE_BYTES + 20;
    for len in (0..=300).chain([512, 8_192]).chain(around).chain([8_464, 65_536, 2 * SCHEDULE_BYTES, 3 * SCHEDULE_BYTES]) {
        let is_one = len == SCHEDULE_BYTES;
        for bytes in [&vec![0; len], &long[..len]] {
            let somebody = len > 8 && bytes[8] == 1;
            let mut lent = bytes.to_vec();
            let answers = [
                (t.schedule_join(&mut lent.clone(), &key, &[7; 16], 1), 0),
                (t.schedule_join(&mut lent.clone(), &key[1..], &iv[1..], 0), 1),
                (t.schedule_join(&mut lent.clone(), &key, &iv, 1), if somebody { 16 } else { 0 }),
                (t.schedule_next_in(&lent, [1, 16, 8]).0, 0),
                (t.schedule_next_in(&lent, [0, 0, 0]).0, 4),
                (t.schedule_turn(&mut lent.clone(), &Turn { tag_len: 0, ..Turn::of(&piece[1..]) }).0, if somebody { 3 } else { 4 }),
                (t.schedule_turn(&mut lent, &Turn::of(&piece)).0, 0),
            ];
            for (answer, of_one) in answers {
                t.expect("a call on a scheduler of another length", answer, if is_one { of_one } else { 8 });
            }
        }
        let (answer, made) = t.schedule_empty_in(len);
        t.expect("schedule_empty", answer, if len < SCHEDULE_BYTES { 4 } else { 0 });
        if len >= SCHEDULE_BYTES {
            holds(&t, "schedule_empty", &made[..SCHEDULE_BYTES], &[0; SCHEDULE_BYTES], "scheduler");
        }
    }
    t.done();
}

/// Lengths of keys, IVs and of what is written over a wider range.
#[test]
fn lengths_at_a_scheduler() {
    let mut t = Tester::new("lengths at a scheduler");
    let (mut whole, key, iv) = (t.schedule_empty(), t.random.array::<32>(), t.random.array::<16>());
    join(&mut t, &mut whole, &key, &iv, 23);
    let empty = t.schedule_empty();
    for len in (0..=80).chain([255, 256, 257, 272, 288, 4_095, 4_096, 4_097, 65_535, 65_536, 65_552, 65_568]) {
        let bytes = t.random.bytes(len);
        let (fresh, piece) = (t.random.array::<16>(), t.random.bytes(23));
        let given = Turn::of(&piece);
        let short = |least: usize| if len < least { 4 } else { 0 };
        let answers = [
            (t.schedule_join(&mut whole.clone(), &bytes, &fresh, 1), if len == 32 { 0 } else { 1 }),
            (t.schedule_join(&mut whole.clone(), &key, &bytes, 1), if len == 16 { 0 } else { 2 }),
            (t.schedule_join(&mut whole.clone(), &bytes, &bytes, 1), if len == 32 { 2 } else { 1 }),
            (t.schedule_join(&mut whole.clone(), &key, &fresh, len as u64), if len == 0 { 3 } else { 0 }),
            (t.schedule_next_in(&whole, [len, 16, 8]).0, short(1)),
            (t.schedule_next_in(&whole, [1, len, 8]).0, short(16)),
            (t.schedule_next_in(&whole, [1, 16, len]).0, short(8)),
            (t.schedule_next_in(&empty, [1, len, len]).0, short(16)),
            (t.schedule_turn(&mut whole.clone(), &Turn { out_len: 23, ..Turn::of(&bytes) }).0, if len == 23 { 0 } else { 3 }),
            (t.schedule_turn(&mut whole.clone(), &Turn { out_len: len, ..given }).0, short(23)),
            (t.schedule_turn(&mut whole.clone(), &Turn { iv_len: len, ..given }).0, short(16)),
            (t.schedule_turn(&mut whole.clone(), &Turn { turn_len: len, ..given }).0, short(8)),
            (t.schedule_turn(&mut whole.clone(), &Turn { done_len: len, ..given }).0, short(1)),
            (t.schedule_turn(&mut whole.clone(), &Turn { tag_len: len, ..given }).0, short(16)),
            (t.schedule_turn(&mut empty.clone(), &Turn { iv_len: len, turn_len: len, ..Turn::of(&bytes) }).0, short(16)),
        ];
        for (answer, expected) in answers {
            t.expect("a call with a buffer of another length", answer, expected);
        }
    }
    t.done();
}

/// Buffers that are only read may overlap each other: the key and the IV from one run of bytes.
#[test]
fn overlapping_inputs_of_a_scheduler() {
    let mut t = Tester::new("overlapping inputs of a scheduler");
    for _ in 0..t.rounds(300) {
        let bytes = t.random.bytes(100);
        let (key, iv) = (t.random.below(68), t.random.below(84));
        let mut expected = vec![0; SCHEDULE_BYTES];
        calls::schedule_join(&mut expected, &bytes[key..key + 32], &bytes[iv..iv + 16], 9).unwrap();
        let (b, mut found, before) = (bytes.as_ptr(), vec![0; SCHEDULE_BYTES], bytes.clone());
        let answer = unsafe { tulvekas_schedule_join(found.as_mut_ptr(), found.len(), b.add(key), 32, b.add(iv), 16, 9) };
        t.count(answer);
        if answer != 0 || found != expected || bytes != before {
            t.fail("schedule_join", "another scheduler from overlapping inputs".into());
        }
    }
    t.done();
}
