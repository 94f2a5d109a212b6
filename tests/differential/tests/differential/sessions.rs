//! Sessions under lists of calls, accepted and refused ones.

use crate::tester::{Session, Tester, SESSION_BYTES};

/// A session beside what it was given and what it gave.
struct Page {
    key: [u8; 32],
    iv: [u8; 16],
    session: Session,
    data: Vec<u8>,
    text: Vec<u8>,
    cipher: Vec<u8>,
}

impl Page {
    fn begin(t: &mut Tester) -> Page {
        let (key, iv) = (t.random.secret::<32>(), t.random.secret::<16>());
        let session = t.begin(&key, &iv);
        Page { key, iv, session, data: Vec::new(), text: Vec::new(), cipher: Vec::new() }
    }

    /// Whether the data are closed: byte 0 of a session is its phase.
    fn late(&self) -> bool {
        self.session[0] != 0
    }

    fn data(&mut self, t: &mut Tester, piece: &[u8]) -> u64 {
        let answer = t.data(&mut self.session, piece);
        if answer == 0 {
            self.data.extend(piece);
        }
        answer
    }

    fn text(&mut self, t: &mut Tester, piece: &[u8]) -> u64 {
        let (answer, cipher) = t.text(&mut self.session, piece);
        if answer == 0 {
            self.text.extend(piece);
            self.cipher.extend(cipher);
        }
        answer
    }

    /// Finishes, requires the ciphertext and tag of the whole page and the IV that it began with, and that each call from then on is late.
    fn finish(mut self, t: &mut Tester) {
        if t.random.one_in(3) {
            let short = t.random.below(16);
            for (tag_len, iv_len) in [(short, 16), (16, short), (short, short)] {
                let answer = t.finish_in(&mut self.session, SESSION_BYTES, tag_len, iv_len).0;
                t.expect("finish", answer, 4);
            }
        }
        let (answer, tag, iv) = t.finish(&mut self.session);
        t.expect("finish", answer, 0);
        let (answer, cipher, whole_tag) = t.seal(&self.key, &self.iv, &self.data, &self.text, self.text.len(), 16);
        t.expect("seal", answer, 0);
        if cipher != self.cipher || whole_tag != tag {
            t.fail("finish", "both give another ciphertext or tag than the whole page has".into());
        }
        if iv != self.iv {
            t.fail("finish", "both give another IV than begin was handed".into());
        }
        let piece_len = t.random.below(40);
        let piece = t.random.bytes(piece_len);
        for _ in 0..2 {
            let answer = t.data(&mut self.session, &piece);
            t.expect("data", answer, 7);
            let answer = t.text(&mut self.session, &piece).0;
            t.expect("text", answer, 7);
            let answer = t.finish(&mut self.session).0;
            t.expect("finish", answer, 7);
            let answer = t.suspend_in(&self.session, SESSION_BYTES, 512).0;
            t.expect("suspend", answer, 7);
        }
    }

    /// One call, chosen at random.
    fn call(&mut self, t: &mut Tester, most: usize) {
        let len = t.random.length(most);
        let piece = t.random.bytes(len);
        match t.random.below(16) {
            0..=3 => {
                let late = self.late();
                let answer = self.data(t, &piece);
                t.expect("data", answer, if late { 7 } else { 0 });
            }
            4..=8 => {
                let answer = self.text(t, &piece);
                t.expect("text", answer, 0);
            }
            9 => {
                self.text(t, &[]);
            }
            10 => {
                self.data(t, &[]);
            }
            11 | 12 => {
                let (key, iv) = (self.key, self.iv);
                t.suspend_and_resume(&key, &iv, &self.session);
            }
            13 if len > 0 => {
                let short = if t.random.one_in(2) { len - 1 } else { t.random.below(len) };
                let answer = t.text_in(&mut self.session, SESSION_BYTES, &piece, short).0;
                t.expect("text", answer, 4);
            }
            14 => {
                let short = t.random.below(512);
                let answer = t.suspend_in(&self.session, SESSION_BYTES, short).0;
                t.expect("suspend", answer, 4);
            }
            15 if t.random.one_in(4) => {
                let over = vec![0x5a; 65_536 - self.data.len()];
                let late = self.late();
                let answer = self.data(t, &over);
                t.expect("data", answer, if late { 7 } else { 3 });
            }
            15 if t.random.one_in(20) => {
                let over = vec![0x5a; 1_048_577 - self.text.len()];
                let out_len = t.random.pick(&[0, 1, over.len() - 1, over.len()]);
                let answer = t.text_in(&mut self.session, SESSION_BYTES, &over, out_len).0;
                t.expect("text", answer, 3);
            }
            _ => {}
        }
        t.suspend(&self.session);
    }
}

/// Random lists of calls on short pages, where every state of a block is met often.
#[test]
fn lists_of_short_calls() {
    let mut t = Tester::new("lists of short calls");
    for _ in 0..t.rounds(12_000) {
        let mut page = Page::begin(&mut t);
        for _ in 0..t.random.below(24) {
            page.call(&mut t, 40);
        }
        page.finish(&mut t);
    }
    t.done();
}

#[test]
fn lists_of_long_calls() {
    let mut t = Tester::new("lists of long calls");
    for _ in 0..t.rounds(400) {
        let mut page = Page::begin(&mut t);
        for _ in 0..t.random.below(16) {
            page.call(&mut t, 4_000);
        }
        page.finish(&mut t);
    }
    t.done();
}

/// Up to the limits in several pieces: one byte more is refused at each cut, and the session goes on as if it had not been asked.
#[test]
fn sessions_up_to_the_limits() {
    let mut t = Tester::new("sessions up to the limits");
    for round in 0..t.rounds(8) {
        let mut page = Page::begin(&mut t);
        let source = t.random.bytes(1_048_577);
        let most_piece = [70_000, 9_000][round as usize % 2];
        while page.data.len() < 65_535 {
            let left = 65_535 - page.data.len();
            let answer = page.data(&mut t, &source[..left + 1]);
            t.expect("data", answer, 3);
            let len = if t.random.one_in(6) { left } else { (1 + t.random.below(most_piece)).min(left) };
            let answer = page.data(&mut t, &source[..len]);
            t.expect("data", answer, 0);
        }
        for (len, expected) in [(1, 3), (0, 0), (16, 3)] {
            let answer = page.data(&mut t, &source[..len]);
            t.expect("data", answer, expected);
        }
        let (key, iv) = (page.key, page.iv);
        t.suspend_and_resume(&key, &iv, &page.session);
        while page.text.len() < 1_048_576 {
            let left = 1_048_576 - page.text.len();
            let answer = page.text(&mut t, &source[..left + 1]);
            t.expect("text", answer, 3);
            let late = page.late();
            let answer = page.data(&mut t, &source[..1]);
            t.expect("data", answer, if late { 7 } else { 3 });
            let len = if t.random.one_in(6) { left } else { (1 + t.random.below(20 * most_piece)).min(left) };
            let answer = page.text(&mut t, &source[..len]);
            t.expect("text", answer, 0);
            t.suspend_and_resume(&key, &iv, &page.session);
        }
        for (len, expected) in [(1, 3), (0, 0), (16, 3)] {
            let answer = page.text(&mut t, &source[..len]);
            t.expect("text", answer, expected);
        }
        t.suspend_and_resume(&key, &iv, &page.session);
        page.finish(&mut t);
    }
    t.done();
}

/// Two sessions under one key, called in turn, do not meet.
#[test]
fn sessions_in_turn() {
    let mut t = Tester::new("sessions in turn");
    for _ in 0..t.rounds(300) {
        let mut first = Page::begin(&mut t);
        let mut second = Page::begin(&mut t);
        for _ in 0..t.random.below(20) {
            let page = if t.random.one_in(2) { &mut first } else { &mut second };
            page.call(&mut t, 100);
        }
        first.finish(&mut t);
        second.finish(&mut t);
    }
    t.done();
}
