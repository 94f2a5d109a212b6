//! One page cut everywhere, suspended and resumed everywhere.

use crate::tester::{Session, Tester};

/// What stands between two calls of a session.
#[derive(Clone, Copy)]
enum Between {
    Nothing,
    Suspend,
    SuspendAndResume,
}

struct Page {
    key: [u8; 32],
    iv: [u8; 16],
    data: Vec<u8>,
    text: Vec<u8>,
    cipher: Vec<u8>,
    tag: Vec<u8>,
}

impl Page {
    fn new(t: &mut Tester, data_len: usize, text_len: usize) -> Page {
        let (key, iv) = (t.random.secret::<32>(), t.random.secret::<16>());
        let (data, text) = (t.random.bytes(data_len), t.random.bytes(text_len));
        let (answer, cipher, tag) = t.seal(&key, &iv, &data, &text, text_len, 16);
        t.expect("seal", answer, 0);
        Page { key, iv, data, text, cipher, tag }
    }

    fn pause(&self, t: &mut Tester, session: &Session, between: Between) {
        match between {
            Between::Nothing => {}
            Between::Suspend => {
                t.suspend(session);
            }
            Between::SuspendAndResume => {
                t.suspend_and_resume(&self.key, &self.iv, session);
            }
        }
    }

    /// Seals the page with data and text cut at the places given, which are in order.
    fn seal_cut(&self, t: &mut Tester, data_cuts: &[usize], text_cuts: &[usize], between: Between) {
        let mut session = t.begin(&self.key, &self.iv);
        self.pause(t, &session, between);
        for piece in pieces(&self.data, data_cuts) {
            let answer = t.data(&mut session, piece);
            t.expect("data", answer, 0);
            self.pause(t, &session, between);
        }
        let mut cipher = Vec::new();
        for piece in pieces(&self.text, text_cuts) {
            let (answer, made) = t.text(&mut session, piece);
            t.expect("text", answer, 0);
            cipher.extend(made);
            self.pause(t, &session, between);
        }
        let (answer, tag, iv) = t.finish(&mut session);
        t.expect("finish", answer, 0);
        if cipher != self.cipher || tag != self.tag || iv != self.iv {
            t.fail("finish", format!("cut at {data_cuts:?} and {text_cuts:?}, both give another page than the whole one"));
        }
    }
}

fn pieces<'a>(bytes: &'a [u8], cuts: &'a [usize]) -> impl Iterator<Item = &'a [u8]> {
    let starts = std::iter::once(0).chain(cuts.iter().copied());
    let ends = cuts.iter().copied().chain(std::iter::once(bytes.len()));
    starts.zip(ends).map(move |(start, end)| &bytes[start..end])
}

const MOST: usize = 50;
const WAYS: [Between; 3] = [Between::Nothing, Between::Suspend, Between::SuspendAndResume];

/// Every length of data up to 50 cut in two at every place, and every length of text likewise.
#[test]
fn cut_in_two() {
    let mut t = Tester::new("cut in two");
    for len in 0..=MOST {
        for other in [0, 1, 15, 16, 17, 31, 32, 33, 50] {
            if !t.chosen() {
                continue;
            }
            let (of_data, of_text) = (Page::new(&mut t, len, other), Page::new(&mut t, other, len));
            for cut in 0..=len {
                for between in WAYS {
                    let other_cut = t.random.below(other + 1);
                    of_data.seal_cut(&mut t, &[cut], &[other_cut], between);
                    of_text.seal_cut(&mut t, &[other_cut], &[cut], between);
                }
            }
        }
    }
    t.done();
}

/// Data and text of 48, 49 and 50 bytes cut in three at every two places, empty pieces included.
#[test]
fn cut_in_three() {
    let mut t = Tester::new("cut in three");
    for len in [33, 48, 49, 50] {
        let page = Page::new(&mut t, len, len);
        for first in 0..=len {
            for second in first..=len {
                if t.chosen() {
                    page.seal_cut(&mut t, &[first, second], &[first, second], Between::Suspend);
                    page.seal_cut(&mut t, &[first], &[first, second], Between::SuspendAndResume);
                    page.seal_cut(&mut t, &[first, second], &[second], Between::SuspendAndResume);
                }
            }
        }
    }
    t.done();
}

/// Every pair of lengths up to 50, byte by byte.
#[test]
fn cut_everywhere() {
    let mut t = Tester::new("cut everywhere");
    for data_len in 0..=MOST {
        for text_len in 0..=MOST {
            if t.chosen() {
                let page = Page::new(&mut t, data_len, text_len);
                let (data_cuts, text_cuts): (Vec<_>, Vec<_>) = ((1..data_len).collect(), (1..text_len).collect());
                let between = WAYS[(data_len + text_len) % 3];
                page.seal_cut(&mut t, &data_cuts, &text_cuts, between);
            }
        }
    }
    t.done();
}

/// Random cut lists, empty pieces included, on longer pages.
#[test]
fn cut_at_random() {
    let mut t = Tester::new("cut at random");
    for _ in 0..t.rounds(1_500) {
        let (data_len, text_len) = (t.random.length(1_500), t.random.length(3_000));
        let page = Page::new(&mut t, data_len, text_len);
        for between in WAYS {
            let mut cuts = |len: usize| {
                let mut cuts: Vec<_> = (0..t.random.below(8)).map(|_| t.random.below(len + 1)).collect();
                cuts.sort_unstable();
                cuts
            };
            let (data_cuts, text_cuts) = (cuts(data_len), cuts(text_len));
            page.seal_cut(&mut t, &data_cuts, &text_cuts, between);
        }
    }
    t.done();
}
