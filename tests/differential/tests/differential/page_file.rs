//! Page files: pages sealed into their places, opened by stay and page number, and files that are damaged.

use crate::library::{tulvekas_file_open, tulvekas_file_seal};
use crate::tester::{FileOpen, FileSeal, Tester};
use reference::calls;
use reference::page;

const PAGE: usize = 512;
const MOST: usize = 474;
const LAST_DAY: u64 = 73_048;

/// Lengths of text at and beside the edges of blocks and of the page.
const LENGTHS: [usize; 14] = [0, 1, 2, 15, 16, 17, 31, 32, 255, 256, 464, 472, 473, 474];

type Stay = [u8; 12];

/// A page that was sealed.
#[derive(Clone)]
struct Sealed {
    stay: Stay,
    number: u32,
    text: Vec<u8>,
}

/// A file whose stays are as they must be, and its pages by place; `None` is all zero.
struct Good {
    key: [u8; 32],
    file: Vec<u8>,
    pages: Vec<Option<Sealed>>,
}

fn open<'a>(key: &'a [u8], stay: &'a [u8], page: u32, out_len: usize) -> FileOpen<'a> {
    FileOpen { key, stay, page, out_len, length_len: 8 }
}

/// The file with bytes written over it.
fn with(file: &[u8], at: usize, bytes: &[u8]) -> Vec<u8> {
    let mut file = file.to_vec();
    file[at..at + bytes.len()].copy_from_slice(bytes);
    file
}

/// A stay: mostly random, at times all zeros like that of an all-zero page, at times one bit off another.
fn stay(t: &mut Tester, near: &Stay) -> Stay {
    let mut stay = *near;
    match t.random.below(6) {
        0 => [0; 12],
        1 | 2 => {
            stay[t.random.below(12)] ^= 1 << t.random.below(8);
            stay
        }
        _ => t.random.array(),
    }
}

fn day(t: &mut Tester) -> u64 {
    match t.random.below(4) {
        0 => t.random.pick(&[0, 1, 255, 256, 65_535, 65_536, LAST_DAY - 1, LAST_DAY]),
        _ => t.random.below(LAST_DAY as usize + 1) as u64,
    }
}

fn text(t: &mut Tester) -> Vec<u8> {
    let len = if t.random.one_in(2) { t.random.pick(&LENGTHS) } else { t.random.below(MOST + 1) };
    let mut text = t.random.bytes(len);
    // Zeros at the end of a text are not padding.
    if t.random.one_in(4) {
        let from = t.random.below(len + 1);
        text[from..].fill(0);
    }
    text
}

/// A file of so many places, in which up to three stays' pages are sealed, in any order of the calls.
fn good(t: &mut Tester, places: usize) -> Good {
    let key = t.random.secret();
    let first = t.random.array();
    let second = stay(t, &first);
    let stays = [first, second, stay(t, &second)];
    let days = [day(t), day(t), day(t)];
    let mut pages: Vec<Option<(usize, Sealed)>> = vec![];
    for _ in 0..places {
        let of = t.random.below(4);
        // An all-zero page is page 0 of the zero stay on day 0, and no other page of that stay may stand beside it.
        let page = (of < 3 && stays[of] != [0; 12]).then(|| {
            let number = pages.iter().flatten().filter(|(_, page)| page.stay == stays[of]).count() as u32;
            (stays.iter().position(|stay| *stay == stays[of]).unwrap(), Sealed { stay: stays[of], number, text: text(t) })
        });
        pages.push(page);
    }
    let mut file = vec![0; PAGE * places];
    let mut order: Vec<usize> = (0..places).collect();
    for i in (1..places).rev() {
        order.swap(i, t.random.below(i + 1));
    }
    for place in order {
        if let Some((of, page)) = &pages[place] {
            let given = FileSeal { key: &key, stay: &page.stay, page: page.number, day: days[*of], text: &page.text, place: place as u64 };
            let (answer, after) = t.file_seal(&given, &file);
            t.expect("file_seal", answer, 0);
            let at = PAGE * place;
            if after[..at] != file[..at] || after[at + PAGE..] != file[at + PAGE..] {
                t.fail("file_seal", "another page has changed".into());
            }
            file = after;
        }
    }
    Good { key, file, pages: pages.into_iter().map(|page| page.map(|(_, page)| page)).collect() }
}

impl Good {
    /// Opens every page that was sealed, out of a file that may be damaged elsewhere, and requires its text.
    fn open_all(&self, t: &mut Tester) {
        for page in self.pages.iter().flatten() {
            let spare = if t.random.one_in(2) { 0 } else { t.random.below(40) };
            let len = page.text.len();
            let (answer, out, length) = t.file_open(&open(&self.key, &page.stay, page.number, len + spare), &self.file);
            t.expect("file_open", answer, 0);
            if out[..len] != page.text || length != (len as u64).to_le_bytes() {
                t.fail("file_open", "both give another text than was sealed".into());
            }
        }
    }

    /// Opens every page that was sealed, out of another file, and requires one answer.
    fn refused(&self, t: &mut Tester, file: &[u8], answer: u64) {
        for page in self.pages.iter().flatten() {
            let found = t.file_open(&open(&self.key, &page.stay, page.number, MOST), file).0;
            t.expect("file_open", found, answer);
        }
    }
}

/// A page that no seal of a file makes, with the tag that its 22 bytes in front and its whole text of 474 have.
fn forged(key: &[u8], head: &[u8], padded: &[u8]) -> Vec<u8> {
    let mut cipher = [0; MOST];
    let tag = page::seal(key, &head[..16], head, padded, &mut cipher).unwrap();
    [head, &cipher, &tag].concat()
}

/// The 22 bytes in front of a page.
fn head(stay: &Stay, number: u32, day: u32, len: u16) -> Vec<u8> {
    [&stay[..], &number.to_le_bytes(), &day.to_le_bytes(), &len.to_le_bytes()].concat()
}

/// The text with zeros behind it.
fn padded(text: &[u8]) -> Vec<u8> {
    let mut padded = text.to_vec();
    padded.resize(MOST, 0);
    padded
}

#[test]
fn files_of_random_pages() {
    let mut t = Tester::new("files of random pages");
    for _ in 0..t.rounds(4_000) {
        let places = t.random.below(7);
        let good = good(&mut t, places);
        good.open_all(&mut t);
        // What no page is: another stay, a page behind the last, an all-zero page, and another key.
        let stranger = t.random.array::<12>();
        let found = t.file_open(&open(&good.key, &stranger, 0, MOST), &good.file).0;
        t.expect("file_open", found, 14);
        let zeros = good.pages.iter().filter(|page| page.is_none()).count();
        let found = t.file_open(&open(&good.key, &[0; 12], 0, 0), &good.file).0;
        t.expect("file_open", found, if zeros == 1 { 5 } else { 14 });
        for page in good.pages.iter().flatten() {
            let count = good.pages.iter().flatten().filter(|other| other.stay == page.stay).count() as u32;
            let found = t.file_open(&open(&good.key, &page.stay, count, MOST), &good.file).0;
            t.expect("file_open", found, 14);
            let mut key = good.key;
            key[t.random.below(32)] ^= 1 << t.random.below(8);
            let found = t.file_open(&open(&key, &page.stay, page.number, MOST), &good.file).0;
            t.expect("file_open", found, 5);
        }
    }
    t.done();
}

/// Every length of text, and outputs and length buffers that are too short by one, exact and longer.
#[test]
fn pages_of_all_lengths() {
    let mut t = Tester::new("pages of all lengths in a file");
    for len in 0..=MOST + 3 {
        if !t.chosen() {
            continue;
        }
        let (key, stay, text) = (t.random.secret::<32>(), t.random.array::<12>(), t.random.bytes(len));
        let before = t.random.bytes(2 * PAGE);
        let given = FileSeal { key: &key, stay: &stay, page: 0, day: day(&mut t), text: &text, place: 1 };
        let (answer, mut file) = t.file_seal(&given, &before);
        t.expect("file_seal", answer, if len > MOST { 3 } else { 0 });
        if len > MOST {
            continue;
        }
        file[..PAGE].fill(0);
        for out_len in [len.saturating_sub(1), len, len + 1, MOST, MOST + 6] {
            for length_len in [0, 7, 8, 9] {
                let answer = t.file_open(&FileOpen { length_len, ..open(&key, &stay, 0, out_len) }, &file).0;
                t.expect("file_open", answer, if out_len < len || length_len < 8 { 4 } else { 0 });
            }
        }
    }
    t.done();
}

/// A page is sealed again and again, over what stood in its place, whatever that was.
#[test]
fn pages_sealed_over_others() {
    let mut t = Tester::new("pages sealed over others");
    for _ in 0..t.rounds(1_000) {
        let places = 1 + t.random.below(4);
        // A file that a seal does not look at: only its length counts.
        let mut file = t.random.bytes(PAGE * places);
        for _ in 0..4 {
            let (key, stay, text) = (t.random.secret::<32>(), t.random.secret::<12>(), text(&mut t));
            let (number, place) = (t.random.pick(&[0, 1, 255, 256, 65_536, u32::MAX - 1, u32::MAX]), t.random.below(places));
            let day = day(&mut t);
            let given = FileSeal { key: &key, stay: &stay, page: number, day, text: &text, place: place as u64 };
            let (answer, after) = t.file_seal(&given, &file);
            t.expect("file_seal", answer, 0);
            let front = head(&stay, number, day as u32, text.len() as u16);
            if after[PAGE * place..][..PAGE] != forged(&key, &front, &padded(&text)) {
                t.fail("file_seal", "both seal another page than the whole-page seal".into());
            }
            // One page alone is its stay's only if its number is 0.
            let alone = &after[PAGE * place..][..PAGE];
            let found = t.file_open(&open(&key, &stay, number, MOST), alone).0;
            t.expect("file_open", found, if number == 0 { 0 } else { 14 });
            t.file_open(&open(&key, &stay, number, MOST), &after);
            file = after;
        }
    }
    t.done();
}

/// Places in and past the file, and files of every other length.
#[test]
fn places_and_file_lengths() {
    let mut t = Tester::new("places and file lengths");
    let (key, stay, text) = (t.random.array::<32>(), t.random.array::<12>(), t.random.bytes(37));
    let mut lengths: Vec<usize> = vec![0, 1, 2, 16, 256, 511, 512, 513, 1_023, 1_024, 1_025, 1_535, 1_536, 1_537, 2_048, 2_560, 3_072];
    lengths.extend((0..64).map(|shift| 512 + shift * 16 + 8));
    for len in lengths {
        let file = t.random.bytes(len);
        let pages = (len / PAGE) as u64;
        let mut places = vec![0, 1, pages.saturating_sub(1), pages, pages + 1];
        for shift in [8, 16, 23, 31, 32, 48, 54, 55, 56, 63] {
            places.extend([(1 << shift) - 1, 1 << shift, (1 << shift) + 1]);
        }
        places.extend([u64::MAX - pages, u64::MAX - 1, u64::MAX]);
        for place in places {
            let given = FileSeal { key: &key, stay: &stay, page: 0, day: 9_000, text: &text, place };
            let (answer, after) = t.file_seal(&given, &file);
            let held = len % PAGE == 0 && place < pages;
            t.expect("file_seal", answer, if held { 0 } else { 13 });
            if held {
                let from = PAGE * place as usize;
                let alone = t.file_open(&open(&key, &stay, 0, 37), &after[from..from + PAGE]).0;
                t.expect("file_open", alone, 0);
            }
        }
        let answer = t.file_open(&open(&key, &stay, 0, 37), &file).0;
        if len % PAGE != 0 {
            t.expect("file_open", answer, 13);
        }
        let answer = t.file_open(&open(&key, &stay, 0, 37), &vec![0; len]).0;
        t.expect("file_open", answer, if len % PAGE != 0 { 13 } else { 14 });
    }
    t.done();
}

/// Every bit of the page that is opened, and of the others, by itself.
#[test]
fn every_bit_flipped() {
    let mut t = Tester::new("every bit of a file flipped");
    let (key, one, other) = (t.random.array::<32>(), t.random.array::<12>(), t.random.array::<12>());
    let mut file = vec![0; 4 * PAGE];
    // Day 9000 is below 65,536 and 73,048 is not: a flipped bit takes one out of range and leaves the other within it.
    let pages = [(one, 0, 9_000, 16), (other, 0, LAST_DAY, 473), (one, 1, 9_000, 0)];
    for (place, (stay, page, day, len)) in (0..).zip(pages) {
        let text = t.random.bytes(len);
        file = t.file_seal(&FileSeal { key: &key, stay: &stay, page, day, text: &text, place }, &file).1;
    }
    for bit in 0..8 * file.len() {
        let (place, byte) = (bit / (8 * PAGE), bit / 8 % PAGE);
        // Ciphertexts and tags of other pages are not read, and a few of those bits tell as much as all.
        let opened = [(one, 0, 0), (other, 0, 1), (one, 1, 2), ([0; 12], 0, 3)];
        for (stay, page, at) in opened {
            if byte >= 22 && at != place && !bit.is_multiple_of(37) || !t.chosen() {
                continue;
            }
            let flipped = with(&file, bit / 8, &[file[bit / 8] ^ 1 << (bit % 8)]);
            let number = |from: usize, to: usize| (from..to).rev().fold(0, |n, at| 256 * n + u64::from(flipped[PAGE * place + at]));
            let answer = t.file_open(&open(&key, &stay, page, MOST), &flipped).0;
            // A page that leaves its stay is missed, but not at its end by the pages before it; a stay of one page has one day.
            let broken = match byte {
                0..=11 => (place, at) != (2, 0),
                12..=15 => true,
                16..=19 => place % 2 == 0,
                _ => false,
            };
            let expected = match () {
                _ if number(20, 22) > MOST as u64 || number(16, 20) > LAST_DAY => 13,
                _ if broken && file[PAGE * place..][..12] == stay => 14,
                _ if at == place || at == 3 => 5,
                _ => 0,
            };
            t.expect("file_open", answer, expected);
        }
    }
    t.done();
}

/// Lengths and days at the edges, stored in each page of a file: every page of every stay is refused with 13 where one is out of range.
#[test]
fn stored_lengths_and_days() {
    let mut t = Tester::new("stored lengths and days");
    let lengths = [474, 475, 476, 511, 512, 730, 731, 986, 0x2_00, 0x7f_ff, 0x80_00, 0x80_10, 0xff_00, 0xff_ff];
    let mut days = vec![73_048, 73_049, 73_050, 73_088, 74_000, 1 << 17, (1 << 17) + 7_512, 1 << 24, 1 << 31, u32::MAX - 1, u32::MAX];
    days.extend([1_u32 << 18, (1 << 24) + 9_000, (1 << 31) + 9_000, 0x8000_0000 | 73_048]);
    for _ in 0..t.rounds(20) {
        let places = 1 + t.random.below(6);
        let good = good(&mut t, places);
        for place in 0..places {
            for len in lengths {
                let file = with(&good.file, PAGE * place + 20, &u16::to_le_bytes(len));
                if len > 474 {
                    good.refused(&mut t, &file, 13);
                    let stranger = t.random.array::<12>();
                    let found = t.file_open(&open(&good.key, &stranger, 7, 0), &file).0;
                    t.expect("file_open", found, 13);
                } else {
                    t.file_open(&open(&good.key, &[0; 12], 0, MOST), &file);
                }
            }
            for day in &days {
                let file = with(&good.file, PAGE * place + 16, &day.to_le_bytes());
                if u64::from(*day) > LAST_DAY {
                    good.refused(&mut t, &file, 13);
                    let found = t.file_open(&open(&good.key, &[0; 12], 0, 0), &file).0;
                    t.expect("file_open", found, 13);
                } else {
                    for page in good.pages.iter().flatten() {
                        t.file_open(&open(&good.key, &page.stay, page.number, MOST), &file);
                    }
                }
            }
        }
    }
    t.done();
}

/// All files of up to five pages out of six: pages 0, 1 and 2 of one stay, its page 1 on another day, page 0 of another stay, and zeros.
#[test]
fn all_orders_of_pages() {
    let mut t = Tester::new("all orders of pages");
    let (key, one, other) = (t.random.array::<32>(), t.random.array::<12>(), t.random.array::<12>());
    let kinds = [(one, 0, 9_000), (one, 1, 9_000), (one, 2, 9_000), (one, 1, 9_001), (other, 0, 9_001), ([0; 12], 0, 0)];
    let mut pages = vec![];
    for (stay, page, day) in kinds {
        let text = text(&mut t);
        let sealed = t.file_seal(&FileSeal { key: &key, stay: &stay, page, day, text: &text, place: 0 }, &[0; PAGE]).1;
        pages.push(if stay == [0; 12] { vec![0; PAGE] } else { sealed });
    }
    for places in 0..=5 {
        for which in 0..6_usize.pow(places) {
            if !t.chosen() {
                continue;
            }
            let of_places: Vec<usize> = (0..places).map(|place| which / 6_usize.pow(place) % 6).collect();
            let file: Vec<u8> = of_places.iter().flat_map(|kind| pages[*kind].clone()).collect();
            for (stay, page) in [(one, 0), (one, 1), (one, 2), (one, 3), (other, 0), (other, 1), ([0; 12], 0)] {
                let answer = t.file_open(&open(&key, &stay, page, MOST), &file).0;
                let of_stay: Vec<_> = of_places.iter().map(|kind| kinds[*kind]).filter(|kind| kind.0 == stay).collect();
                let running = of_stay.iter().enumerate().all(|(i, kind)| kind.1 as usize == i);
                let one_day = of_stay.windows(2).all(|pair| pair[0].2 == pair[1].2);
                let expected = match () {
                    _ if !running || !one_day || page as usize >= of_stay.len() => 14,
                    _ if stay == [0; 12] => 5,
                    _ => 0,
                };
                t.expect("file_open", answer, expected);
            }
        }
    }
    t.done();
}

/// Padding that is not zero under a right tag, at each place of it, and texts that end with zeros.
#[test]
fn padding_that_is_not_zero() {
    let mut t = Tester::new("padding that is not zero");
    for len in [0, 1, 15, 16, 17, 100, 464, 472, 473, 474] {
        let (key, stay) = (t.random.array::<32>(), t.random.array::<12>());
        let (text, day) = (t.random.bytes(len), day(&mut t));
        let front = head(&stay, 0, day as u32, len as u16);
        let zeros = vec![0; PAGE * t.random.below(3)];
        for at in 0..MOST {
            if !t.chosen() {
                continue;
            }
            let mut whole = padded(&text);
            whole[at] ^= 1 << t.random.below(8);
            let mut file = [&zeros[..], &forged(&key, &front, &whole)].concat();
            let (answer, out, _) = t.file_open(&open(&key, &stay, 0, len), &file);
            t.expect("file_open", answer, if at < len { 0 } else { 13 });
            if at < len && out != whole[..len] {
                t.fail("file_open", "both give another text than was sealed".into());
            }
            let last = file.len() - 1 - t.random.below(16);
            file[last] ^= 0x40;
            let length_len = t.random.below(10);
            let answer = t.file_open(&FileOpen { length_len, ..open(&key, &stay, 0, len) }, &file).0;
            t.expect("file_open", answer, 5);
        }
        for _ in 0..20 {
            let noise = [&text[..], &t.random.bytes(MOST - len)].concat();
            let file = forged(&key, &front, &noise);
            t.file_open(&open(&key, &stay, 0, len), &file);
            t.file_open(&FileOpen { length_len: 7, ..open(&key, &stay, 0, len) }, &file);
        }
        // A stored length or day out of range is 13 under a right tag as well.
        for head in [head(&stay, 0, 73_049, len as u16), head(&stay, 0, day as u32, 475)] {
            let answer = t.file_open(&open(&key, &stay, 0, MOST), &forged(&key, &head, &padded(&text))).0;
            t.expect("file_open", answer, 13);
        }
    }
    t.done();
}

/// Pages dropped, doubled, moved, cut off and put in front; two pages' parts put together.
#[test]
fn damaged_files() {
    let mut t = Tester::new("damaged files");
    for _ in 0..t.rounds(1_500) {
        let places = 1 + t.random.below(6);
        let good = good(&mut t, places);
        let mut pages: Vec<&[u8]> = good.file.chunks(PAGE).collect();
        let (one, other) = (t.random.below(places), t.random.below(places));
        match t.random.below(5) {
            0 => drop(pages.remove(one)),
            1 => pages.insert(other, pages[one]),
            2 => pages.swap(one, other),
            3 => pages[other] = pages[one],
            _ => pages.reverse(),
        }
        let mut file = pages.concat();
        match t.random.below(8) {
            0 => file.truncate(t.random.below(file.len() + 1)),
            1 => file.push(0),
            2 => file = [&t.random.bytes(PAGE)[..], &file].concat(),
            3 if file.len() >= 2 * PAGE => {
                let cut = t.random.below(PAGE);
                let (from, to) = (t.random.below(file.len() / PAGE), t.random.below(file.len() / PAGE));
                let part = file[PAGE * from + cut..PAGE * (from + 1)].to_vec();
                file[PAGE * to + cut..PAGE * (to + 1)].copy_from_slice(&part);
            }
            _ => {}
        }
        for page in good.pages.iter().flatten() {
            t.file_open(&open(&good.key, &page.stay, page.number, MOST), &file);
            t.file_open(&open(&good.key, &page.stay, page.number + 1, MOST), &file);
        }
        t.file_open(&open(&good.key, &[0; 12], 0, 0), &file);
    }
    t.done();
}

/// Headers out of a few stays, numbers, days and lengths, good and not, over random bytes or a right page.
#[test]
fn random_headers() {
    let mut t = Tester::new("random headers");
    for _ in 0..t.rounds(12_000) {
        let key = t.random.secret::<32>();
        let first = t.random.array();
        let stays = [first, stay(&mut t, &first)];
        let days = [day(&mut t) as u32, day(&mut t) as u32, 73_049];
        let (mut file, mut counts) = (vec![], [0; 2]);
        for _ in 0..t.random.below(6) {
            let which = t.random.pick(&[0, 0, 0, 1]);
            let number = if t.random.one_in(8) { t.random.below(4) as u32 } else { counts[which] };
            counts[which] += 1;
            let day = if t.random.one_in(12) { t.random.pick(&days) } else { days[0] };
            let len = if t.random.one_in(20) { 475 } else { t.random.below(475) } as u16;
            let head = head(&stays[which], number, day, len);
            let page = if t.random.one_in(4) {
                [head, t.random.bytes(PAGE - 22)].concat()
            } else {
                let text = t.random.bytes(usize::from(len).min(MOST));
                forged(&key, &head, &padded(&text))
            };
            file.extend(page);
        }
        for stay in &stays {
            for page in 0..3 {
                let (out_len, length_len) = (t.random.pick(&[MOST, MOST, 200]), t.random.pick(&[8, 8, 8, 7]));
                t.file_open(&FileOpen { length_len, ..open(&key, stay, page, out_len) }, &file);
            }
        }
    }
    t.done();
}

/// Page numbers beyond a byte, and beyond two: the pages of a stay still have to run.
#[test]
fn long_files() {
    let mut t = Tester::new("long files");
    if t.checked() {
        println!("long files: left out, a memory checker would take too long");
        return;
    }
    for (pages, rounds) in [(300_u32, 40), (65_540, 1)] {
        let (key, stay) = (t.random.array::<32>(), t.random.array::<12>());
        let mut file = vec![0; PAGE * (pages as usize + 1)];
        let mut place = |number: u32, page: &[u8]| file[PAGE * number as usize..][..PAGE].copy_from_slice(page);
        let sealed = [0, 1, 255, 256, 257, pages - 5, pages - 4, pages - 1];
        for number in 0..pages {
            let head = head(&stay, number, 9_000, 0);
            // Of a page that is not opened only the header counts.
            let page = if sealed.contains(&number) { forged(&key, &head, &[0; MOST]) } else { [&head[..], &[7; PAGE - 22]].concat() };
            place(number, &page);
        }
        for number in sealed {
            let answer = t.file_open(&open(&key, &stay, number, 0), &file).0;
            t.expect("file_open", answer, 0);
        }
        for number in [pages, pages + 1, 65_536, 1 << 31, u32::MAX - pages, u32::MAX].into_iter().filter(|number| *number >= pages) {
            let answer = t.file_open(&open(&key, &stay, number, 0), &file).0;
            t.expect("file_open", answer, 14);
        }
        let answer = t.file_open(&open(&key, &[0; 12], 0, 0), &file).0;
        t.expect("file_open", answer, 5);
        for _ in 0..rounds {
            let (wrong, by) = (t.random.below(pages as usize), t.random.pick(&[1, 256, 1 << 16, 1 << 31]));
            let damaged = with(&file, PAGE * wrong + 12, &(wrong as u32 ^ by).to_le_bytes());
            let answer = t.file_open(&open(&key, &stay, 1, 0), &damaged).0;
            t.expect("file_open", answer, 14);
            let damaged = with(&file, PAGE * wrong + 16, &9_001_u32.to_le_bytes());
            let answer = t.file_open(&open(&key, &stay, pages - 1, 0), &damaged).0;
            t.expect("file_open", answer, 14);
            let damaged = with(&file, PAGE * wrong + 20, &475_u16.to_le_bytes());
            let answer = t.file_open(&open(&key, &stay, 1, 0), &damaged).0;
            t.expect("file_open", answer, 13);
        }
        let given = FileSeal { key: &key, stay: &stay, page: pages, day: 9_000, text: &[1; 3], place: u64::from(pages) };
        let (answer, file) = t.file_seal(&given, &file);
        t.expect("file_seal", answer, 0);
        let answer = t.file_open(&open(&key, &stay, pages, 3), &file).0;
        t.expect("file_open", answer, 0);
        let (answer, _) = t.file_seal(&FileSeal { place: u64::from(pages) + 1, ..given }, &file);
        t.expect("file_seal", answer, 13);
    }
    t.done();
}

/// Lengths of keys and stays over a wider range.
#[test]
fn lengths_of_keys_and_stays() {
    let mut t = Tester::new("lengths of keys and stays");
    let (key, stay, text) = (t.random.array::<32>(), t.random.array::<12>(), t.random.bytes(23));
    let given = FileSeal { key: &key, stay: &stay, page: 0, day: 9_000, text: &text, place: 0 };
    let file = t.file_seal(&given, &[0; PAGE]).1;
    for len in (0..=80).chain([255, 256, 257, 268, 288, 65_535, 65_536, 65_548, 65_568]) {
        let bytes = t.random.bytes(len);
        let answers = [
            (t.file_seal(&FileSeal { key: &bytes, ..given }, &file).0, if len == 32 { 0 } else { 1 }),
            (t.file_seal(&FileSeal { stay: &bytes, ..given }, &file).0, if len == 12 { 0 } else { 2 }),
            (t.file_seal(&FileSeal { text: &bytes, ..given }, &file).0, if len > MOST { 3 } else { 0 }),
            (t.file_open(&open(&bytes, &stay, 0, 23), &file).0, if len == 32 { 5 } else { 1 }),
            (t.file_open(&open(&key, &bytes, 0, 23), &file).0, if len == 12 { 14 } else { 2 }),
            (t.file_open(&open(&key, &stay, 0, len), &file).0, if len < 23 { 4 } else { 0 }),
            (t.file_open(&FileOpen { length_len: len, ..open(&key, &stay, 0, 23) }, &file).0, if len < 8 { 4 } else { 0 }),
        ];
        for (answer, expected) in answers {
            t.expect("a call with a buffer of another length", answer, expected);
        }
    }
    t.done();
}

/// Buffers that are only read may overlap each other: key, stay and text from one run of bytes, and a stay taken out of the file itself.
#[test]
fn overlapping_inputs_of_a_file() {
    let mut t = Tester::new("overlapping inputs of a file");
    for _ in 0..t.rounds(300) {
        let bytes = t.random.bytes(300);
        let (key, stay, text) = (t.random.below(268), t.random.below(288), t.random.below(200));
        let mut file = [0; PAGE];
        calls::file_seal(&bytes[key..key + 32], &bytes[stay..stay + 12], 0, 9_000, &bytes[text..text + 100], 0, &mut file).unwrap();
        let (b, mut found, before) = (bytes.as_ptr(), [0; PAGE], bytes.clone());
        let f = found.as_mut_ptr();
        let answer = unsafe { tulvekas_file_seal(b.add(key), 32, b.add(stay), 12, 0, 9_000, b.add(text), 100, 0, f, PAGE) };
        t.count(answer);
        if answer != 0 || found != file || bytes != before {
            t.fail("file_seal", "another page from overlapping inputs".into());
        }
        let (mut opened, mut length) = ([0; 100], [0; 8]);
        let (o, l) = (opened.as_mut_ptr(), length.as_mut_ptr());
        let answer = unsafe { tulvekas_file_open(b.add(key), 32, f, 12, 0, f, PAGE, o, 100, l, 8) };
        t.count(answer);
        if answer != 0 || opened != bytes[text..text + 100] || length != 100_u64.to_le_bytes() || found != file || bytes != before {
            t.fail("file_open", "another text from overlapping inputs".into());
        }
    }
    t.done();
}
