//! Whole pages: seal and open.

use crate::library::{tulvekas_open, tulvekas_seal};
use crate::tester::Tester;
use reference::calls;

/// Seals a page and opens it again; gives ciphertext and tag.
fn seal_and_open(t: &mut Tester, key: &[u8], iv: &[u8], ad: &[u8], text: &[u8]) -> (Vec<u8>, Vec<u8>) {
    let (out_spare, tag_spare) = if t.random.one_in(2) { (0, 0) } else { (t.random.below(40), t.random.below(40)) };
    let (answer, mut cipher, mut tag) = t.seal(key, iv, ad, text, text.len() + out_spare, 16 + tag_spare);
    t.expect("seal", answer, 0);
    cipher.truncate(text.len());
    tag.truncate(16);
    let (answer, opened) = t.open(key, iv, ad, &cipher, &tag, text.len() + out_spare);
    t.expect("open", answer, 0);
    if opened[..text.len()] != *text {
        t.fail("open", "both give another text than was sealed".into());
    }
    (cipher, tag)
}

/// Every pair of lengths up to 50.
#[test]
fn pages_of_all_short_lengths() {
    let mut t = Tester::new("pages of all short lengths");
    for ad_len in 0..=50 {
        for text_len in 0..=50 {
            if t.chosen() {
                let (key, iv) = (t.random.secret::<32>(), t.random.secret::<16>());
                let (ad, text) = (t.random.bytes(ad_len), t.random.bytes(text_len));
                seal_and_open(&mut t, &key, &iv, &ad, &text);
            }
        }
    }
    t.done();
}

#[test]
fn pages_of_random_lengths() {
    let mut t = Tester::new("pages of random lengths");
    for _ in 0..t.rounds(6_000) {
        let (key, iv) = (t.random.secret::<32>(), t.random.secret::<16>());
        let (ad_len, text_len) = (t.random.length(2_000), t.random.length(5_000));
        let (ad, text) = (t.random.bytes(ad_len), t.random.bytes(text_len));
        seal_and_open(&mut t, &key, &iv, &ad, &text);
        let short = t.random.below(text_len + 1);
        t.seal(&key, &iv, &ad, &text, short, 16);
        t.open(&key, &iv, &ad, &text, &iv, short);
    }
    t.done();
}

/// At and beside both limits, the output too short by one, exact and longer.
#[test]
fn pages_at_the_limits() {
    let mut t = Tester::new("pages at the limits");
    for ad_len in [0, 65_519, 65_520, 65_521, 65_534, 65_535, 65_536, 65_537] {
        for text_len in [0, 1_048_559, 1_048_560, 1_048_575, 1_048_576, 1_048_577, 1_048_592] {
            if !t.chosen() {
                continue;
            }
            let (key, iv) = (t.random.secret::<32>(), t.random.secret::<16>());
            let (ad, text) = (t.random.bytes(ad_len), t.random.bytes(text_len));
            if ad_len <= 65_535 && text_len <= 1_048_576 {
                let (cipher, mut tag) = seal_and_open(&mut t, &key, &iv, &ad, &text);
                if text_len > 0 {
                    let short = t.seal(&key, &iv, &ad, &text, text_len - 1, 16).0;
                    t.expect("seal", short, 4);
                    let short = t.open(&key, &iv, &ad, &cipher, &tag, text_len - 1).0;
                    t.expect("open", short, 4);
                }
                tag[t.random.below(16)] ^= 1 << t.random.below(8);
                let damaged = t.open(&key, &iv, &ad, &cipher, &tag, text_len).0;
                t.expect("open", damaged, 5);
            } else {
                let long = t.seal(&key, &iv, &ad, &text, text_len, 16).0;
                t.expect("seal", long, 3);
                let long = t.open(&key, &iv, &ad, &text, &iv, text_len).0;
                t.expect("open", long, 3);
            }
        }
    }
    t.done();
}

/// Each single bit of a tag, of the ciphertext and of the data; other keys and IVs; bytes moved between data and text.
#[test]
fn damaged_pages() {
    let mut t = Tester::new("damaged pages");
    for round in 0..t.rounds(60) {
        let (key, iv) = (t.random.secret::<32>(), t.random.secret::<16>());
        let (ad_len, text_len) = if round == 0 { (0, 0) } else { (t.random.length(80), t.random.length(160)) };
        let (ad, text) = (t.random.bytes(ad_len), t.random.bytes(text_len));
        let (cipher, tag) = seal_and_open(&mut t, &key, &iv, &ad, &text);
        let flipped = |bytes: &[u8], bit: usize| {
            let mut bytes = bytes.to_vec();
            bytes[bit / 8] ^= 1 << (bit % 8);
            bytes
        };
        for bit in 0..128 {
            let answer = t.open(&key, &iv, &ad, &cipher, &flipped(&tag, bit), text_len).0;
            t.expect("open", answer, 5);
        }
        for bit in 0..8 * text_len {
            let answer = t.open(&key, &iv, &ad, &flipped(&cipher, bit), &tag, text_len).0;
            t.expect("open", answer, 5);
        }
        for bit in 0..8 * ad_len {
            let answer = t.open(&key, &iv, &flipped(&ad, bit), &cipher, &tag, text_len).0;
            t.expect("open", answer, 5);
        }
        for _ in 0..20 {
            let (bit, iv_bit) = (t.random.below(256), t.random.below(128));
            t.open(&flipped(&key, bit), &iv, &ad, &cipher, &tag, text_len);
            t.open(&key, &flipped(&iv, iv_bit), &ad, &cipher, &tag, text_len);
            let wrong = t.random.array::<16>();
            t.open(&key, &iv, &ad, &cipher, &wrong, text_len);
        }
        if text_len > 0 {
            let longer = [&ad[..], &cipher[..1]].concat();
            t.open(&key, &iv, &longer, &cipher[1..], &tag, text_len);
            t.open(&key, &iv, &ad, &cipher[..text_len - 1], &tag, text_len);
        }
        let padded = [&cipher[..], &[0]].concat();
        t.open(&key, &iv, &ad, &padded, &tag, text_len + 1);
        t.open(&key, &iv, &[&ad[..], &[0]].concat(), &cipher, &tag, text_len);
    }
    t.done();
}

/// Buffers that are only read may overlap each other: key, IV, data, text and tag taken from one run of bytes.
#[test]
fn overlapping_inputs() {
    let mut t = Tester::new("overlapping inputs");
    for _ in 0..t.rounds(500) {
        let bytes = t.random.bytes(200);
        let mut part = |len: usize| {
            let at = t.random.below(200 - len);
            at..at + len
        };
        let (key, iv, ad, text) = (part(32), part(16), part(61), part(77));
        let (mut cipher, mut tag) = (vec![0; 77], vec![0; 16]);
        calls::seal(&bytes[key.clone()], &bytes[iv.clone()], &bytes[ad.clone()], &bytes[text.clone()], &mut cipher, &mut tag).unwrap();
        let (mut found_cipher, mut found_tag) = (vec![0; 77], vec![0; 16]);
        let (b, before) = (bytes.as_ptr(), bytes.clone());
        let answer = unsafe {
            let (k, v, a, x) = (b.add(key.start), b.add(iv.start), b.add(ad.start), b.add(text.start));
            tulvekas_seal(k, 32, v, 16, a, 61, x, 77, found_cipher.as_mut_ptr(), 77, found_tag.as_mut_ptr(), 16)
        };
        t.count(answer);
        if answer != 0 || found_cipher != cipher || found_tag != tag || bytes != before {
            t.fail("seal", "another page from overlapping inputs".into());
        }

        // Key and IV from one run of bytes, ciphertext and tag from another.
        let joined = [&cipher[..], &tag[..]].concat();
        let mut opened = vec![0; 77];
        let answer = unsafe {
            let (k, v, a, c) = (b.add(key.start), b.add(iv.start), b.add(ad.start), joined.as_ptr());
            tulvekas_open(k, 32, v, 16, a, 61, c, 77, c.add(77), 16, opened.as_mut_ptr(), 77)
        };
        t.count(answer);
        if answer != 0 || opened != bytes[text] || bytes != before {
            t.fail("open", "another text from overlapping inputs".into());
        }
    }
    t.done();
}
