//! What the program `season` prints: three stays' pages sealed into a page file, opened, and damaged in one way at a time.

use crate::page;
use crate::page_file::{open, seal, MOST_PAGE_TEXT, PAGE_BYTES};
use crate::program::hex;
use crate::refusal::{number, Refusal};

/// A page of the season: its place, stay, page number and text length.
struct Entry {
    place: usize,
    stay: u8,
    page: u32,
    len: usize,
}

const ENTRIES: [Entry; 6] = [
    Entry { place: 0, stay: 1, page: 0, len: 0 },
    Entry { place: 1, stay: 2, page: 0, len: 1 },
    Entry { place: 2, stay: 1, page: 1, len: 16 },
    Entry { place: 3, stay: 3, page: 0, len: 473 },
    Entry { place: 4, stay: 2, page: 1, len: 474 },
    Entry { place: 5, stay: 1, page: 2, len: 474 },
];
/// Pages of the file; the last is left all zero.
const PAGES: usize = 7;
/// The stays and page numbers of a roll call.
const ROLL: [(u8, u32); 7] = [(1, 0), (2, 0), (1, 1), (3, 0), (2, 1), (1, 2), (0, 0)];
/// What an output holds before a page is opened into it.
const PAINT: u8 = 0xa5;
/// Bytes of an output, where it is not said otherwise.
const OUT_LEN: usize = 480;

fn key() -> [u8; 32] {
    std::array::from_fn(|i| (7 * i + 3) as u8)
}

/// Stay 0 is that of an all-zero page.
fn stay(s: u8) -> [u8; 12] {
    std::array::from_fn(|j| if s == 0 { 0 } else { 16 * s + j as u8 })
}

fn text(s: u8, n: u32, len: usize) -> Vec<u8> {
    (0..len).map(|k| (13 * k + 31 * usize::from(s) + 7 * n as usize + 1) as u8).collect()
}

fn day(s: u8) -> u64 {
    [0, 9_000, 9_007, 73_048][usize::from(s)]
}

/// The bytes of a place.
fn at(place: usize) -> std::ops::Range<usize> {
    PAGE_BYTES * place..PAGE_BYTES * (place + 1)
}

fn answer(answer: Result<(), Refusal>) -> String {
    match answer {
        Ok(()) => "accepted".into(),
        Err(refusal) => format!("refused {}", refusal as u64),
    }
}

/// The file, and the answers of the seals that made it.
fn sealed() -> (Vec<u8>, Vec<String>) {
    let mut file = vec![0; PAGES * PAGE_BYTES];
    let seal_entry = |entry: &Entry| {
        let text = text(entry.stay, entry.page, entry.len);
        answer(seal(&key(), &stay(entry.stay), entry.page, day(entry.stay), &text, entry.place as u64, &mut file))
    };
    let answers = ENTRIES.iter().map(seal_entry).collect();
    (file, answers)
}

/// A look at page n of stay s, under these bytes as key and as stay: whether it opens to its text, which has `len` bytes if there is one.
fn look_for(key: &[u8], stay: &[u8], (s, n): (u8, u32), len: Option<usize>, file: &[u8], out_len: usize) -> String {
    let mut out = vec![PAINT; out_len];
    let painted = |bytes: &[u8]| bytes.iter().all(|byte| *byte == PAINT);
    let right = match open(key, stay, n, file, &mut out) {
        Ok(written) => {
            let right = len == Some(written) && out[..written] == text(s, n, written) && painted(&out[written..]);
            right.then(|| "ok".to_string())
        }
        refused => painted(&out).then(|| number(&refused).to_string()),
    };
    right.unwrap_or("wrong".into())
}

/// A look for what the season sealed.
fn look_with(key: &[u8], stay: &[u8], of: (u8, u32), file: &[u8], out_len: usize) -> String {
    let entry = ENTRIES.iter().find(|entry| (entry.stay, entry.page) == of);
    look_for(key, stay, of, entry.map(|entry| entry.len), file, out_len)
}

fn look(of: (u8, u32), file: &[u8]) -> String {
    look_with(&key(), &stay(of.0), of, file, OUT_LEN)
}

fn roll_call(label: &str, file: &[u8]) -> String {
    format!("{label}: {}\n", ROLL.map(|of| look(of, file)).join(" "))
}

/// The file with bytes written over it from a place on.
fn with(file: &[u8], from: usize, bytes: &[u8]) -> Vec<u8> {
    let mut file = file.to_vec();
    file[from..from + bytes.len()].copy_from_slice(bytes);
    file
}

/// The file with the lowest bit of a byte changed.
fn flipped(file: &[u8], byte: usize) -> Vec<u8> {
    with(file, byte, &[file[byte] ^ 1])
}

fn swapped(file: &[u8], one: usize, other: usize) -> Vec<u8> {
    with(&with(file, at(one).start, &file[at(other)]), at(other).start, &file[at(one)])
}

/// The file in which page 1 of stay 1 has padding that is not zero under a right tag.
fn padding(file: &[u8]) -> Vec<u8> {
    let mut padded = text(1, 1, 16);
    padded.resize(MOST_PAGE_TEXT, 0);
    padded[MOST_PAGE_TEXT - 1] = 1;
    let ad = &file[at(2)][..22];
    let mut cipher = [0; MOST_PAGE_TEXT];
    let tag = page::seal(&key(), &ad[..16], ad, &padded, &mut cipher).unwrap();
    with(file, at(2).start, &[ad, &cipher, &tag].concat())
}

/// The file in which page 1 of stay 1 has another day than the stay's other pages.
fn days_differ(file: &[u8]) -> Vec<u8> {
    let mut file = file.to_vec();
    seal(&key(), &stay(1), 1, 9_001, &text(1, 1, 16), 2, &mut file).unwrap();
    file
}

/// The file in which the page of stay 3 has a stored length over 474.
fn length_475(file: &[u8]) -> Vec<u8> {
    with(file, at(3).start + 20, &475_u16.to_le_bytes())
}

/// Copies of the file, each damaged in one way.
fn damaged(file: &[u8]) -> Vec<(&'static str, Vec<u8>)> {
    vec![
        ("dropped", [&file[..at(2).start], &file[at(2).end..]].concat()),
        ("swapped", swapped(file, 0, 2)),
        ("swapped with another stay's", swapped(file, 0, 1)),
        ("doubled", with(file, at(6).start, &file[at(0)])),
        ("days differ", days_differ(file)),
        ("length 475", length_475(file)),
        ("day 73049", with(file, at(6).start + 16, &73_049_u32.to_le_bytes())),
        ("padding", padding(file)),
        ("padding, tag broken", flipped(&padding(file), at(2).end - 1)),
        ("511 bytes", file[..511].to_vec()),
        ("0 bytes", vec![]),
    ]
}

/// Lines about opening that is refused for other reasons than the file, or for several at once.
fn other_opens(file: &[u8]) -> String {
    let (k, s, last) = (key(), stay(1), at(2).end - 1);
    let broken = flipped(file, last);
    let lines = [
        ("key of 31 bytes", look_with(&k[..31], &s, (1, 1), file, OUT_LEN)),
        ("stay of 11 bytes", look_with(&k, &s[..11], (1, 1), file, OUT_LEN)),
        ("page 3", look((1, 3), file)),
        ("page 4294967295", look((1, u32::MAX), file)),
        ("output of 15 bytes", look_with(&k, &s, (1, 1), file, 15)),
        ("output of 16 bytes", look_with(&k, &s, (1, 1), file, 16)),
        ("output of 15 bytes, tag broken", look_with(&k, &s, (1, 1), &broken, 15)),
        ("padding, output of 15 bytes", look_with(&k, &s, (1, 1), &padding(file), 15)),
        ("page 65537", look((1, 65_537), file)),
        ("key of 31 bytes, stay of 11 bytes", look_with(&k[..31], &s[..11], (1, 1), file, OUT_LEN)),
        ("stay of 11 bytes, 511 bytes", look_with(&k, &s[..11], (1, 1), &file[..511], OUT_LEN)),
        ("page 3, output of 0 bytes", look_with(&k, &s, (1, 3), file, 0)),
        ("days differ, length 475", look((1, 1), &length_475(&days_differ(file)))),
        ("padding, tag broken, output of 15 bytes", look_with(&k, &s, (1, 1), &flipped(&padding(file), last), 15)),
    ];
    lines.iter().map(|(label, token)| format!("{label}: {token}\n")).collect()
}

/// A seal of page 1 of stay 1, but for what is set otherwise.
struct Call {
    label: &'static str,
    key_len: usize,
    stay_len: usize,
    text_len: usize,
    day: u64,
    place: u64,
    file_len: usize,
}

/// Lines about sealing that is refused.
fn refused_seals(file: &[u8]) -> String {
    let usual = || Call { label: "", key_len: 32, stay_len: 12, text_len: 16, day: 9_000, place: 2, file_len: PAGES * PAGE_BYTES };
    let calls = [
        Call { label: "seal with a key of 31 bytes", key_len: 31, ..usual() },
        Call { label: "seal with a stay of 11 bytes", stay_len: 11, ..usual() },
        Call { label: "seal 475 bytes", text_len: 475, ..usual() },
        Call { label: "seal on day 73049", day: 73_049, ..usual() },
        Call { label: "seal at place 7", place: 7, ..usual() },
        Call { label: "seal at place 36028797018963968", place: 1 << 55, ..usual() },
        Call { label: "seal at place 18446744073709551615", place: u64::MAX, ..usual() },
        Call { label: "seal into 511 bytes", place: 0, file_len: 511, ..usual() },
        Call { label: "seal into 0 bytes", place: 0, file_len: 0, ..usual() },
        Call {
            label: "seal 475 bytes with a stay of 11 bytes on day 73049 at place 7",
            stay_len: 11,
            text_len: 475,
            day: 73_049,
            place: 7,
            ..usual()
        },
        Call { label: "seal 475 bytes on day 73049 at place 7", text_len: 475, day: 73_049, place: 7, ..usual() },
        Call { label: "seal on day 73049 at place 7", day: 73_049, place: 7, ..usual() },
        Call { label: "seal into 3583 bytes", file_len: 3_583, ..usual() },
        Call { label: "seal with a key of 31 bytes and a stay of 11 bytes", key_len: 31, stay_len: 11, ..usual() },
    ];
    let line = |call: &Call| {
        let mut lent = file[..call.file_len].to_vec();
        let (key, stay) = (key(), stay(1));
        let text = text(1, 1, call.text_len);
        let made = seal(&key[..call.key_len], &stay[..call.stay_len], 1, call.day, &text, call.place, &mut lent);
        let stays = if lent == file[..call.file_len] { "stays" } else { "changed" };
        format!("{}: {} and the file {stays}\n", call.label, answer(made))
    };
    calls.iter().map(line).collect()
}

/// The file with a text of 16 bytes sealed at a place, and the seal's answer.
fn sealed_at((s, n): (u8, u32), place: u64, file: &[u8]) -> (Vec<u8>, String) {
    let mut file = file.to_vec();
    let made = seal(&key(), &stay(s), n, day(s), &text(s, n, 16), place, &mut file);
    (file, answer(made))
}

/// Lines about sealing that is accepted: it tests neither what other pages store nor the number of its own.
fn accepted_seals(file: &[u8]) -> String {
    let (beside, beside_answer) = sealed_at((1, 1), 2, &length_475(file));
    let (far, far_answer) = sealed_at((2, 16_909_060), 6, file);
    let (fourth, fourth_answer) = sealed_at((1, 3), 6, file);
    let lines = [
        format!("sealed beside a length of 475: {beside_answer} and {}\n", look((1, 1), &beside)),
        format!("page 16909060 of stay 2: {far_answer} and bytes 12 to 15 are {}\n", hex(&far[at(6)][12..16])),
        format!("a fourth page: {fourth_answer} and {}\n", look_for(&key(), &stay(1), (1, 3), Some(16), &fourth, OUT_LEN)),
    ];
    lines.concat()
}

/// Everything that is printed.
pub fn output() -> String {
    let (file, answers) = sealed();
    let mut lines = String::new();
    for (entry, answer) in ENTRIES.iter().zip(answers) {
        lines += &format!("seal {}: {answer}\n", entry.place);
    }
    for place in 0..PAGES {
        lines += &format!("page {place}: {}\n", hex(&file[at(place)]));
    }
    for entry in &ENTRIES {
        let mut out = [PAINT; OUT_LEN];
        lines += &match open(&key(), &stay(entry.stay), entry.page, &file, &mut out) {
            Ok(len) => format!("open {}.{}: written {len} {}\n", entry.stay, entry.page, hex(&out[..len])),
            Err(refusal) => format!("open {}.{}: refused {}\n", entry.stay, entry.page, refusal as u64),
        };
    }
    lines += &roll_call("season", &file);
    lines += "each byte of page 1.1 flipped:\n";
    let tokens: Vec<String> = at(2).map(|byte| look((1, 1), &flipped(&file, byte))).collect();
    for row in tokens.chunks(32) {
        lines += &format!("{}\n", row.join(" "));
    }
    for (label, file) in damaged(&file) {
        lines += &roll_call(label, &file);
    }
    lines + &other_opens(&file) + &refused_seals(&file) + &accepted_seals(&file)
}
