//! Key stores: stays' keys stored, fetched and erased by their numbers, over lists of calls, and stores that are damaged.

use crate::library::{tulvekas_keys_fetch, tulvekas_keys_store};
use crate::tester::Tester;
use reference::calls;
use reference::page;
use reference::suspended::check;

const BLOCK: usize = 512;
const HELD: u8 = 1;
const ERASED: u8 = 2;

type Number = [u8; 16];
type Key = [u8; 32];

/// Sets the check of a block again, so that a change breaks its own rule alone.
fn checked(mut block: [u8; BLOCK]) -> [u8; BLOCK] {
    let sum = check(&block);
    block[508..].copy_from_slice(&sum.to_le_bytes());
    block
}

/// A block by its fields, whatever they are.
fn laid(mark: u8, iv: &[u8], sealed_key: &[u8], tag: &[u8]) -> [u8; BLOCK] {
    let mut block = [0; BLOCK];
    block[0] = mark;
    block[16..32].copy_from_slice(iv);
    block[32..64].copy_from_slice(sealed_key);
    block[64..80].copy_from_slice(tag);
    checked(block)
}

/// The block of a stay's key, which is sealed like a page without data.
fn held(key: &[u8], iv: &[u8], stay_key: &[u8]) -> [u8; BLOCK] {
    let mut sealed_key = [0; 32];
    let tag = page::seal(key, iv, &[], stay_key, &mut sealed_key).unwrap();
    laid(HELD, iv, &sealed_key, &tag)
}

fn erased(iv: &[u8]) -> [u8; BLOCK] {
    laid(ERASED, iv, &[0; 32], &[0; 16])
}

fn block_at(store: &[u8], place: usize) -> [u8; BLOCK] {
    store[BLOCK * place..][..BLOCK].try_into().unwrap()
}

/// The store with another block at a place.
fn with_block(store: &[u8], place: usize, block: &[u8; BLOCK]) -> Vec<u8> {
    let mut store = store.to_vec();
    store[BLOCK * place..][..BLOCK].copy_from_slice(block);
    store
}

/// The store with bytes written over a block, and its check made anew.
fn with(store: &[u8], place: usize, at: usize, bytes: &[u8]) -> Vec<u8> {
    let mut block = block_at(store, place);
    block[at..at + bytes.len()].copy_from_slice(bytes);
    with_block(store, place, &checked(block))
}

/// A number: mostly random, at times all zeros like the bytes of an empty block, at times one bit off another.
fn number(t: &mut Tester, near: &Number) -> Number {
    let mut iv = *near;
    match t.random.below(6) {
        0 => [0; 16],
        1 | 2 => {
            iv[t.random.below(16)] ^= 1 << t.random.below(8);
            iv
        }
        _ => t.random.secret(),
    }
}

/// So many numbers, no two of them the same.
fn numbers(t: &mut Tester, n: usize) -> Vec<Number> {
    let mut all: Vec<Number> = vec![];
    while all.len() < n {
        let near = all.last().copied().unwrap_or_default();
        let iv = number(t, &near);
        if !all.contains(&iv) {
            all.push(iv);
        }
    }
    all
}

/// A key one bit off another.
fn near_key(t: &mut Tester, key: &Key) -> Key {
    let mut key = *key;
    key[t.random.below(32)] ^= 1 << t.random.below(8);
    key
}

/// A block that is not empty: its number, the season's key that it was sealed under, and the stay's key, which an erased block has not.
#[derive(Clone)]
struct Entry {
    iv: Number,
    key: Key,
    stay_key: Option<Key>,
}

/// A store, and what a test knows of its blocks by itself; `None` is an empty one.
#[derive(Clone)]
struct Kept {
    store: Vec<u8>,
    entries: Vec<Option<Entry>>,
}

impl Kept {
    fn empty(blocks: usize) -> Kept {
        Kept { store: vec![0; BLOCK * blocks], entries: vec![None; blocks] }
    }

    fn of(entries: Vec<Option<Entry>>) -> Kept {
        let block = |entry: &Option<Entry>| match entry {
            None => [0; BLOCK],
            Some(Entry { iv, stay_key: None, .. }) => erased(iv),
            Some(Entry { iv, key, stay_key: Some(stay_key) }) => held(key, iv, stay_key),
        };
        Kept { store: entries.iter().flat_map(block).collect(), entries }
    }

    /// A store of so many blocks under one key, held, erased and empty in any order.
    fn random(t: &mut Tester, key: &Key, blocks: usize) -> Kept {
        let mut entries = vec![];
        for iv in numbers(t, blocks) {
            let stay_key = t.random.secret();
            entries.push(match t.random.below(5) {
                0 => None,
                1 => Some(Entry { iv, key: *key, stay_key: None }),
                _ => Some(Entry { iv, key: *key, stay_key: Some(stay_key) }),
            });
        }
        Kept::of(entries)
    }

    fn place(&self, iv: &[u8]) -> Option<usize> {
        self.entries.iter().position(|entry| entry.as_ref().is_some_and(|entry| entry.iv == iv))
    }

    /// The place of a number that is held, and its entry.
    fn holder(&self, iv: &[u8]) -> Option<(usize, &Entry)> {
        let place = self.place(iv)?;
        self.entries[place].as_ref().filter(|entry| entry.stay_key.is_some()).map(|entry| (place, entry))
    }

    fn numbers(&self) -> Vec<Number> {
        self.entries.iter().flatten().map(|entry| entry.iv).collect()
    }

    /// A number that no block has.
    fn stranger(&self, t: &mut Tester) -> Number {
        let mut iv = t.random.array();
        while self.place(&iv).is_some() {
            iv = t.random.array();
        }
        iv
    }

    /// Takes over what a call has left, and requires that it is another block at one place and nothing else.
    fn take(&mut self, t: &Tester, call: &str, after: Vec<u8>, place: usize, block: &[u8; BLOCK]) {
        if after != with_block(&self.store, place, block) {
            t.fail(call, format!("both leave another store than with one block laid at place {place}"));
        }
        self.store = after;
    }

    fn store(&mut self, t: &mut Tester, key: &Key, iv: &Number, stay_key: &Key) -> u64 {
        let (answer, after) = t.keys_store(key, iv, stay_key, &self.store);
        let vacant = self.entries.iter().position(Option::is_none);
        match (self.place(iv), vacant) {
            (Some(_), _) => t.expect("keys_store", answer, 16),
            (None, None) => t.expect("keys_store", answer, 4),
            (None, Some(place)) => {
                t.expect("keys_store", answer, 0);
                self.take(t, "keys_store", after, place, &held(key, iv, stay_key));
                self.entries[place] = Some(Entry { iv: *iv, key: *key, stay_key: Some(*stay_key) });
            }
        }
        answer
    }

    fn fetch(&self, t: &mut Tester, key: &Key, iv: &Number) -> u64 {
        let (answer, fetched) = t.keys_fetch(key, iv, &self.store);
        match self.holder(iv) {
            None => t.expect("keys_fetch", answer, 17),
            Some((_, entry)) if entry.key != *key => t.expect("keys_fetch", answer, 5),
            Some((_, entry)) => {
                t.expect("keys_fetch", answer, 0);
                if Some(&fetched[..]) != entry.stay_key.as_ref().map(|key| &key[..]) {
                    t.fail("keys_fetch", "both give another key than was stored".into());
                }
            }
        }
        answer
    }

    fn erase(&mut self, t: &mut Tester, iv: &Number) -> u64 {
        let (answer, after) = t.keys_erase(iv, &self.store);
        let Some((place, _)) = self.holder(iv) else {
            t.expect("keys_erase", answer, 17);
            return answer;
        };
        t.expect("keys_erase", answer, 0);
        self.take(t, "keys_erase", after, place, &erased(iv));
        self.entries[place].as_mut().unwrap().stay_key = None;
        answer
    }

    /// Fetches every number under the key that it was sealed under.
    fn fetch_all(&self, t: &mut Tester) {
        for entry in self.entries.iter().flatten() {
            self.fetch(t, &entry.key, &entry.iv);
        }
    }
}

/// Requires one answer of all three calls on a store, for a number.
fn answer_all(t: &mut Tester, key: &Key, iv: &Number, store: &[u8], [stored, fetched, erased]: [u64; 3]) {
    let stay_key = t.random.secret::<32>();
    let answer = t.keys_store(key, iv, &stay_key, store).0;
    t.expect("keys_store", answer, stored);
    let answer = t.keys_fetch(key, iv, store).0;
    t.expect("keys_fetch", answer, fetched);
    let answer = t.keys_erase(iv, store).0;
    t.expect("keys_erase", answer, erased);
}

/// A store that breaks a rule is refused by every call, whichever number is named.
fn refused(t: &mut Tester, key: &Key, iv: &Number, store: &[u8]) {
    answer_all(t, key, iv, store, [8; 3]);
}

/// Lists of calls under two keys, on stores of 0 to 12 blocks: every answer, and every byte that a call leaves.
#[test]
fn random_calls_on_a_store() {
    let mut t = Tester::new("random calls on a store");
    for _ in 0..t.rounds(2_500) {
        let blocks = t.random.below(13);
        let key = t.random.secret();
        let other = if t.random.one_in(2) { near_key(&mut t, &key) } else { t.random.array() };
        let mut kept = if t.random.one_in(2) { Kept::empty(blocks) } else { Kept::random(&mut t, &key, blocks) };
        let mut named = kept.numbers();
        let strangers = 1 + t.random.below(blocks + 2);
        named.extend(numbers(&mut t, strangers));
        for _ in 0..3 * blocks + 5 {
            let (iv, stay_key) = (t.random.pick(&named), t.random.secret());
            let key = if t.random.one_in(6) { other } else { key };
            match t.random.below(8) {
                0..=2 => kept.store(&mut t, &key, &iv, &stay_key),
                3..=5 => kept.fetch(&mut t, &key, &iv),
                _ => kept.erase(&mut t, &iv),
            };
        }
        kept.fetch_all(&mut t);
    }
    t.done();
}

/// Storing takes the first empty block, wherever empty ones stand, until there is none.
#[test]
fn stores_filled_up() {
    let mut t = Tester::new("stores filled up");
    for blocks in 0..=12 {
        for _ in 0..t.rounds(12) {
            let key = t.random.secret();
            let mut kept = Kept::random(&mut t, &key, blocks);
            let room = kept.entries.iter().filter(|entry| entry.is_none()).count();
            for stored in 0..=room {
                let (iv, stay_key) = (kept.stranger(&mut t), t.random.secret());
                let answer = kept.store(&mut t, &key, &iv, &stay_key);
                t.expect("keys_store", answer, if stored < room { 0 } else { 4 });
            }
            // 16 comes before 4, and an erased block is no empty one.
            for iv in kept.numbers() {
                let stay_key = t.random.secret();
                let answer = kept.store(&mut t, &key, &iv, &stay_key);
                t.expect("keys_store", answer, 16);
            }
            kept.fetch_all(&mut t);
            for iv in kept.numbers() {
                kept.erase(&mut t, &iv);
                let stay_key = t.random.secret();
                let answer = kept.store(&mut t, &key, &iv, &stay_key);
                t.expect("keys_store", answer, 16);
            }
            kept.fetch_all(&mut t);
        }
    }
    t.done();
}

/// A call of a list, with what it is handed beside the store.
#[derive(Clone)]
enum Call {
    Store(Vec<u8>, Vec<u8>, Vec<u8>),
    Fetch(Vec<u8>, Vec<u8>),
    Erase(Vec<u8>),
}

/// A list of calls on some numbers, refused ones and ones with other lengths included.
fn list(t: &mut Tester, key: &Key, named: &[Number], n: usize) -> Vec<Call> {
    let cut = |t: &mut Tester, bytes: &[u8]| match t.random.below(12) {
        0 => bytes[..t.random.below(bytes.len())].to_vec(),
        1 => [bytes, &[0]].concat(),
        _ => bytes.to_vec(),
    };
    let call = |t: &mut Tester| {
        let named = t.random.pick(named);
        let (season, iv) = (if t.random.one_in(8) { near_key(t, key) } else { *key }, cut(t, &named));
        let season = cut(t, &season);
        match t.random.below(4) {
            0 | 1 => {
                let stay_key = t.random.secret::<32>();
                Call::Store(season, iv, cut(t, &stay_key))
            }
            2 => Call::Fetch(season, iv),
            _ => Call::Erase(iv),
        }
    };
    (0..n).map(|_| call(t)).collect()
}

/// Makes a call, and gives its answer and the store that is left.
fn made(t: &mut Tester, call: &Call, store: &[u8]) -> (u64, Vec<u8>) {
    match call {
        Call::Store(key, iv, stay_key) => t.keys_store(key, iv, stay_key, store),
        Call::Fetch(key, iv) => (t.keys_fetch(key, iv, store).0, store.to_vec()),
        Call::Erase(iv) => t.keys_erase(iv, store),
    }
}

/// What was stored is fetched after every list of calls that does not erase it.
#[test]
fn stored_keys_are_fetched() {
    let mut t = Tester::new("stored keys are fetched");
    for _ in 0..t.rounds(1_200) {
        let blocks = 1 + t.random.below(12);
        let key = t.random.secret();
        let Kept { mut store, entries } = Kept::random(&mut t, &key, blocks);
        let mut named: Vec<Number> = entries.iter().flatten().map(|entry| entry.iv).collect();
        let (iv, stay_key) = (number(&mut t, &named.last().copied().unwrap_or_default()), t.random.secret::<32>());
        let (answer, after) = t.keys_store(&key, &iv, &stay_key, &store);
        if answer != 0 {
            continue;
        }
        store = after;
        named.push(iv);
        named.push(t.random.array());
        for call in list(&mut t, &key, &named, 12) {
            if !matches!(&call, Call::Erase(named) if *named == iv) {
                store = made(&mut t, &call, &store).1;
            }
        }
        let (answer, fetched) = t.keys_fetch(&key, &iv, &store);
        t.expect("keys_fetch", answer, 0);
        if fetched != stay_key {
            t.fail("keys_fetch", "both give another key than was stored".into());
        }
        // An erased number stays erased, whatever is called then.
        store = t.keys_erase(&iv, &store).1;
        for call in list(&mut t, &key, &named, 6) {
            store = made(&mut t, &call, &store).1;
        }
        answer_all(&mut t, &key, &iv, &store, [16, 17, 17]);
    }
    t.done();
}

/// After an erasure two stores that were made by the same calls but for that stay's key are equal byte for byte.
#[test]
fn nothing_of_an_erased_key_is_left() {
    let mut t = Tester::new("nothing of an erased key is left");
    let mut two_stores = 0;
    for _ in 0..t.rounds(1_200) {
        let blocks = 1 + t.random.below(12);
        let key = t.random.secret();
        let mut stores = [Kept::random(&mut t, &key, blocks).store, vec![]];
        stores[1] = stores[0].clone();
        let iv = t.random.array();
        let mut named = numbers(&mut t, 3);
        named.push(iv);
        let mut differed = false;
        for call in list(&mut t, &key, &named, 14) {
            let other = match &call {
                Call::Store(key, named, stay_key) if *named == iv => {
                    let other = t.random.bytes(stay_key.len());
                    Call::Store(key.clone(), named.clone(), other)
                }
                call => call.clone(),
            };
            let (answer, after) = made(&mut t, &call, &stores[0]);
            let (other_answer, other_after) = made(&mut t, &other, &stores[1]);
            t.expect("the same call but for a key", other_answer, answer);
            stores = [after, other_after];
            differed |= stores[0] != stores[1];
        }
        let [(answer, one), (other_answer, other)] = stores.map(|store| t.keys_erase(&iv, &store));
        t.expect("keys_erase", other_answer, answer);
        if one != other || differed && block_of(&one, &iv) != Some(erased(&iv)) {
            t.fail("keys_erase", "both leave something of the key".into());
        }
        two_stores += differed as usize;
    }
    assert!(two_stores > 0, "no two stores that differ in a key were compared");
    // Stores that no calls made: the sealed key and its tag are whatever they are.
    for _ in 0..t.rounds(600) {
        let blocks = 1 + t.random.below(12);
        let key = t.random.secret();
        let mut kept = Kept::random(&mut t, &key, blocks);
        let (place, iv) = (t.random.below(blocks), kept.stranger(&mut t));
        kept.entries[place] = Some(Entry { iv, key, stay_key: None });
        let left = [0, 1].map(|_| {
            let (sealed_key, tag) = (t.random.secret::<32>(), t.random.secret::<16>());
            let (answer, after) = t.keys_erase(&iv, &with_block(&kept.store, place, &laid(HELD, &iv, &sealed_key, &tag)));
            t.expect("keys_erase", answer, 0);
            after
        });
        if left[0] != left[1] || left[0] != with_block(&kept.store, place, &erased(&iv)) {
            t.fail("keys_erase", "both leave something of the key".into());
        }
    }
    t.done();
}

/// The block of a number, if there is one.
fn block_of(store: &[u8], iv: &[u8]) -> Option<[u8; BLOCK]> {
    (0..store.len() / BLOCK).map(|place| block_at(store, place)).find(|block| block[0] != 0 && block[16..32] == *iv)
}

/// A held, an erased and an empty block, in this order, and the keys and numbers of the first two.
struct Three {
    key: Key,
    ivs: [Number; 2],
    stay_key: Key,
    store: Vec<u8>,
}

const OF_HELD: usize = 0;
const OF_ERASED: usize = 1;
const OF_EMPTY: usize = 2;

fn three(t: &mut Tester) -> Three {
    let (key, ivs, stay_key) = (t.random.array(), [t.random.array(), t.random.array()], t.random.array());
    let store = [held(&key, &ivs[0], &stay_key), erased(&ivs[1]), [0; BLOCK]].concat();
    Three { key, ivs, stay_key, store }
}

/// Every byte that must be zero by itself, in a block of each mark, with the check made anew and not.
#[test]
fn each_zero_broken() {
    let mut t = Tester::new("each zero of a store broken");
    let Three { key, ivs, store, .. } = three(&mut t);
    let stranger = t.random.array();
    let named = [ivs[0], ivs[1], stranger, [0; 16]];
    for place in [OF_HELD, OF_ERASED, OF_EMPTY] {
        for at in 1..508 {
            let must_be_zero = match at {
                1..16 | 80.. => true,
                16..32 => place == OF_EMPTY,
                _ => place != OF_HELD,
            };
            if !must_be_zero || !t.chosen() {
                continue;
            }
            let byte = 1 + t.random.below(255) as u8;
            let mut unchecked = store.clone();
            unchecked[BLOCK * place + at] = byte;
            let iv = t.random.pick(&named);
            refused(&mut t, &key, &iv, &unchecked);
            refused(&mut t, &key, &iv, &with(&store, place, at, &[byte]));
        }
    }
    // Two words whose sum is zero leave the check as it was.
    for word in (1..3).chain(20..126) {
        let mut unchecked = store.clone();
        unchecked[4 * word..][..8].copy_from_slice(&[1_u32.to_le_bytes(), u32::MAX.to_le_bytes()].concat());
        refused(&mut t, &key, &ivs[0], &unchecked);
    }
    t.done();
}

/// All marks, in a block of each mark, with the check made anew and not.
#[test]
fn every_mark() {
    let mut t = Tester::new("every mark");
    for _ in 0..t.rounds(8) {
        let Three { key, ivs, store, .. } = three(&mut t);
        let stranger = t.random.array();
        for mark in 0..=255 {
            for place in [OF_HELD, OF_ERASED, OF_EMPTY] {
                let of_block = block_at(&store, place)[0];
                let damaged = with(&store, place, 0, &[mark]);
                let iv = if place == OF_EMPTY { [0; 16] } else { ivs[place] };
                let expected = match (of_block, mark) {
                    (HELD, HELD) => [16, 0, 0],
                    (ERASED, ERASED) => [16, 17, 17],
                    (0, 0) => [0, 17, 17],
                    // An erased block that says held has a tag of zeros; a block of zeros that says held or erased has the number of zeros.
                    (ERASED, HELD) | (0, HELD) => [16, 5, 0],
                    (0, ERASED) => [16, 17, 17],
                    _ => [8; 3],
                };
                answer_all(&mut t, &key, &iv, &damaged, expected);
                let full = if place == OF_EMPTY && mark != 0 { 4 } else { 0 };
                let expected = if expected == [8; 3] { [8; 3] } else { [full, 17, 17] };
                answer_all(&mut t, &key, &stranger, &damaged, expected);
                if mark != of_block {
                    let mut unchecked = store.clone();
                    unchecked[BLOCK * place] = mark;
                    refused(&mut t, &key, &iv, &unchecked);
                }
            }
        }
        // Of the number of zeros an erased block that says empty is one.
        let zeros = [block_at(&store, OF_HELD), erased(&[0; 16])].concat();
        answer_all(&mut t, &key, &[0; 16], &zeros, [16, 17, 17]);
        answer_all(&mut t, &key, &[0; 16], &with(&zeros, 1, 0, &[0]), [0, 17, 17]);
    }
    t.done();
}

/// Every bit of a store by itself, the check as it was: it tells each.
#[test]
fn every_bit_of_a_store_flipped() {
    let mut t = Tester::new("every bit of a store flipped");
    let Three { key, ivs, store, .. } = three(&mut t);
    for bit in 0..8 * store.len() {
        if t.chosen() {
            let mut damaged = store.clone();
            damaged[bit / 8] ^= 1 << (bit % 8);
            refused(&mut t, &key, &ivs[0], &damaged);
        }
    }
    t.done();
}

/// Every bit of a store by itself, and the check made anew: a broken rule, another number, a tag that is not the key's, or nothing.
#[test]
fn every_bit_of_a_store_flipped_and_checked() {
    let mut t = Tester::new("every bit of a store flipped and checked");
    let Three { key, ivs: [one, two], store, .. } = three(&mut t);
    for bit in 0..8 * store.len() {
        let (place, at) = (bit / 8 / BLOCK, bit / 8 % BLOCK);
        // A few bits of the many zeros tell as much as all.
        if (80..508).contains(&at) && !bit.is_multiple_of(37) || !t.chosen() {
            continue;
        }
        let damaged = with(&store, place, at, &[store[bit / 8] ^ (1 << (bit % 8))]);
        let flipped: Number = block_at(&damaged, place)[16..32].try_into().unwrap();
        match (place, at) {
            (_, 508..) => answer_all(&mut t, &key, &one, &damaged, [16, 0, 0]),
            (OF_HELD, 16..32) => {
                answer_all(&mut t, &key, &one, &damaged, [0, 17, 17]);
                answer_all(&mut t, &key, &flipped, &damaged, [16, 5, 0]);
            }
            (OF_HELD, 32..80) => answer_all(&mut t, &key, &one, &damaged, [16, 5, 0]),
            (OF_ERASED, 16..32) => {
                answer_all(&mut t, &key, &two, &damaged, [0, 17, 17]);
                answer_all(&mut t, &key, &flipped, &damaged, [16, 17, 17]);
            }
            (OF_EMPTY, 0) if bit % 8 < 2 => {
                let held = bit % 8 == 0;
                answer_all(&mut t, &key, &[0; 16], &damaged, if held { [16, 5, 0] } else { [16, 17, 17] });
                answer_all(&mut t, &key, &one, &damaged, [16, 0, 0]);
            }
            _ => refused(&mut t, &key, &one, &damaged),
        }
    }
    t.done();
}

/// Checks that are off, at every block of a store.
#[test]
fn checks_that_are_off() {
    let mut t = Tester::new("checks of a store that are off");
    for _ in 0..t.rounds(30) {
        let (key, blocks) = (t.random.secret(), 1 + t.random.below(12));
        let Kept { store, .. } = Kept::random(&mut t, &key, blocks);
        let iv = t.random.array();
        for place in 0..blocks {
            for by in [1, 2, 0x100, 0x1_0000, 1 << 24, 1 << 31, u32::MAX] {
                let mut block = block_at(&store, place);
                let off = check(&block).wrapping_add(by);
                block[508..].copy_from_slice(&off.to_le_bytes());
                refused(&mut t, &key, &iv, &with_block(&store, place, &block));
            }
            // High byte first.
            let mut block = block_at(&store, place);
            block[508..].reverse();
            if block != block_at(&store, place) {
                refused(&mut t, &key, &iv, &with_block(&store, place, &block));
            }
        }
    }
    t.done();
}

/// One number in two blocks, held or erased, at every two places of stores of up to 12 blocks; and numbers that are one bit apart.
#[test]
fn numbers_that_stand_twice() {
    let mut t = Tester::new("numbers that stand twice");
    for blocks in 2..=12 {
        let key = t.random.secret();
        let Kept { store, .. } = Kept::random(&mut t, &key, blocks);
        let (fresh, stay_key) = (t.random.array(), t.random.secret::<32>());
        for other in 1..blocks {
            for one in 0..other {
                if !t.chosen() {
                    continue;
                }
                let iv = if t.random.one_in(4) { [0; 16] } else { fresh };
                // The blocks of the store that have the number of zeros make way.
                let mut store = store.clone();
                for place in 0..blocks {
                    if block_at(&store, place)[16..32] == [0; 16] {
                        store = with_block(&store, place, &[0; BLOCK]);
                    }
                }
                let of_number = [held(&key, &iv, &stay_key), erased(&iv)];
                for (of_one, of_other) in [(0, 0), (0, 1), (1, 0), (1, 1)] {
                    let twice = with_block(&with_block(&store, one, &of_number[of_one]), other, &of_number[of_other]);
                    let stranger = t.random.array();
                    refused(&mut t, &key, &iv, &twice);
                    refused(&mut t, &key, &stranger, &twice);
                    let mut near = iv;
                    while block_of(&twice, &near).is_some() {
                        near = iv;
                        near[t.random.below(16)] ^= 1 << t.random.below(8);
                    }
                    let apart = with(&twice, other, 16, &near);
                    let expected = if of_one == 0 { [16, 0, 0] } else { [16, 17, 17] };
                    answer_all(&mut t, &key, &iv, &apart, expected);
                    // Sealed under another number, its key has another tag.
                    let expected = if of_other == 0 { [16, 5, 0] } else { [16, 17, 17] };
                    answer_all(&mut t, &key, &near, &apart, expected);
                }
            }
        }
    }
    t.done();
}

/// The number of 16 zero bytes beside empty blocks, which have zeros there as well.
#[test]
fn the_number_of_zeros() {
    let mut t = Tester::new("the number of zeros");
    for blocks in 0..=12 {
        for before in 0..=blocks {
            let key = t.random.secret();
            let mut kept = Kept::empty(blocks);
            for _ in 0..before {
                let (iv, stay_key) = (kept.stranger(&mut t), t.random.secret());
                kept.store(&mut t, &key, &iv, &stay_key);
            }
            let zeros = [0; 16];
            kept.fetch(&mut t, &key, &zeros);
            kept.erase(&mut t, &zeros);
            let stay_key = t.random.secret();
            let answer = kept.store(&mut t, &key, &zeros, &stay_key);
            t.expect("keys_store", answer, if before < blocks { 0 } else { 4 });
            kept.fetch(&mut t, &key, &zeros);
            kept.store(&mut t, &key, &zeros, &stay_key);
            kept.erase(&mut t, &zeros);
            kept.fetch(&mut t, &key, &zeros);
            kept.erase(&mut t, &zeros);
            let answer = kept.store(&mut t, &key, &zeros, &stay_key);
            t.expect("keys_store", answer, if before < blocks { 16 } else { 4 });
        }
    }
    t.done();
}

/// Stores cut at every length, and zeros of every length.
#[test]
fn lengths_of_stores() {
    let mut t = Tester::new("lengths of stores");
    let Three { key, ivs, store, .. } = three(&mut t);
    for len in (0..=store.len() + 2).chain([2_047, 2_048, 2_049, 4_095, 4_097, 65_535, 65_537, 66_048]) {
        if !t.chosen() {
            continue;
        }
        let whole = len.is_multiple_of(BLOCK);
        let cut = &[&store[..], &vec![0; len]].concat()[..len];
        let expected = match len / BLOCK {
            _ if !whole => [8; 3],
            0 => [4, 17, 17],
            _ => [16, 0, 0],
        };
        answer_all(&mut t, &key, &ivs[0], cut, expected);
        let room = if len == 0 { 4 } else { 0 };
        answer_all(&mut t, &key, &ivs[0], &vec![0; len], if whole { [room, 17, 17] } else { [8; 3] });
    }
    t.done();
}

/// Lengths of keys, numbers and outputs over a wider range.
#[test]
fn lengths_of_keys_and_numbers() {
    let mut t = Tester::new("lengths of keys and numbers");
    let Three { key, ivs, stay_key, store } = three(&mut t);
    let [iv, _] = ivs;
    for len in (0..=80).chain([255, 256, 257, 272, 288, 511, 512, 513, 65_535, 65_536, 65_552, 65_568]) {
        let bytes = t.random.bytes(len);
        let fresh = t.random.array::<16>();
        let answers = [
            (t.keys_store(&bytes, &fresh, &stay_key, &store).0, if len == 32 { 0 } else { 1 }),
            (t.keys_store(&key, &fresh, &bytes, &store).0, if len == 32 { 0 } else { 1 }),
            (t.keys_store(&bytes, &fresh, &bytes, &store).0, if len == 32 { 0 } else { 1 }),
            (t.keys_store(&key, &bytes, &stay_key, &store).0, if len == 16 { 0 } else { 2 }),
            (t.keys_store(&bytes, &bytes, &stay_key, &store).0, if len == 32 { 2 } else { 1 }),
            (t.keys_fetch(&bytes, &iv, &store).0, if len == 32 { 5 } else { 1 }),
            (t.keys_fetch(&key, &bytes, &store).0, if len == 16 { 17 } else { 2 }),
            (t.keys_fetch_in(&key, &iv, &store, len).0, if len < 32 { 4 } else { 0 }),
            (t.keys_fetch_in(&key, &ivs[1], &store, len).0, 17),
            (t.keys_fetch_in(&stay_key, &iv, &store, len).0, 5),
            (t.keys_erase(&bytes, &store).0, if len == 16 { 17 } else { 2 }),
        ];
        for (answer, expected) in answers {
            t.expect("a call with a buffer of another length", answer, expected);
        }
    }
    t.done();
}

/// Other keys of a season; sealed keys and tags that are changed, cut out of another block, or made up.
#[test]
fn keys_that_are_not_theirs() {
    let mut t = Tester::new("keys that are not theirs");
    for _ in 0..t.rounds(600) {
        let (key, blocks) = (t.random.secret(), 2 + t.random.below(11));
        let kept = Kept::random(&mut t, &key, blocks);
        let holders: Vec<(usize, Number)> =
            kept.numbers().into_iter().filter_map(|iv| kept.holder(&iv).map(|(place, _)| (place, iv))).collect();
        for (place, iv) in &holders {
            let foreign = near_key(&mut t, &key);
            kept.fetch(&mut t, &foreign, iv);
            let out_len = t.random.pick(&[0, 31, 32, 40]);
            let answer = t.keys_fetch_in(&foreign, iv, &kept.store, out_len).0;
            t.expect("keys_fetch", answer, 5);

            let at = 32 + t.random.below(48);
            let damaged = with(&kept.store, *place, at, &[kept.store[BLOCK * place + at] ^ 1 << t.random.below(8)]);
            let answer = t.keys_fetch_in(&key, iv, &damaged, out_len).0;
            t.expect("keys_fetch", answer, 5);
            // What stands in the other blocks makes no difference, nor does it to erasing.
            for (_, other) in holders.iter().filter(|(_, other)| other != iv) {
                let answer = t.keys_fetch(&key, other, &damaged).0;
                t.expect("keys_fetch", answer, 0);
            }
            let (answer, after) = t.keys_erase(iv, &damaged);
            t.expect("keys_erase", answer, 0);
            if after != with_block(&kept.store, *place, &erased(iv)) {
                t.fail("keys_erase", "both leave something of a damaged key".into());
            }
        }
        if let [(one, iv), (other, _), ..] = holders[..] {
            let sealed = &kept.store[BLOCK * other + 32..BLOCK * other + 80];
            let answer = t.keys_fetch(&key, &iv, &with(&kept.store, one, 32, sealed)).0;
            t.expect("keys_fetch", answer, 5);
        }
    }
    t.done();
}

/// Outputs of several lengths, for every number of a store.
#[test]
fn outputs_of_a_fetch() {
    let mut t = Tester::new("outputs of a fetch");
    for _ in 0..t.rounds(100) {
        let (key, blocks) = (t.random.secret(), t.random.below(13));
        let kept = Kept::random(&mut t, &key, blocks);
        for iv in kept.numbers() {
            for out_len in [0, 1, 16, 31, 32, 33, 40, 512] {
                let answer = t.keys_fetch_in(&key, &iv, &kept.store, out_len).0;
                let expected = match kept.holder(&iv) {
                    None => 17,
                    Some(_) if out_len < 32 => 4,
                    Some(_) => 0,
                };
                t.expect("keys_fetch", answer, expected);
            }
        }
    }
    t.done();
}

/// Blocks of random bytes, and random bytes and marks where the layout leaves them free, out of a few numbers.
#[test]
fn random_blocks_of_a_store() {
    let mut t = Tester::new("random blocks of a store");
    for _ in 0..t.rounds(6_000) {
        let key = t.random.secret::<32>();
        let named = numbers(&mut t, 6);
        let mut store = vec![];
        for _ in 0..t.random.below(7) {
            let iv = t.random.pick(&named);
            let block = match t.random.below(24) {
                0 => t.random.array(),
                1 => checked(t.random.array()),
                2 => {
                    let mark = t.random.pick(&[0, 2, 3, 255]);
                    laid(mark, &iv, &t.random.array::<32>(), &t.random.array::<16>())
                }
                3..=9 => [0; BLOCK],
                10..=13 => erased(&iv),
                14..=16 => laid(HELD, &iv, &t.random.secret::<32>(), &t.random.secret::<16>()),
                _ => held(&key, &iv, &t.random.secret::<32>()),
            };
            store.extend(block);
        }
        match t.random.below(16) {
            0 => store.truncate(t.random.below(store.len() + 1)),
            1 => store.push(0),
            2 if !store.is_empty() => {
                let at = t.random.below(store.len());
                store[at] ^= 1 << t.random.below(8);
            }
            _ => {}
        }
        for iv in named {
            let (stay_key, out_len) = (t.random.secret::<32>(), t.random.pick(&[32, 32, 32, 31]));
            t.keys_store(&key, &iv, &stay_key, &store);
            t.keys_fetch_in(&key, &iv, &store, out_len);
            t.keys_erase(&iv, &store);
        }
    }
    t.done();
}

/// Stores of more than 256 blocks, and of 1,000: the last block is filled, fetched from and erased in, and a rule broken anywhere is found.
#[test]
fn long_stores() {
    let mut t = Tester::new("long stores");
    if t.checked() {
        println!("long stores: left out, a memory checker would take too long");
        return;
    }
    for (blocks, rounds) in [(257, 40), (1_000, 8)] {
        let key = t.random.array();
        let named: Vec<Number> = (0..blocks as u128).map(|n| (n * 0x1_0000_0000_0000_0001).to_le_bytes()).collect();
        let entry = |t: &mut Tester, iv: &Number| Some(Entry { iv: *iv, key, stay_key: (!t.random.one_in(4)).then(|| t.random.array()) });
        let mut entries: Vec<_> = named[1..].iter().map(|iv| entry(&mut t, iv)).collect();
        entries.push(None);
        let mut kept = Kept::of(entries);
        for iv in [named[0], named[1], named[256], named[blocks - 1]] {
            kept.fetch(&mut t, &key, &iv);
        }
        let stay_key = t.random.array();
        for iv in [named[1], named[0], named[0], [0xff; 16]] {
            kept.store(&mut t, &key, &iv, &stay_key);
        }
        kept.fetch(&mut t, &key, &named[0]);
        for _ in 0..t.rounds(rounds) {
            let (one, other) = (t.random.below(blocks), t.random.below(blocks));
            let iv = t.random.pick(&named);
            kept.fetch(&mut t, &key, &iv);
            let mut damaged = kept.store.clone();
            damaged[BLOCK * one + 80 + t.random.below(400)] = 1;
            refused(&mut t, &key, &iv, &damaged);
            if one != other {
                let number = block_at(&kept.store, one)[16..32].to_vec();
                refused(&mut t, &key, &iv, &with(&kept.store, other, 16, &number));
            }
        }
        kept.erase(&mut t, &named[0]);
        kept.fetch(&mut t, &key, &named[0]);
        kept.erase(&mut t, &named[blocks - 1]);
    }
    t.done();
}

/// Buffers that are only read may overlap each other: both keys and the number from one run of bytes, and a number taken out of the store itself.
#[test]
fn overlapping_inputs_of_a_store() {
    let mut t = Tester::new("overlapping inputs of a store");
    for _ in 0..t.rounds(300) {
        let bytes = t.random.bytes(100);
        let (key, iv, stay_key) = (t.random.below(68), t.random.below(84), t.random.below(68));
        let mut store = [0; 2 * BLOCK];
        calls::keys_store(&bytes[key..key + 32], &bytes[iv..iv + 16], &bytes[stay_key..stay_key + 32], &mut store).unwrap();
        let (b, mut found, before) = (bytes.as_ptr(), [0; 2 * BLOCK], bytes.clone());
        let s = found.as_mut_ptr();
        let answer = unsafe { tulvekas_keys_store(b.add(key), 32, b.add(iv), 16, b.add(stay_key), 32, s, found.len()) };
        t.count(answer);
        if answer != 0 || found != store || bytes != before {
            t.fail("keys_store", "another store from overlapping inputs".into());
        }
        let mut fetched = [0; 32];
        let s = found.as_ptr();
        let answer = unsafe { tulvekas_keys_fetch(b.add(key), 32, s.add(16), 16, s, found.len(), fetched.as_mut_ptr(), 32) };
        t.count(answer);
        if answer != 0 || fetched != bytes[stay_key..stay_key + 32] || found != store || bytes != before {
            t.fail("keys_fetch", "another key from overlapping inputs".into());
        }
    }
    t.done();
}
