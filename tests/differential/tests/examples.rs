//! The examples in C and Python.

use reference::block::Block;
use reference::calendar::{self, Date};
use reference::cipher::{run, Direction, Key, Mode, Registers, State};
use reference::refusal::Refusal;
use reference::scheduler::Scheduler;
use reference::session::Session;
use reference::{calls, keeping, key_store, page, page_file, search, suspended, trace};
use std::path::Path;
use std::process::Command;

/// examples/run seals, suspends, resumes and opens a page in each language, seals and opens pages of a file and says until when they are kept,
/// walks and traces states, stores, fetches and erases keys, searches a dump, and seals stays' pages in turns.
#[test]
fn examples() {
    let script = Path::new(env!("CARGO_MANIFEST_DIR")).join("../../examples/run");
    let status = Command::new(&script).status().unwrap_or_else(|error| panic!("{}: {error}", script.display()));
    assert!(status.success(), "{}: {status}", script.display());
}

/// The key of all examples.
fn key() -> [u8; 32] {
    std::array::from_fn(|i| if i < 16 { 0x50 + i as u8 } else { 16 * (i as u8 - 16) + 10 })
}

fn hex(bytes: &[u8]) -> String {
    bytes.iter().map(|byte| format!("{byte:02x}")).collect()
}

const PAGE_FILE: &str = include_str!("../../../examples/page_file.stdout");

/// The day of a date that is not lacking.
fn day(year: u64, month: u64, day: u64) -> u64 {
    calendar::day(Date { year, month, day }).unwrap()
}

/// The tags that the examples of a page file must print are the reference's.
#[test]
fn tags_of_the_page_file() {
    let key = key();
    let mut file = [0; 4 * 512];
    let pages: [(&[u8], u32, u64, &[u8]); 3] = [
        (b"2026 no. 042", 0, day(2026, 11, 15), b"Mari Saar"),
        (b"2026 no. 043", 0, day(2026, 8, 31), b"Jaan Tamm, Liis Tamm"),
        (b"2026 no. 042", 1, day(2026, 11, 15), b"tax for two nights: 4.00"),
    ];
    for (place, (stay, page, day, text)) in (0..).zip(pages) {
        page_file::seal(&key, stay, page, day, text, place, &mut file).unwrap();
    }
    for (place, page) in file.chunks(512).enumerate() {
        let tag = hex(&page[496..]);
        assert!(PAGE_FILE.contains(&format!("tag at place {place}: {tag}\n")), "place {place}: {tag}");
    }
}

/// What they must print of departures and of which stays are kept is the reference's.
#[test]
fn kept_stays_of_the_page_file() {
    let written = |date: Date| format!("{:04}-{:02}-{:02}", date.year, date.month, date.day);
    let on = |day| written(calendar::date(day).unwrap());
    let stays = [("2026 no. 042", day(2026, 11, 15)), ("2026 no. 043", day(2026, 8, 31))];
    let mut printed = String::new();
    for (stay, departure) in stays {
        let until = keeping::kept_until(departure).unwrap();
        printed += &format!("{stay}: departure {}, kept until {}\n", on(departure), written(until));
    }
    for today in [day(2028, 2, 29), day(2028, 3, 1)] {
        printed += &format!("on {}:\n", on(today));
        for (stay, departure) in stays {
            let kept = if keeping::kept(today, departure).unwrap() { "kept" } else { "not kept" };
            printed += &format!("{stay}: {kept}\n");
        }
    }
    let lacking = Date { year: 2026, month: 2, day: 29 };
    let refusal = calendar::day(lacking).unwrap_err();
    printed += &format!("a date that the calendar lacks:\n{}: refused {}\n", written(lacking), refusal as u64);
    assert!(PAGE_FILE.contains(&printed), "{printed}");
}

/// What the examples of states must print is what the reference gives.
#[test]
fn output_of_the_states() {
    let (key, iv) = (key(), 0x0123456789abcdeffedcba9876543210_u128.to_be_bytes());
    let mut state = State::start(&Key::new(&key).unwrap(), &iv, Mode::Plain);
    let forward: Vec<Block> = (0..3).map(|_| state.step().unwrap()).collect();
    let after = state.count;
    let back: Vec<Block> = (0..3).map(|_| state.step_back().unwrap()).collect();
    let refused = |refusal: Refusal| format!("refused {}", refusal as u64);
    let mut printed =
        format!("forward: {}\ncount: {after}\nback: {}\ncount: {}\n", hex(&forward.concat()), hex(&back.concat()), state.count);
    printed += &format!("a block before the start: {}\n", refused(state.step_back().unwrap_err()));

    let (mut session, mut block) = (Session::begin(&key, &iv).unwrap(), [0; 512]);
    session.text(&[0; 20], &mut [0; 20]).unwrap();
    suspended::suspend(&session, &mut block).unwrap();
    let mut state = suspended::state_of(&block).unwrap();
    let (found, mode) = trace::trace(&state, &key).unwrap();
    let mode = if mode == Mode::Sealed { "sealed" } else { "plain" };
    printed += &format!("count: {}\nIV: {}\nmode: {mode}\n", state.count, hex(&found));
    let mut other = key;
    other[0] ^= 1;
    printed += &format!("under another key: {}\n", refused(trace::trace(&state, &other).unwrap_err()));
    state.count = 65_539;
    printed += &format!("count: {}\ntrace: {}\n", state.count, refused(trace::trace(&state, &key).unwrap_err()));
    printed += &format!("no block back: {}\n", refused(run(&mut state, 0, Direction::Back, &mut []).unwrap_err()));
    assert_eq!(include_str!("../../../examples/states.stdout"), printed);
}

/// What the examples of a dump must print is what the reference gives.
#[test]
fn output_of_the_dump() {
    let (key, iv) = (key(), 0x0123456789abcdeffedcba9876543210_u128.to_be_bytes());
    let (mut session, mut block) = (Session::begin(&key, &iv).unwrap(), [0; 512]);
    let text = b"Mari Saar; pitch 12; two nights; tax 4.00";
    let mut cipher = [0; 41];
    session.text(text, &mut cipher).unwrap();
    suspended::suspend(&session, &mut block).unwrap();
    let dump: [u8; 112] = block[16..128].try_into().unwrap();
    let (lowest, highest) = (2, 2 + page_file::MOST_PAGE_TEXT.div_ceil(16) as u64);

    let origin = |iv: Block, mode: Mode| format!("IV: {}\nmode: {}\n", hex(&iv), if mode == Mode::Sealed { "sealed" } else { "plain" });
    let found = search::search(&dump, &key, lowest, highest).unwrap();
    let mut printed = format!("count: {}\n{}steps: {}\n", found.count, origin(found.iv, found.mode), found.steps);
    let mut state = State { registers: Registers::from_bytes(&dump), count: found.count };
    let (traced, mode) = trace::trace(&state, &key).unwrap();
    printed += &format!("traced:\n{}", origin(traced, mode));
    let mut stream = vec![0; 16 * found.count as usize];
    run(&mut state, found.count, Direction::Back, &mut stream).unwrap();
    let keystream: Vec<u8> = stream.chunks(16).rev().skip(2).flatten().copied().collect();
    let read: Vec<u8> = cipher.iter().zip(keystream).map(|(byte, key)| byte ^ key).collect();
    printed += &format!("text: {}\ncount: {}\n", String::from_utf8(read).unwrap(), state.count);

    let mut other = key;
    other[0] ^= 1;
    for (what, key, lowest) in [("counts from 6 on", &key, 6), ("under another key", &other, lowest)] {
        let refused = search::search(&dump, key, lowest, highest).unwrap_err();
        printed += &format!("{what}: refused {}\nsteps: {}\n", refused.refusal as u64, refused.steps.unwrap());
    }
    let refused = search::search(&dump, &key, highest, lowest).unwrap_err();
    assert_eq!(refused.steps, None);
    printed += &format!("from the highest to the lowest: refused {}\n", refused.refusal as u64);
    assert_eq!(include_str!("../../../examples/dump.stdout"), printed);
}

/// What the examples of a key store must print is what the reference gives.
#[test]
fn output_of_the_keys() {
    let (key, numbers) = (key(), [b"2026 stay no. 42", b"2026 stay no. 43", b"2026 stay no. 44"]);
    let mut store = [0; 3 * 512];
    let stay_key = |first: u8| -> [u8; 32] { std::array::from_fn(|i| first + i as u8) };
    key_store::store(&key, numbers[0], &stay_key(42), &mut store).unwrap();
    key_store::store(&key, numbers[1], &stay_key(143), &mut store).unwrap();
    let blocks = |store: &[u8]| {
        let mut printed = String::new();
        for (place, block) in store.chunks(512).enumerate() {
            let number = String::from_utf8_lossy(&block[16..32]);
            let said = ["empty".into(), format!("held, {number}"), format!("erased, {number}")];
            printed += &format!("block {place}: {}\n", said[usize::from(block[0])]);
        }
        printed + &format!("tag of block 0: {}\n", hex(&store[64..80]))
    };
    let refused = |refusal: Refusal| format!("refused {}", refusal as u64);
    let fetch = |key: &[u8], number: &[u8; 16], store: &[u8]| {
        let said = key_store::fetch(key, number, store).map_or_else(refused, |_| "its key is there".into());
        format!("{}: {said}\n", String::from_utf8_lossy(number))
    };
    let mut printed = blocks(&store) + &fetch(&key, numbers[0], &store) + &fetch(&key, numbers[1], &store);
    let mut cipher = [0; 9];
    let fetched = key_store::fetch(&key, numbers[0], &store).unwrap();
    let tag = page::seal(&fetched, &1_u128.to_le_bytes(), &[], b"Mari Saar", &mut cipher).unwrap();
    printed += &format!("page: {}\nits tag: {}\n", hex(&cipher), hex(&tag));
    let mut another = key;
    another[0] ^= 1;
    printed += &format!("a number that is not there:\n{}", fetch(&key, numbers[2], &store));
    printed += &format!("under another season's key:\n{}", fetch(&another, numbers[0], &store));
    key_store::erase(numbers[0], &mut store).unwrap();
    printed += &format!("erased:\n{}", blocks(&store) + &fetch(&key, numbers[0], &store) + &fetch(&key, numbers[1], &store));
    let erased = key_store::erase(numbers[0], &mut store).unwrap_err();
    let stored = key_store::store(&key, numbers[0], &stay_key(44), &mut store).unwrap_err();
    printed += &format!("erased or stored again:\nerase: {}\nstore: {}\n", refused(erased), refused(stored));
    store[2 * 512 + 100] ^= 1;
    printed += &format!("a bit of block 2 changed:\n{}", fetch(&key, numbers[1], &store));
    assert_eq!(include_str!("../../../examples/keys.stdout"), printed);
}

/// A stay of the examples of a scheduler: its number, its key and its text.
fn stay(no: u8, length: usize) -> ([u8; 16], [u8; 32], Vec<u8>) {
    let name = format!("2026 stay no. {no:02}").into_bytes();
    let text = (0..length).map(|i| b'a' + ((usize::from(no) + i) % 26) as u8).collect();
    (name.try_into().unwrap(), std::array::from_fn(|i| no + i as u8), text)
}

/// What the examples of a scheduler must print is what the reference gives.
#[test]
fn output_of_the_scheduler() {
    let stays = [stay(42, 10_000), stay(43, 500), stay(44, 4_096), stay(45, 5_000)];
    let said = |iv: &[u8]| String::from_utf8(iv.to_vec()).unwrap();
    let refused = |what: &str, refusal: Refusal| format!("{what}: refused {}\n", refusal as u64);
    let (mut scheduler, mut sealed, mut out) = (Scheduler::empty(), [0; 4], [0; 4_096]);
    let join = |scheduler: &mut Scheduler, i: usize| {
        let (iv, key, text) = &stays[i];
        scheduler.join(key, iv, text.len() as u64).unwrap();
        format!("{} joins with {} bytes\n", said(iv), text.len())
    };
    let mut printed: String = (0..3).map(|i| join(&mut scheduler, i)).collect();
    printed += &refused("a second stay with that number", scheduler.join(&stays[1].1, &stays[0].0, 1).unwrap_err());
    printed += &refused("a text of no bytes", scheduler.join(&stays[3].1, &stays[3].0, 0).unwrap_err());
    printed += &refused("a piece of 4095 bytes", scheduler.turn(&stays[0].2[..4_095], &mut out).unwrap_err());
    printed += &refused("an output of 4095 bytes", scheduler.turn(&stays[0].2[..4_096], &mut out[..4_095]).unwrap_err());
    while let Some(next) = scheduler.next() {
        let (i, due) = (stays.iter().position(|(iv, ..)| *iv == next.iv()).unwrap(), next.due() as usize);
        let (iv, key, text) = &stays[i];
        let service = scheduler.turn(&text[sealed[i]..][..due], &mut out).unwrap().unwrap();
        sealed[i] += due;
        printed += &format!("turn {}: {}, {due} bytes\n", service.turn, said(&service.iv));
        if let Some(tag) = service.tag {
            assert_eq!(page::seal(key, iv, &[], text, &mut vec![0; text.len()]), Ok(tag));
            printed += &format!("it leaves with tag {}\n", hex(&tag));
        }
        if service.turn == 2 {
            printed += &join(&mut scheduler, 3);
        }
    }
    assert_eq!(scheduler.turn(&[], &mut []), Ok(None));
    printed += "nobody is there\n";
    for (iv, key, _) in (0..32).map(|no| stay(no, 1)) {
        scheduler.join(&key, &iv, 1).unwrap();
    }
    let (iv, key, _) = stay(32, 1);
    printed += &refused("a thirty-third stay", scheduler.join(&key, &iv, 1).unwrap_err());
    printed += &refused("a scheduler without its last byte", calls::schedule_join(&mut [0; 8_207], &key, &iv, 1).unwrap_err());
    assert_eq!(include_str!("../../../examples/scheduler.stdout"), printed);
}
