//! The reference alone against document 01's trial bookings, document 02's page file, counts, dates, keeping, key store, search and scheduler, and both
//! directions of the cipher against each other.

use reference::block::plus;
use reference::calendar::{self, Date};
use reference::cipher::{run, Direction, Key, Mode, Registers, State, MOST_BLOCKS};
use reference::lfsr::{alpha, alpha_inverse, beta, beta_inverse, clock, clock_back};
use reference::refusal::Refusal;
use reference::scheduler::{Scheduler, Service, Stay, MOST_TURNS};
use reference::session::Session;
use reference::{aes, ghash, keeping, key_store, page, page_file, search, suspended, trace};

const ZERO: Registers = Registers { a: [0; 16], b: [0; 16], r1: [0; 16], r2: [0; 16], r3: [0; 16] };

#[test]
fn cells() {
    assert_eq!(alpha(0x8000), 0x990f);
    assert_eq!(alpha_inverse(1), 0xcc87);
    assert_eq!(beta(0x8000), 0xc963);
    assert_eq!(beta_inverse(1), 0xe4b1);
    for v in 0..=u16::MAX {
        assert_eq!(alpha_inverse(alpha(v)), v);
        assert_eq!(beta_inverse(beta(v)), v);
    }
}

#[test]
fn one_clock() {
    let (mut a, mut b) = ([0; 16], [0; 16]);
    a[0] = 1;
    clock(&mut a, &mut b);
    let (mut after_a, mut after_b) = ([0; 16], [0; 16]);
    after_a[15] = 2;
    after_b[15] = 1;
    assert_eq!((a, b), (after_a, after_b));
    clock_back(&mut a, &mut b);
    let mut before_a = [0; 16];
    before_a[0] = 1;
    assert_eq!((a, b), (before_a, [0; 16]));
}

/// Each single bit of the 512, there and back: the clock is linear, so this covers every state of the registers.
#[test]
fn clock_undone() {
    for bit in 0..512 {
        let (mut a, mut b) = ([0u16; 16], [0u16; 16]);
        let register = if bit < 256 { &mut a } else { &mut b };
        register[bit / 16 % 16] = 1 << (bit % 16);
        let before = (a, b);
        clock(&mut a, &mut b);
        clock_back(&mut a, &mut b);
        assert_eq!((a, b), before);
        clock_back(&mut a, &mut b);
        clock(&mut a, &mut b);
        assert_eq!((a, b), before);
    }
}

/// FIPS 197, appendix B, round 1: the state behind MixColumns, by columns.
#[test]
fn aes_round() {
    let hex = |text: &str| -> [u8; 16] { std::array::from_fn(|i| u8::from_str_radix(&text[2 * i..2 * i + 2], 16).unwrap()) };
    let start = hex("193de3bea0f4e22b9ac68d2ae9f84808");
    let mixed = hex("046681e5e0cb199a48f8d37a2806264c");
    assert_eq!(aes::round(&start), mixed);
    assert_eq!(aes::round_back(&mixed), start);
    assert_eq!(aes::round(&[0; 16]), [0x63; 16]);
    for byte in 0..=255 {
        let block = std::array::from_fn(|i| if i % 5 == 0 { byte } else { 0 });
        assert_eq!(aes::round_back(&aes::round(&block)), block);
    }
}

#[test]
fn zero_state() {
    let mut registers = ZERO;
    assert_eq!([registers.step(), registers.step(), registers.step()], [[0; 16], [0x63; 16], [0xa5; 16]]);
}

#[test]
fn no_carry_between_words() {
    let mut x = [0; 16];
    x[..4].fill(0xff);
    let mut one = [0; 16];
    one[0] = 1;
    assert_eq!(plus(&x, &one), [0; 16]);
}

#[test]
fn ghash_product() {
    let one = 0x80 << 120;
    assert_eq!(ghash::multiply(one, 0x1234_5678), 0x1234_5678);
    assert_eq!(ghash::multiply(0x1234_5678, one), 0x1234_5678);
    assert_eq!(ghash::multiply(1, 0x40 << 120), 0xe1 << 120);
}

#[test]
fn first_start_block_is_the_high_half_of_the_key() {
    let bytes: [u8; 32] = std::array::from_fn(|i| (37 * i + 11) as u8);
    let key = Key::new(&bytes).unwrap();
    for mode in [Mode::Plain, Mode::Sealed] {
        assert_eq!(Registers::load(&key, &[0x5a; 16], mode).start_step(&key, 1)[..], bytes[16..]);
    }
}

#[test]
fn steps_undone() {
    let bytes: [u8; 112] = std::array::from_fn(|i| (i * i + 3 * i + 7) as u8);
    let before = Registers::from_bytes(&bytes);
    assert_eq!(before.to_bytes(), bytes);
    let mut registers = before.clone();
    let forward: Vec<_> = (0..100).map(|_| registers.step()).collect();
    let mut back: Vec<_> = (0..100).map(|_| registers.step_back()).collect();
    back.reverse();
    assert_eq!(forward, back);
    assert_eq!(registers, before);
    let mut back: Vec<_> = (0..100).map(|_| registers.step_back()).collect();
    back.reverse();
    assert_eq!(back, (0..100).map(|_| registers.step()).collect::<Vec<_>>());
    assert_eq!(registers, before);
}

#[test]
fn no_data_and_no_text() {
    let (key, iv) = ([7; 32], [9; 16]);
    let mut state = State::start(&Key::new(&key).unwrap(), &iv, Mode::Sealed);
    state.step().unwrap();
    let end_pad = state.step().unwrap();
    assert_eq!(page::seal(&key, &iv, &[], &[], &mut []), Ok(end_pad));
    assert_eq!(Session::begin(&key, &iv).unwrap().finish(), Ok((end_pad, iv)));
}

#[test]
fn limits() {
    let text = vec![0; 1_048_577];
    let mut out = vec![0; 1_048_577];
    let mut session = Session::begin(&[7; 32], &[9; 16]).unwrap();
    assert_eq!(session.text(&text[..1_048_576], &mut out), Ok(()));
    assert_eq!(session.text(&text[..1], &mut out), Err(Refusal::TooLong));
    assert_eq!(page::seal(&[7; 32], &[9; 16], &[], &text, &mut out), Err(Refusal::TooLong));

    let before = State { registers: ZERO, count: 0 };
    let (mut state, mut out) = (before.clone(), vec![0; 16 * 65_539]);
    assert_eq!(run(&mut state, MOST_BLOCKS + 1, Direction::Forward, &mut out), Err(Refusal::CountTooHigh));
    assert_eq!(run(&mut state, MOST_BLOCKS, Direction::Forward, &mut out[..16 * 65_538 - 1]), Err(Refusal::ShortOutput));
    assert_eq!(state, before);
    assert_eq!(run(&mut state, MOST_BLOCKS, Direction::Forward, &mut out), Ok(()));
}

/// S-2's edges: 65,538 reached by steps and by runs, and the start reached again; each one further refused, and the state as it was.
#[test]
fn counts() {
    let start = State::start(&Key::new(&[7; 32]).unwrap(), &[9; 16], Mode::Plain);
    let mut state = start.clone();
    assert_eq!(state.count, 0);
    assert_eq!(state.step_back(), Err(Refusal::BeforeStart));
    assert_eq!(run(&mut state, 1, Direction::Back, &mut []), Err(Refusal::BeforeStart));
    assert_eq!(run(&mut state, 65_539, Direction::Back, &mut []), Err(Refusal::CountTooHigh));
    assert_eq!(run(&mut state, 0, Direction::Back, &mut []), Ok(()));
    assert_eq!(state, start);

    let mut out = vec![0; 16 * 65_538];
    run(&mut state, 65_537, Direction::Forward, &mut out).unwrap();
    let mut by_run = state.clone();
    run(&mut by_run, 1, Direction::Forward, &mut out).unwrap();
    state.step().unwrap();
    assert_eq!((by_run.count, &by_run), (65_538, &state));
    assert_eq!(state.step(), Err(Refusal::CountTooHigh));
    assert_eq!(run(&mut state, 1, Direction::Forward, &mut out), Err(Refusal::CountTooHigh));
    assert_eq!(run(&mut state, 0, Direction::Forward, &mut []), Ok(()));
    assert_eq!(state, by_run);
    assert_eq!(trace::trace(&state, &[7; 32]), Ok(([9; 16], Mode::Plain)));
    run(&mut state, 65_538, Direction::Back, &mut out).unwrap();
    assert_eq!(state, start);

    for count in [65_539, u64::MAX] {
        let over = State { registers: start.registers.clone(), count };
        let mut state = over.clone();
        assert_eq!((state.step(), state.step_back()), (Err(Refusal::CountTooHigh), Err(Refusal::CountTooHigh)));
        for direction in [Direction::Forward, Direction::Back] {
            assert_eq!(run(&mut state, 0, direction, &mut []), Err(Refusal::CountTooHigh));
        }
        assert_eq!(trace::trace(&state, &[7; 32]), Err(Refusal::CountTooHigh));
        assert_eq!(state, over);
    }
}

/// A session's count is 2 + text / 16 rounded up, and its block's state has it; the bytes of a session say all of it.
#[test]
fn counts_of_sessions() {
    for text_len in [0, 1, 15, 16, 17, 32, 33, 1_048_575, 1_048_576_usize] {
        let mut session = Session::begin(&[7; 32], &[9; 16]).unwrap();
        session.text(&vec![3; text_len], &mut vec![0; text_len]).unwrap();
        assert_eq!(session.state().count, 2 + text_len.div_ceil(16) as u64);
        assert_eq!(Session::from_bytes(&session.to_bytes()), session);
        let mut block = [0; 512];
        suspended::suspend(&session, &mut block).unwrap();
        let state = suspended::state_of(&block).unwrap();
        assert_eq!(&state, session.state());
        assert_eq!(trace::trace(&state, &[7; 32]), Ok(([9; 16], Mode::Sealed)));
        block[508] ^= 1;
        assert_eq!(suspended::state_of(&block), Err(Refusal::BadBlock));
    }
}

/// S-8 by traces, count by count: the first that finds an origin is the answer. Walked are the steps to the lowest count, one more to each further
/// count, and 16 at each.
fn by_traces(state: &State, key: &[u8], lowest: u64, highest: u64) -> Result<search::Found, search::Refused> {
    let mut steps = lowest;
    for count in lowest..=highest {
        steps += if count == lowest { 16 } else { 17 };
        if let Ok((iv, mode)) = trace::trace(&State { count, ..state.clone() }, key) {
            return Ok(search::Found { count, iv, mode, steps });
        }
    }
    Err(search::Refused { refusal: Refusal::NoOrigin, steps: Some(steps) })
}

#[test]
fn searches() {
    for mode in [Mode::Plain, Mode::Sealed] {
        for at in [0, 1, 2, 9] {
            let mut state = State::start(&Key::new(&[7; 32]).unwrap(), &[9; 16], mode);
            run(&mut state, at, Direction::Forward, &mut [0; 16 * 9]).unwrap();
            let dump = state.registers.to_bytes();
            for (lowest, highest) in (0..12).flat_map(|lowest| (lowest..12).map(move |highest| (lowest, highest))) {
                for key in [[7; 32], [8; 32]] {
                    let found = search::search(&dump, &key, lowest, highest);
                    assert_eq!(found, by_traces(&state, &key, lowest, highest), "{at} in {lowest} to {highest}");
                    assert_eq!(found.is_ok(), key == [7; 32] && (lowest..=highest).contains(&at));
                }
            }
        }
    }
}

/// S-8's refusals in their order, and that only 6 carries steps.
#[test]
fn refused_searches() {
    let (key, dump) = ([7; 32], [0; 112]);
    let refused = |dump: &[u8], key: &[u8], lowest, highest| {
        let refused = search::search(dump, key, lowest, highest).unwrap_err();
        (refused.refusal as u64, refused.steps)
    };
    assert_eq!(refused(&dump[1..], &key[1..], 65_540, 65_539), (1, None));
    assert_eq!(refused(&dump[1..], &key, 65_540, 65_539), (8, None));
    assert_eq!(refused(&dump, &key, 65_540, 65_539), (9, None));
    assert_eq!(refused(&dump, &key, 0, u64::MAX), (9, None));
    assert_eq!(refused(&dump, &key, 65_539, 65_538), (18, None));
    assert_eq!(refused(&dump, &key, u64::MAX, 0), (18, None));
    assert_eq!(refused(&dump, &key, 0, 0), (6, Some(16)));
    assert_eq!(refused(&dump, &key, 3, 5), (6, Some(5 + 48)));
    assert_eq!(refused(&dump, &key, 65_538, 65_538), (6, Some(65_554)));
}

/// S-4's dates: where the days begin and end, leap years, and dates that are lacking.
#[test]
fn dates() {
    for (number, year, month, day) in [
        (0, 2000, 1, 1),
        (59, 2000, 2, 29),
        (60, 2000, 3, 1),
        (366, 2001, 1, 1),
        (9_009, 2024, 8, 31),
        (36_583, 2100, 2, 28),
        (36_584, 2100, 3, 1),
        (73_048, 2199, 12, 31),
    ] {
        let date = Date { year, month, day };
        assert_eq!((calendar::date(number), calendar::day(date)), (Ok(date), Ok(number)));
    }
    assert_eq!(calendar::date(73_049), Err(Refusal::DayRange));
    assert_eq!(calendar::date(u64::MAX), Err(Refusal::DayRange));
    for (year, month, day) in [
        (2100, 2, 29),
        (2026, 2, 29),
        (2024, 2, 30),
        (2024, 4, 31),
        (2024, 0, 1),
        (2024, 13, 1),
        (2024, 1, 0),
        (2024, 1, 32),
        (1999, 12, 31),
        (2200, 1, 1),
        (0, 0, 0),
        (u64::MAX, u64::MAX, u64::MAX),
    ] {
        assert_eq!(calendar::day(Date { year, month, day }), Err(Refusal::DayRange), "{year} {month} {day}");
    }
}

/// S-4's edges: 28 February kept and 1 March not, and dates past 2199.
#[test]
fn kept_months() {
    let day = |year, month, day| calendar::day(Date { year, month, day }).unwrap();
    let departure = day(2024, 8, 31);
    assert_eq!(keeping::kept_until(departure), Ok(Date { year: 2026, month: 2, day: 28 }));
    assert_eq!(keeping::kept(day(2026, 2, 28), departure), Ok(true));
    assert_eq!(keeping::kept(day(2026, 3, 1), departure), Ok(false));
    assert_eq!(keeping::kept(day(2026, 3, 2), departure), Ok(false));
    assert_eq!(keeping::kept_until(day(2022, 8, 30)), Ok(Date { year: 2024, month: 2, day: 29 }));
    assert_eq!(keeping::kept_until(day(2098, 8, 29)), Ok(Date { year: 2100, month: 2, day: 28 }));
    assert_eq!(keeping::kept_until(0), Ok(Date { year: 2001, month: 7, day: 1 }));

    assert_eq!(keeping::kept_until(73_048), Ok(Date { year: 2201, month: 6, day: 30 }));
    assert_eq!(keeping::kept(73_048, 73_048), Ok(true));
    assert_eq!(keeping::kept_until(day(2198, 7, 1)), Ok(Date { year: 2200, month: 1, day: 1 }));
    assert_eq!(keeping::kept(73_048, day(2198, 7, 1)), Ok(true));
    assert_eq!(keeping::kept(73_048, day(2198, 6, 30)), Ok(false));

    assert_eq!(keeping::kept(0, 73_048), Ok(true));
    assert_eq!(keeping::kept(73_048, 0), Ok(false));
    assert_eq!(keeping::kept(73_049, 0), Err(Refusal::DayRange));
    assert_eq!(keeping::kept(0, 73_049), Err(Refusal::DayRange));
    assert_eq!(keeping::kept_until(73_049), Err(Refusal::DayRange));
}

/// The bytes of a page as S-1 lists them, and a page opened by stay and page number, not by place.
#[test]
fn page_file_layout() {
    let (key, stay, text): ([u8; 32], [u8; 12], &[u8]) = ([7; 32], std::array::from_fn(|i| i as u8 + 1), b"one guest");
    let mut file = [0; 1024];
    assert_eq!(page_file::seal(&key, &stay, 0, 73_048, text, 1, &mut file), Ok(()));
    assert_eq!(file[..512], [0; 512]);
    let page = &file[512..];
    assert_eq!(page[..22], [1, 2, 3, 4, 5, 6, 7, 8, 9, 10, 11, 12, 0, 0, 0, 0, 0x58, 0x1d, 0x01, 0x00, 9, 0]);
    let mut padded = [0xff; 474];
    assert_eq!(page::open(&key, &page[..16], &page[..22], &page[22..496], &page[496..], &mut padded), Ok(()));
    assert_eq!(padded[..9], *text);
    assert_eq!(padded[9..], [0; 465]);

    let mut out = [0xee; 10];
    assert_eq!(page_file::open(&key, &stay, 0, &file, &mut out), Ok(9));
    assert_eq!(out, *b"one guest\xee");
    assert_eq!(page_file::open(&key, &stay, 1, &file, &mut out), Err(Refusal::BadStay));
    assert_eq!(page_file::open(&key, &[0; 12], 0, &file, &mut out), Err(Refusal::BadTag));
    assert_eq!(page_file::open(&key, &stay, 0, &[], &mut out), Err(Refusal::BadStay));
    assert_eq!(page_file::open(&key, &stay, 0, &file[1..], &mut out), Err(Refusal::BadFile));
    assert_eq!(page_file::open(&key, &stay, 0, &file, &mut out[..8]), Err(Refusal::ShortOutput));
    file[16] = 1;
    assert_eq!(page_file::open(&key, &stay, 0, &file, &mut out), Ok(9));
    file[18] = 2;
    assert_eq!(page_file::open(&key, &stay, 0, &file, &mut out), Err(Refusal::BadFile));
}

/// The bytes of a block as S-6 lists them, what storing and erasing leave, and S-6's refusals.
#[test]
fn key_store_layout() {
    let (key, iv, stay_key): ([u8; 32], [u8; 16], [u8; 32]) = ([7; 32], std::array::from_fn(|i| i as u8 + 1), [9; 32]);
    let mut store = [0; 1024];
    assert_eq!(key_store::store(&key, &iv, &stay_key, &mut store), Ok(()));
    assert_eq!(store[..16], [1, 0, 0, 0, 0, 0, 0, 0, 0, 0, 0, 0, 0, 0, 0, 0]);
    assert_eq!(store[16..32], iv);
    let mut opened = [0; 32];
    assert_eq!(page::open(&key, &iv, &[], &store[32..64], &store[64..80], &mut opened), Ok(()));
    assert_eq!(opened, stay_key);
    assert_eq!(store[80..508], [0; 428]);
    let words = store[..508].chunks(4).map(|word| u32::from_le_bytes(word.try_into().unwrap()));
    assert_eq!(store[508..512], words.fold(0, u32::wrapping_add).to_le_bytes());
    assert_eq!(store[512..], [0; 512]);

    assert_eq!(key_store::fetch(&key, &iv, &store), Ok(stay_key));
    assert_eq!(key_store::fetch(&stay_key, &iv, &store), Err(Refusal::BadTag));
    assert_eq!(key_store::fetch(&key, &[0; 16], &store), Err(Refusal::NoKey));
    assert_eq!(key_store::store(&key, &iv, &stay_key, &mut store), Err(Refusal::NumberTaken));
    assert_eq!(key_store::store(&key, &iv, &stay_key, &mut []), Err(Refusal::ShortOutput));
    assert_eq!(key_store::fetch(&key, &iv, &store[1..]), Err(Refusal::BadBlock));
    let twice = [&store[..512], &store[..512]].concat();
    assert_eq!(key_store::fetch(&key, &iv, &twice), Err(Refusal::BadBlock));

    assert_eq!(key_store::store(&key, &[0; 16], &stay_key, &mut store), Ok(()));
    let other = store[512..].to_vec();
    assert_eq!(key_store::erase(&iv, &mut store), Ok(()));
    assert_eq!(store[..32], [&[2][..], &[0; 15], &iv].concat());
    assert_eq!(store[32..508], [0; 476]);
    // The words 0x04030201, 0x08070605, 0x0c0b0a09 and 0x100f0e0d, and the mark.
    assert_eq!(store[508..512], 0x2824_201e_u32.to_le_bytes());
    assert_eq!(store[512..], other);
    assert_eq!(key_store::fetch(&key, &iv, &store), Err(Refusal::NoKey));
    assert_eq!(key_store::erase(&iv, &mut store), Err(Refusal::NoKey));
    assert_eq!(key_store::store(&key, &iv, &stay_key, &mut store), Err(Refusal::NumberTaken));
    assert_eq!(key_store::store(&key, &[1; 16], &stay_key, &mut store), Err(Refusal::ShortOutput));
    assert_eq!(key_store::fetch(&key, &[0; 16], &store), Ok(stay_key));
}

/// The bytes of a scheduler: two stays, one of them served, and one that has left.
#[test]
fn scheduler_layout() {
    let mut bytes = [0; 8_208];
    let written = |scheduler: &Scheduler, bytes: &mut [u8; 8_208]| {
        scheduler.write_over(bytes);
        assert_eq!(Scheduler::from_bytes(bytes), *scheduler);
    };
    let mut scheduler = Scheduler::empty();
    written(&scheduler, &mut bytes);
    assert_eq!(bytes, [0; 8_208]);

    let text = [5; 4_099];
    let mut sessions = [[3; 16], [4; 16]].map(|iv| Session::begin(&[7; 32], &iv).unwrap());
    scheduler.join(&[7; 32], &[3; 16], 4_099).unwrap();
    scheduler.join(&[7; 32], &[4; 16], 0x1_0203).unwrap();
    written(&scheduler, &mut bytes);
    let place = |session: &Session, left: [u8; 3], mark: u8| [&session.to_bytes()[..], &left, &[0; 5], &[mark], &[0; 7]].concat();
    assert_eq!(bytes[..16], [0, 0, 0, 0, 0, 0, 0, 0, 2, 0, 0, 0, 0, 0, 0, 0]);
    assert_eq!(bytes[16..272], place(&sessions[0], [0x03, 0x10, 0], 0));
    assert_eq!(bytes[272..528], place(&sessions[1], [0x03, 0x02, 1], 0));
    assert_eq!(bytes[528..], [0; 7_680]);

    let (mut out, mut by_itself) = ([0; 4_099], [0; 4_099]);
    assert_eq!(scheduler.turn(&text[..4_096], &mut out), Ok(Some(Service { turn: 1, iv: [3; 16], tag: None })));
    written(&scheduler, &mut bytes);
    sessions[0].text(&text[..4_096], &mut by_itself).unwrap();
    assert_eq!((bytes[0], bytes[8], out), (1, 2, by_itself));
    assert_eq!(bytes[16..272], place(&sessions[0], [3, 0, 0], 1));
    assert_eq!(scheduler.turn(&text[..4_096], &mut out), Ok(Some(Service { turn: 2, iv: [4; 16], tag: None })));
    sessions[1].text(&text[..4_096], &mut by_itself).unwrap();

    let tag = page::seal(&[7; 32], &[3; 16], &[], &text, &mut by_itself).unwrap();
    assert_eq!(scheduler.turn(&text[4_096..], &mut out), Ok(Some(Service { turn: 3, iv: [3; 16], tag: Some(tag) })));
    assert_eq!(out[..3], by_itself[4_096..]);
    written(&scheduler, &mut bytes);
    assert_eq!(bytes[..16], [3, 0, 0, 0, 0, 0, 0, 0, 1, 0, 0, 0, 0, 0, 0, 0]);
    assert_eq!(bytes[16..272], place(&sessions[1], [0x03, 0xf2, 0], 2));
    assert_eq!(bytes[272..], [0; 7_936]);
}

/// S-10's refusals in their orders, and its edges: 32 stays, 2^62 turns, and nobody there.
#[test]
fn refused_at_a_scheduler() {
    let mut scheduler = Scheduler::empty();
    for i in 0..32 {
        assert_eq!(scheduler.join(&[7; 32], &[i; 16], 1_048_576), Ok(()));
    }
    let full = scheduler.clone();
    let mut join = |key: &[u8], iv: &[u8], length| scheduler.join(key, iv, length).map_err(|refusal| refusal as u64);
    assert_eq!(join(&[7; 31], &[0; 15], 0), Err(1));
    assert_eq!(join(&[7; 32], &[0; 15], 0), Err(2));
    assert_eq!(join(&[7; 32], &[0; 16], 0), Err(3));
    assert_eq!(join(&[7; 32], &[0; 16], 1_048_577), Err(3));
    assert_eq!(join(&[7; 32], &[0; 16], 1), Err(19));
    assert_eq!(join(&[7; 32], &[32; 16], 1), Err(19));
    assert_eq!(scheduler, full);
    scheduler.stays.pop();
    assert_eq!(scheduler.join(&[8; 32], &[30; 16], 1), Err(Refusal::NumberTaken));
    assert_eq!(scheduler.join(&[8; 32], &[31; 16], 1), Ok(()));

    let mut out = [0; 4_097];
    scheduler.turns = MOST_TURNS;
    assert_eq!(scheduler.turn(&[0; 4_097], &mut []), Err(Refusal::CountTooHigh));
    scheduler.turns = MOST_TURNS - 1;
    assert_eq!(scheduler.turn(&[0; 4_097], &mut []), Err(Refusal::TooLong));
    assert_eq!(scheduler.turn(&[0; 4_095], &mut out), Err(Refusal::TooLong));
    assert_eq!(scheduler.turn(&[0; 4_096], &mut out[..4_095]), Err(Refusal::ShortOutput));
    assert_eq!(scheduler.turn(&[0; 4_096], &mut out).unwrap().unwrap().turn, MOST_TURNS);
    assert_eq!(scheduler.turn(&[0; 4_096], &mut out), Err(Refusal::CountTooHigh));
    scheduler.stays.clear();
    assert_eq!(scheduler.turn(&[0; 4_097], &mut []), Ok(None));
}

/// S-10's order: lowest turn first, equal ones by joining order; the last of 32 waits for 32 turns, and nobody for more.
#[test]
fn order_of_turns() {
    let mut scheduler = Scheduler::empty();
    for (i, mark) in [9, 4, 7, 4, 4].into_iter().enumerate() {
        scheduler.join(&[7; 32], &[i as u8; 16], 1).unwrap();
        scheduler.stays[i].mark = mark;
    }
    scheduler.turns = 9;
    let served = |scheduler: &mut Scheduler| scheduler.turn(&[0], &mut [0]).unwrap().unwrap().iv[0];
    assert_eq!([(); 5].map(|()| served(&mut scheduler)), [1, 3, 4, 2, 0]);

    let mut scheduler = Scheduler::empty();
    for i in 0..32 {
        scheduler.join(&[7; 32], &[i; 16], 10_000).unwrap();
    }
    for turn in 1..=64_u64 {
        let (due, mark) = scheduler.next().map(|Stay { left, mark, .. }| (left.min(&4_096), *mark)).unwrap();
        let service = scheduler.turn(&vec![0; *due as usize], &mut [0; 4_096]).unwrap().unwrap();
        assert_eq!((service.turn, u64::from(service.iv[0])), (turn, (turn - 1) % 32));
        assert_eq!(mark, turn.saturating_sub(32));
    }
}
