//! The calls of include/tulvekas.h on slices: the documents' orders, and what C adds to them. A buffer that must be written, or of a
//! scheduler may be, and is too short gives 4 last; a session, block, state, dump or scheduler of another length than its own gives 8 where it is read.

use crate::block::Block;
use crate::calendar::{self, Date};
use crate::cipher::{self, iv as iv_of, Direction, Key, Mode, State, MOST_BLOCKS};
use crate::keeping;
use crate::key_store;
use crate::page;
use crate::page_file;
use crate::refusal::{require, Refusal};
use crate::scheduler::{Scheduler, SCHEDULE_BYTES};
use crate::search;
use crate::session::Session;
use crate::suspended;
use crate::trace;

/// `TULVEKAS_SESSION_BYTES`.
pub const SESSION_BYTES: usize = 240;
/// `TULVEKAS_STATE_BYTES`.
pub const STATE_BYTES: usize = 120;
/// `TULVEKAS_LENGTH_BYTES`.
pub const LENGTH_BYTES: usize = 8;
/// `TULVEKAS_DATE_BYTES`.
pub const DATE_BYTES: usize = 4;
/// `TULVEKAS_DAY_BYTES`.
pub const DAY_BYTES: usize = 8;
/// `TULVEKAS_COUNT_BYTES`.
pub const COUNT_BYTES: usize = 8;
/// `TULVEKAS_STEPS_BYTES`.
pub const STEPS_BYTES: usize = 8;
/// `TULVEKAS_TURN_BYTES`.
pub const TURN_BYTES: usize = 8;
/// `TULVEKAS_DUE_BYTES`.
pub const DUE_BYTES: usize = 8;

type Answer<T> = Result<T, Refusal>;

/// Refusal 4.
fn room(out_len: usize, needed: usize) -> Answer<()> {
    require(out_len >= needed, Refusal::ShortOutput)
}

/// The session that is read. Refuses 8.
fn session_in(session: &[u8]) -> Answer<Session> {
    session.try_into().map(Session::from_bytes).map_err(|_| Refusal::BadBlock)
}

/// The state that is read. Refuses 8.
fn state_in(state: &[u8]) -> Answer<State> {
    state.try_into().map(State::from_bytes).map_err(|_| Refusal::BadBlock)
}

/// Writes a state to the front of a buffer. Refuses 4.
fn put_state(state: &State, out: &mut [u8]) -> Answer<()> {
    room(out.len(), STATE_BYTES)?;
    out[..STATE_BYTES].copy_from_slice(&state.to_bytes());
    Ok(())
}

/// Writes a date to the front of a buffer. Refuses 4.
fn put_date(date: Date, out: &mut [u8]) -> Answer<()> {
    room(out.len(), DATE_BYTES)?;
    out[..2].copy_from_slice(&(date.year as u16).to_le_bytes());
    out[2] = date.month as u8;
    out[3] = date.day as u8;
    Ok(())
}

/// `tulvekas_seal`: 1, 2, 3, 4.
pub fn seal(key: &[u8], iv: &[u8], ad: &[u8], text: &[u8], out: &mut [u8], tag: &mut [u8]) -> Answer<()> {
    let mut cipher = vec![0; text.len().min(out.len())];
    let made = page::seal(key, iv, ad, text, &mut cipher)?;
    room(tag.len(), 16)?;
    out[..cipher.len()].copy_from_slice(&cipher);
    tag[..16].copy_from_slice(&made);
    Ok(())
}

/// `tulvekas_open`: 1, 2, 10, 3, 4, 5.
pub fn open(key: &[u8], iv: &[u8], ad: &[u8], cipher: &[u8], tag: &[u8], out: &mut [u8]) -> Answer<()> {
    page::open(key, iv, ad, cipher, tag, out)
}

/// `tulvekas_begin`: 1, 2, 4.
pub fn begin(key: &[u8], iv: &[u8], session: &mut [u8]) -> Answer<()> {
    let begun = Session::begin(key, iv)?;
    room(session.len(), SESSION_BYTES)?;
    session[..SESSION_BYTES].copy_from_slice(&begun.to_bytes());
    Ok(())
}

/// `tulvekas_data`: 8, 7, 3.
pub fn data(session: &mut [u8], piece: &[u8]) -> Answer<()> {
    let mut moved = session_in(session)?;
    moved.data(piece)?;
    session.copy_from_slice(&moved.to_bytes());
    Ok(())
}

/// `tulvekas_text`: 8, 7, 3, 9, 4.
pub fn text(session: &mut [u8], piece: &[u8], out: &mut [u8]) -> Answer<()> {
    let mut moved = session_in(session)?;
    moved.text(piece, out)?;
    session.copy_from_slice(&moved.to_bytes());
    Ok(())
}

/// `tulvekas_finish`: 8, 7, 4.
pub fn finish(session: &mut [u8], tag: &mut [u8], iv: &mut [u8]) -> Answer<()> {
    let mut finished = session_in(session)?;
    let (made, carried) = finished.finish()?;
    room(tag.len(), 16)?;
    room(iv.len(), 16)?;
    tag[..16].copy_from_slice(&made);
    iv[..16].copy_from_slice(&carried);
    session.copy_from_slice(&finished.to_bytes());
    Ok(())
}

/// `tulvekas_suspend`: 8, 7, 4.
pub fn suspend(session: &[u8], block: &mut [u8]) -> Answer<()> {
    suspended::suspend(&session_in(session)?, block)
}

/// `tulvekas_resume`: 1, 8, 6, 4.
pub fn resume(key: &[u8], block: &[u8], session: &mut [u8], iv: &mut [u8]) -> Answer<()> {
    let (resumed, found) = suspended::resume(key, block)?;
    room(session.len(), SESSION_BYTES)?;
    room(iv.len(), 16)?;
    session[..SESSION_BYTES].copy_from_slice(&resumed.to_bytes());
    iv[..16].copy_from_slice(&found);
    Ok(())
}

/// `tulvekas_state_of`: 8, 4.
pub fn state_of(block: &[u8], state: &mut [u8]) -> Answer<()> {
    put_state(&suspended::state_of(block)?, state)
}

/// The mode that a number names: 0 plain, any other sealed.
pub fn mode(sealed: u64) -> Mode {
    if sealed == 0 {
        Mode::Plain
    } else {
        Mode::Sealed
    }
}

/// The direction that a number names: 0 forward, any other back.
pub fn direction(back: u64) -> Direction {
    if back == 0 {
        Direction::Forward
    } else {
        Direction::Back
    }
}

/// `tulvekas_keystream`: 1, 2, 9.
pub fn keystream(key: &[u8], iv: &[u8], sealed: u64, out: &mut [u8]) -> Answer<()> {
    let key = Key::new(key)?;
    let iv: Block = iv_of(iv)?;
    let blocks = out.len() as u64 / 16;
    require(blocks <= MOST_BLOCKS, Refusal::CountTooHigh)?;
    cipher::run(&mut State::start(&key, &iv, mode(sealed)), blocks, Direction::Forward, out)
}

/// `tulvekas_start`: 1, 2, 4.
pub fn start(key: &[u8], iv: &[u8], sealed: u64, state: &mut [u8]) -> Answer<()> {
    let key = Key::new(key)?;
    let iv: Block = iv_of(iv)?;
    put_state(&State::start(&key, &iv, mode(sealed)), state)
}

/// `tulvekas_run`: 8, 9, 15, 4.
pub fn run(state: &mut [u8], n: u64, back: u64, out: &mut [u8]) -> Answer<()> {
    let mut moved = state_in(state)?;
    cipher::run(&mut moved, n, direction(back), out)?;
    put_state(&moved, state)
}

/// `tulvekas_trace`: 1, 8, 9, 6, 4.
pub fn trace(state: &[u8], key: &[u8], iv: &mut [u8], sealed: &mut [u8]) -> Answer<()> {
    Key::new(key)?;
    let (found, mode) = trace::trace(&state_in(state)?, key)?;
    room(iv.len(), 16)?;
    room(sealed.len(), 1)?;
    iv[..16].copy_from_slice(&found);
    sealed[0] = u8::from(mode == Mode::Sealed);
    Ok(())
}

/// `tulvekas_search`: 1, 8, 9, 18, 6, 4. The steps of a 6 are written where there is room for them.
#[allow(clippy::too_many_arguments)]
pub fn search(
    dump: &[u8],
    key: &[u8],
    lowest: u64,
    highest: u64,
    count: &mut [u8],
    iv: &mut [u8],
    sealed: &mut [u8],
    steps: &mut [u8],
) -> Answer<()> {
    let found = match search::search(dump, key, lowest, highest) {
        Ok(found) => found,
        Err(refused) => {
            if let (Some(walked), true) = (refused.steps, steps.len() >= STEPS_BYTES) {
                steps[..STEPS_BYTES].copy_from_slice(&walked.to_le_bytes());
            }
            return Err(refused.refusal);
        }
    };
    room(count.len(), COUNT_BYTES)?;
    room(iv.len(), 16)?;
    room(sealed.len(), 1)?;
    room(steps.len(), STEPS_BYTES)?;
    count[..COUNT_BYTES].copy_from_slice(&found.count.to_le_bytes());
    iv[..16].copy_from_slice(&found.iv);
    sealed[0] = u8::from(found.mode == Mode::Sealed);
    steps[..STEPS_BYTES].copy_from_slice(&found.steps.to_le_bytes());
    Ok(())
}

/// `tulvekas_date`: 12, 4.
pub fn date(day: u64, date: &mut [u8]) -> Answer<()> {
    put_date(calendar::date(day)?, date)
}

/// `tulvekas_day`: 12, 4.
pub fn day(year: u64, month: u64, day: u64, number: &mut [u8]) -> Answer<()> {
    let found = calendar::day(Date { year, month, day })?;
    room(number.len(), DAY_BYTES)?;
    number[..DAY_BYTES].copy_from_slice(&found.to_le_bytes());
    Ok(())
}

/// `tulvekas_kept`: 12, 4.
pub fn kept(today: u64, departure: u64, kept: &mut [u8]) -> Answer<()> {
    let answer = keeping::kept(today, departure)?;
    room(kept.len(), 1)?;
    kept[0] = u8::from(answer);
    Ok(())
}

/// `tulvekas_kept_until`: 12, 4.
pub fn kept_until(departure: u64, date: &mut [u8]) -> Answer<()> {
    put_date(keeping::kept_until(departure)?, date)
}

/// `tulvekas_file_seal`: 1, 2, 3, 12, 13.
pub fn file_seal(key: &[u8], stay: &[u8], page: u32, day: u64, text: &[u8], place: u64, file: &mut [u8]) -> Answer<()> {
    page_file::seal(key, stay, page, day, text, place, file)
}

/// `tulvekas_file_open`: 1, 2, 13, 14, 4, 5, 13 for padding, 4 for the length's buffer.
pub fn file_open(key: &[u8], stay: &[u8], page: u32, file: &[u8], out: &mut [u8], length: &mut [u8]) -> Answer<()> {
    let mut text = out.to_vec();
    let len = page_file::open(key, stay, page, file, &mut text)?;
    room(length.len(), LENGTH_BYTES)?;
    out.copy_from_slice(&text);
    length[..LENGTH_BYTES].copy_from_slice(&(len as u64).to_le_bytes());
    Ok(())
}

/// `tulvekas_keys_store`: 1, 2, 8, 16, 4.
pub fn keys_store(key: &[u8], iv: &[u8], stay_key: &[u8], store: &mut [u8]) -> Answer<()> {
    key_store::store(key, iv, stay_key, store)
}

/// `tulvekas_keys_fetch`: 1, 2, 8, 17, 5, 4.
pub fn keys_fetch(key: &[u8], iv: &[u8], store: &[u8], out: &mut [u8]) -> Answer<()> {
    let fetched = key_store::fetch(key, iv, store)?;
    room(out.len(), fetched.len())?;
    out[..fetched.len()].copy_from_slice(&fetched);
    Ok(())
}

/// `tulvekas_keys_erase`: 2, 8, 17.
pub fn keys_erase(iv: &[u8], store: &mut [u8]) -> Answer<()> {
    key_store::erase(iv, store)
}

/// The bytes of a scheduler. Refuses 8.
fn schedule_in(scheduler: &mut [u8]) -> Answer<&mut [u8; SCHEDULE_BYTES]> {
    scheduler.try_into().map_err(|_| Refusal::BadBlock)
}

/// `tulvekas_schedule_empty`: 4.
pub fn schedule_empty(scheduler: &mut [u8]) -> Answer<()> {
    room(scheduler.len(), SCHEDULE_BYTES)?;
    let front: &mut [u8; SCHEDULE_BYTES] = (&mut scheduler[..SCHEDULE_BYTES]).try_into().unwrap();
    *front = [0; SCHEDULE_BYTES];
    Scheduler::empty().write_over(front);
    Ok(())
}

/// `tulvekas_schedule_join`: 8, 1, 2, 3, 19, 16.
pub fn schedule_join(scheduler: &mut [u8], key: &[u8], iv: &[u8], length: u64) -> Answer<()> {
    let bytes = schedule_in(scheduler)?;
    let mut joined = Scheduler::from_bytes(bytes);
    joined.join(key, iv, length)?;
    joined.write_over(bytes);
    Ok(())
}

/// `tulvekas_schedule_next`: 8, 4 for any of the three buffers.
pub fn schedule_next(scheduler: &[u8], found: &mut [u8], iv: &mut [u8], due: &mut [u8]) -> Answer<()> {
    let scheduler = Scheduler::from_bytes(scheduler.try_into().map_err(|_| Refusal::BadBlock)?);
    room(found.len(), 1)?;
    room(iv.len(), 16)?;
    room(due.len(), DUE_BYTES)?;
    found[0] = u8::from(scheduler.next().is_some());
    if let Some(stay) = scheduler.next() {
        iv[..16].copy_from_slice(&stay.iv());
        due[..DUE_BYTES].copy_from_slice(&stay.due().to_le_bytes());
    }
    Ok(())
}

/// `tulvekas_schedule_turn`: 8; where somebody is there 9, 3, 7, 3, 9, 4; 4 for any of the last four buffers.
pub fn schedule_turn(
    scheduler: &mut [u8],
    piece: &[u8],
    out: &mut [u8],
    iv: &mut [u8],
    turn: &mut [u8],
    done: &mut [u8],
    tag: &mut [u8],
) -> Answer<()> {
    let bytes = schedule_in(scheduler)?;
    let (mut moved, mut cipher) = (Scheduler::from_bytes(bytes), out.to_vec());
    let served = moved.turn(piece, &mut cipher)?;
    room(iv.len(), 16)?;
    room(turn.len(), TURN_BYTES)?;
    room(done.len(), 1)?;
    room(tag.len(), 16)?;
    turn[..TURN_BYTES].copy_from_slice(&served.map_or(0, |service| service.turn).to_le_bytes());
    done[0] = 0;
    if let Some(service) = served {
        moved.write_over(bytes);
        out.copy_from_slice(&cipher);
        iv[..16].copy_from_slice(&service.iv);
        if let Some(made) = service.tag {
            done[0] = 1;
            tag[..16].copy_from_slice(&made);
        }
    }
    Ok(())
}
