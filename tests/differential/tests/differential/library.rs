//! include/tulvekas.h.

#[link(name = "tulvekas", kind = "static")]
extern "C" {
    pub fn tulvekas_seal(
        key: *const u8,
        key_len: usize,
        iv: *const u8,
        iv_len: usize,
        ad: *const u8,
        ad_len: usize,
        text: *const u8,
        text_len: usize,
        out: *mut u8,
        out_len: usize,
        tag: *mut u8,
        tag_len: usize,
    ) -> u64;
    pub fn tulvekas_open(
        key: *const u8,
        key_len: usize,
        iv: *const u8,
        iv_len: usize,
        ad: *const u8,
        ad_len: usize,
        cipher: *const u8,
        cipher_len: usize,
        tag: *const u8,
        tag_len: usize,
        out: *mut u8,
        out_len: usize,
    ) -> u64;
    pub fn tulvekas_begin(key: *const u8, key_len: usize, iv: *const u8, iv_len: usize, session: *mut u8, session_len: usize) -> u64;
    pub fn tulvekas_data(session: *mut u8, session_len: usize, piece: *const u8, piece_len: usize) -> u64;
    pub fn tulvekas_text(session: *mut u8, session_len: usize, piece: *const u8, piece_len: usize, out: *mut u8, out_len: usize) -> u64;
    pub fn tulvekas_finish(session: *mut u8, session_len: usize, tag: *mut u8, tag_len: usize, iv: *mut u8, iv_len: usize) -> u64;
    pub fn tulvekas_suspend(session: *const u8, session_len: usize, block: *mut u8, block_len: usize) -> u64;
    pub fn tulvekas_resume(
        key: *const u8,
        key_len: usize,
        block: *const u8,
        block_len: usize,
        session: *mut u8,
        session_len: usize,
        iv: *mut u8,
        iv_len: usize,
    ) -> u64;
    pub fn tulvekas_keystream(
        key: *const u8,
        key_len: usize,
        iv: *const u8,
        iv_len: usize,
        sealed: u64,
        out: *mut u8,
        out_len: usize,
    ) -> u64;
    pub fn tulvekas_start(
        key: *const u8,
        key_len: usize,
        iv: *const u8,
        iv_len: usize,
        sealed: u64,
        state: *mut u8,
        state_len: usize,
    ) -> u64;
    pub fn tulvekas_run(state: *mut u8, state_len: usize, n: u64, back: u64, out: *mut u8, out_len: usize) -> u64;
    pub fn tulvekas_trace(
        state: *const u8,
        state_len: usize,
        key: *const u8,
        key_len: usize,
        iv: *mut u8,
        iv_len: usize,
        sealed: *mut u8,
        sealed_len: usize,
    ) -> u64;
    pub fn tulvekas_search(
        dump: *const u8,
        dump_len: usize,
        key: *const u8,
        key_len: usize,
        lowest: u64,
        highest: u64,
        count: *mut u8,
        count_len: usize,
        iv: *mut u8,
        iv_len: usize,
        sealed: *mut u8,
        sealed_len: usize,
        steps: *mut u8,
        steps_len: usize,
    ) -> u64;
    pub fn tulvekas_state_of(block: *const u8, block_len: usize, state: *mut u8, state_len: usize) -> u64;
    pub fn tulvekas_date(day: u64, date: *mut u8, date_len: usize) -> u64;
    pub fn tulvekas_day(year: u64, month: u64, day: u64, number: *mut u8, number_len: usize) -> u64;
    pub fn tulvekas_kept(today: u64, departure: u64, kept: *mut u8, kept_len: usize) -> u64;
    pub fn tulvekas_kept_until(departure: u64, date: *mut u8, date_len: usize) -> u64;
    pub fn tulvekas_file_seal(
        key: *const u8,
        key_len: usize,
        stay: *const u8,
        stay_len: usize,
        page: u32,
        day: u64,
        text: *const u8,
        text_len: usize,
        place: u64,
        file: *mut u8,
        file_len: usize,
    ) -> u64;
    pub fn tulvekas_file_open(
        key: *const u8,
        key_len: usize,
        stay: *const u8,
        stay_len: usize,
        page: u32,
        file: *const u8,
        file_len: usize,
        out: *mut u8,
        out_len: usize,
        length: *mut u8,
        length_len: usize,
    ) -> u64;
    pub fn tulvekas_keys_store(
        key: *const u8,
        key_len: usize,
        iv: *const u8,
        iv_len: usize,
        stay_key: *const u8,
        stay_key_len: usize,
        store: *mut u8,
        store_len: usize,
    ) -> u64;
    pub fn tulvekas_keys_fetch(
        key: *const u8,
        key_len: usize,
        iv: *const u8,
        iv_len: usize,
        store: *const u8,
        store_len: usize,
        out: *mut u8,
        out_len: usize,
    ) -> u64;
    pub fn tulvekas_keys_erase(iv: *const u8, iv_len: usize, store: *mut u8, store_len: usize) -> u64;
    pub fn tulvekas_schedule_empty(scheduler: *mut u8, scheduler_len: usize) -> u64;
    pub fn tulvekas_schedule_join(
        scheduler: *mut u8,
        scheduler_len: usize,
        key: *const u8,
        key_len: usize,
        iv: *const u8,
        iv_len: usize,
        length: u64,
    ) -> u64;
    pub fn tulvekas_schedule_next(
        scheduler: *const u8,
        scheduler_len: usize,
        found: *mut u8,
        found_len: usize,
        iv: *mut u8,
        iv_len: usize,
        due: *mut u8,
        due_len: usize,
    ) -> u64;
    pub fn tulvekas_schedule_turn(
        scheduler: *mut u8,
        scheduler_len: usize,
        piece: *const u8,
        piece_len: usize,
        out: *mut u8,
        out_len: usize,
        iv: *mut u8,
        iv_len: usize,
        turn: *mut u8,
        turn_len: usize,
        done: *mut u8,
        done_len: usize,
        tag: *mut u8,
        tag_len: usize,
    ) -> u64;
}
