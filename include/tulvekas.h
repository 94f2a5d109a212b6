/* Tulvekas for C and everything that calls C: SNOW-V sealing of guest pages. This page is the manual.
 *
 * For Linux on x86-64, and for no other system: link with libtulvekas.a, which `tools/staticlib` writes to target/staticlib/.
 *
 * How to read it
 *   - A slice is a pointer and a length in bytes. One that is only read is `const`. A pointer whose length is 0 is never used and may be NULL;
 *     every other must point to that many bytes. That, and that a buffer which a call writes overlaps no other buffer of the same call, is all
 *     that a caller has to see to: every length and every content is answered.
 *   - A call answers 0 (TULVEKAS_ACCEPTED) or the number of a refusal. Each refusal is given if, and only if, its condition holds and that of
 *     no earlier one in the call's order does. A refusal changes no lent byte, with one exception: where tulvekas_search answers 6, it
 *     writes the steps that it walked, if there is room for them.
 *   - A lent buffer may be longer than what is written. Bytes beyond what a call writes never change.
 *   - Nothing is kept between calls but what the caller was handed, and no memory is claimed: calls from several threads do not meet, as long
 *     as no buffer that one of them writes is lent to another.
 *   - Not hidden: the time that a call takes depends on the key and on the bytes, by table look-ups.
 *   - Each stay needs an IV of its own under a key. Two pages under one key and one IV give away the difference of their texts, and help
 *     whoever wants to forge a tag.
 *   - Document 01, which this library was written to, says stay number for the IV, park for suspend, take up for resume, and parked block for
 *     suspended block. Document 02, which asked for page files, key stores and schedulers, says stay book, shelf and desk for these, and shelving
 *     for storing a key.
 *
 * What is proved, and what is not
 *   - Proved of every call, for every length and every content: the number that it answers; each byte that it writes; that every other byte of
 *     the buffers lent to it stays as it was; that it ends, and stays inside those buffers. Ciphertext and tag are those of definitions that
 *     render the paper, by pieces and in a page file as well; a session resumed is the one suspended; as many blocks back as forward, or
 *     forward as back, give the state again where neither run is refused; a trace finds the IV and mode that led to a state, and 6 exactly if
 *     none did; a search finds the least count in its range at which some led there, and 6 exactly if there is none; the date of a day has
 *     that day again, and later days later dates; a page is kept up to its last date and on no later day; a stay's key that was stored is
 *     fetched until it is erased, and then the store is the one that any other key would have left; at a scheduler that
 *     these calls alone wrote, from an empty one on, a stay gets a turn within 32 numbered turns of its joining and of each turn that leaves it
 *     text, while numbers last, however others join or leave; its ciphertext and tag are those that it would have by itself; and such a
 *     scheduler has one form in bytes.
 *     docs/PROMISES.md has the statements, and what they assume.
 *   - Tested: that this page and the code agree. tests/differential compares every call with an implementation in Rust that was written from
 *     the documents, or from the definitions where these leave the bytes of a session or a scheduler open, and the declarations and numbers
 *     below with those that the tests use.
 *   - Measured: the stack. tests/differential measures each call at six sizes of page, of file, of store, of range or of scheduler, and finds none
 *     that takes more than 16 KiB.
 *   - Read off the code: no function calls itself, directly or by way of others; none claims memory or has a variable that outlives the call;
 *     tulvekas_open, tulvekas_file_open and tulvekas_keys_fetch compare all 16 bytes of the tag before they write a byte; tulvekas_search counts
 *     each step back where it takes it, and takes no others.
 */
#ifndef TULVEKAS_H
#define TULVEKAS_H

#include <stddef.h>
#include <stdint.h>

#ifdef __cplusplus
extern "C" {
#endif

/* Lengths, in bytes. */
#define TULVEKAS_KEY_BYTES 32
#define TULVEKAS_IV_BYTES 16
#define TULVEKAS_TAG_BYTES 16
#define TULVEKAS_BLOCK_BYTES 16       /* of keystream */
#define TULVEKAS_SESSION_BYTES 240    /* a session between two calls; its contents are secret */
#define TULVEKAS_SUSPENDED_BYTES 512  /* a suspended block; secret too */
#define TULVEKAS_STATE_BYTES 120      /* a state: the cipher's registers and their count of blocks; secret too */
#define TULVEKAS_DUMP_BYTES 112       /* the registers alone; secret too */
#define TULVEKAS_COUNT_BYTES 8        /* the count that tulvekas_search writes */
#define TULVEKAS_STEPS_BYTES 8        /* the steps that it has walked */
#define TULVEKAS_PAGE_BYTES 512       /* a page of a page file */
#define TULVEKAS_STAY_BYTES 12        /* a stay in a page file: with a page number of 4 bytes it is an IV */
#define TULVEKAS_LENGTH_BYTES 8       /* the length of the text that tulvekas_file_open wrote */
#define TULVEKAS_DATE_BYTES 4         /* a date: year, month, day */
#define TULVEKAS_DAY_BYTES 8          /* the day number that tulvekas_day writes */
#define TULVEKAS_KEYS_BLOCK_BYTES 512 /* a block of a key store */
#define TULVEKAS_SCHEDULE_BYTES 8208  /* a scheduler between two calls; secret too */
#define TULVEKAS_TURN_BYTES 8         /* the number of a turn */
#define TULVEKAS_DUE_BYTES 8          /* the length of the piece that is due, which tulvekas_schedule_next writes */

/* Limits. */
#define TULVEKAS_MOST_DATA 65535     /* bytes of associated data of a page or session */
#define TULVEKAS_MOST_TEXT 1048576   /* bytes of text */
#define TULVEKAS_MOST_PAGE_TEXT 474  /* bytes of text of a page in a page file */
#define TULVEKAS_MOST_BLOCKS 65538   /* blocks of keystream, and the highest count of a state */
#define TULVEKAS_LAST_DAY 73048      /* 31 December 2199; days count from 1 January 2000 as 0 */
#define TULVEKAS_FIRST_YEAR 2000     /* of a date that has a day number */
#define TULVEKAS_LAST_YEAR 2199
#define TULVEKAS_KEPT_MONTHS 18      /* that a page is kept behind its departure */
#define TULVEKAS_MOST_STAYS 32       /* at a scheduler */
#define TULVEKAS_MOST_PIECE 4096     /* bytes of text in a turn */
#define TULVEKAS_MOST_TURNS UINT64_C(4611686018427387904) /* 2^62, the last number of a turn */

/* What a call answers. */
#define TULVEKAS_ACCEPTED 0
#define TULVEKAS_KEY_LENGTH 1      /* key not 32 bytes; of a key store: either key */
#define TULVEKAS_IV_LENGTH 2       /* IV not 16 bytes; of a page file: stay not 12 bytes */
#define TULVEKAS_TOO_LONG 3        /* associated data over 65,535 bytes or text over 1,048,576, counted over the session; of a page file:
                                    * text over 474 bytes; of a scheduler: a text to be sealed that is empty or over 1,048,576 bytes, and a
                                    * piece that is longer or shorter than the one due */
#define TULVEKAS_SHORT_OUTPUT 4    /* a lent buffer is shorter than what must be written, or, of a scheduler, than what its call may write; a
                                    * key store has no empty block */
#define TULVEKAS_BAD_TAG 5         /* the tag is not the page's; of a key store: not the sealed key's */
#define TULVEKAS_NO_ORIGIN 6       /* no IV and mode lead to this state; at resume, none in sealed mode; of a search: at no count in its range */
#define TULVEKAS_OUT_OF_PHASE 7    /* data behind text, or anything behind finish */
#define TULVEKAS_BAD_BLOCK 8       /* a suspended block breaks a rule of its layout; a session, state, dump or scheduler has another length than
                                    * above; a key store breaks one of its rules */
#define TULVEKAS_COUNT_TOO_HIGH 9  /* more than 65,538 blocks: to be drawn at once, in a state's count, where a run or a text would lead, or at
                                    * the highest of a range; of a scheduler: a turn past 2^62 */
#define TULVEKAS_TAG_LENGTH 10     /* tag not 16 bytes */
#define TULVEKAS_MALFORMED 11      /* the input of the program `seal` is malformed; no call here gives it */
#define TULVEKAS_DAY_RANGE 12      /* a day outside 0 to 73,048, or a date that the calendar lacks or outside the years 2000 to 2199 */
#define TULVEKAS_BAD_FILE 13       /* a page file's length, a place in it, a stored length, a stored day or the padding is not as it must be */
#define TULVEKAS_BAD_STAY 14       /* the stay lacks the page, or its pages do not run 0, 1, 2 in file order, or their days differ */
#define TULVEKAS_BEFORE_START 15   /* a run back past the start, where the count is 0 */
#define TULVEKAS_NUMBER_TAKEN 16   /* the stay number stands in the key store already, held or erased; of a scheduler: a stay with it is there */
#define TULVEKAS_NO_KEY 17         /* the stay number is not in the key store, or its key was erased */
#define TULVEKAS_RANGE_ORDER 18    /* a range of counts whose lowest is above its highest */
#define TULVEKAS_SCHEDULER_FULL 19 /* 32 stays are at the scheduler already */

/* ---- whole pages
 *
 * A page is a text, which is encrypted, and associated data, which is not: the caller keeps it readable, and the tag covers both. Sealed and
 * opened, with text, ad and other as arrays of bytes:
 *
 *     tulvekas_seal(key, sizeof key, iv, sizeof iv, ad, sizeof ad, text, sizeof text, cipher, sizeof cipher, tag, sizeof tag)
 *     tulvekas_open(key, sizeof key, iv, sizeof iv, ad, sizeof ad, cipher, sizeof cipher, tag, sizeof tag, opened, sizeof opened)
 *     tulvekas_open(key, sizeof key, iv, sizeof iv, other, sizeof other, cipher, sizeof cipher, tag, sizeof tag, opened, sizeof opened)
 *
 * The first two answer 0, and opened is the text. The third, under other data, answers 5 and writes nothing: the page has another tag then, but
 * for an accident as rare as a tag that is guessed. A page without associated data has NULL and 0 in its place.
 * examples/seal_by_pieces.c makes these calls, and those by pieces below. */

/* Seals a page.
 * Writes: text_len bytes of ciphertext to the front of out, 16 bytes of tag to the front of tag.
 * Refuses: 1, 2, 3, 4 (out shorter than the text, or tag shorter than 16). */
uint64_t tulvekas_seal(const uint8_t *key, size_t key_len, const uint8_t *iv, size_t iv_len, const uint8_t *ad, size_t ad_len,
                       const uint8_t *text, size_t text_len, uint8_t *out, size_t out_len, uint8_t *tag, size_t tag_len);

/* Opens a page, if the tag is that of this key, IV, associated data and ciphertext. If it differs in a single bit, nothing is written.
 * Writes: cipher_len bytes of text to the front of out.
 * Refuses: 1, 2, 10, 3 (the ciphertext's length counts as the text's), 4, 5. */
uint64_t tulvekas_open(const uint8_t *key, size_t key_len, const uint8_t *iv, size_t iv_len, const uint8_t *ad, size_t ad_len,
                       const uint8_t *cipher, size_t cipher_len, const uint8_t *tag, size_t tag_len, uint8_t *out, size_t out_len);

/* ---- a page by pieces: begin, data pieces, text pieces, finish. However a page is cut, ciphertext and tag are those of tulvekas_seal.
 *
 *     tulvekas_begin(key, sizeof key, iv, sizeof iv, session, sizeof session)
 *     tulvekas_data(session, sizeof session, ad, 3)
 *     tulvekas_data(session, sizeof session, ad + 3, sizeof ad - 3)
 *     tulvekas_text(session, sizeof session, text, sizeof text, cipher, sizeof cipher)
 *     tulvekas_finish(session, sizeof session, tag, sizeof tag, given_iv, sizeof given_iv)
 *
 * A session is TULVEKAS_SESSION_BYTES bytes that the caller keeps and hands to each call, in that length exactly. They hold nothing but the
 * session: they may be copied or moved, and the same session always has the same bytes. Whoever reads them can decrypt the page and make its
 * tag, without the key: wipe them when done. Bytes that no call wrote are answered like a session, with no promise but that: they may
 * carry any IV. A session counts the keystream blocks that it has drawn, and text that would lead that count past 65,538 is refused. In a session that was
 * begun or resumed that never happens. */

/* Begins a session.
 * Writes: 240 bytes to the front of session.
 * Refuses: 1, 2, 4. */
uint64_t tulvekas_begin(const uint8_t *key, size_t key_len, const uint8_t *iv, size_t iv_len, uint8_t *session, size_t session_len);

/* Takes a piece of associated data, of any length.
 * Writes: the session.
 * Refuses: 8 (session not 240 bytes), 7 (behind a text piece, even an empty one, or behind finish), 3. */
uint64_t tulvekas_data(uint8_t *session, size_t session_len, const uint8_t *piece, size_t piece_len);

/* Takes a piece of text, of any length.
 * Writes: piece_len bytes of ciphertext to the front of out, and the session.
 * Refuses: 8 (session not 240 bytes), 7, 3, 9 (in no session that was begun or resumed), 4. */
uint64_t tulvekas_text(uint8_t *session, size_t session_len, const uint8_t *piece, size_t piece_len, uint8_t *out, size_t out_len);

/* Ends a session; every call on it answers 7 from then on. The IV is the one that tulvekas_begin was handed, or that tulvekas_resume found, so that
 * the page is filed under its own stay number.
 * Writes: 16 bytes of tag to the front of tag, 16 bytes of IV to the front of iv, and the session.
 * Refuses: 8 (session not 240 bytes), 7, 4 (either buffer). */
uint64_t tulvekas_finish(uint8_t *session, size_t session_len, uint8_t *tag, size_t tag_len, uint8_t *iv, size_t iv_len);

/* ---- a session suspended and resumed
 *
 * A suspended block is what is needed to go on with a session later and elsewhere, with the key: TULVEKAS_SUSPENDED_BYTES bytes, numbers low
 * byte first.
 *
 *     bytes      what stands there
 *     0          phase: 0 data, 1 text
 *     4-7        data length: bytes of associated data so far
 *     8-11       text length: bytes of text so far
 *     16-47      register A: cells a0 to a15, 2 bytes each
 *     48-79      register B: cells b0 to b15
 *     80-127     R1, R2, R3, 16 bytes each
 *     128-143    hash so far
 *     144-159    bytes not yet hashed, from the left
 *     508-511    check: the sum modulo 2^32 of the 127 words of 32 bits before
 *     others     zero
 *
 * Its rules: 512 bytes as in the table, with the check right; phase 0 or 1; both lengths within their limits, and the text length 0 in phase 0;
 * of bytes 144-159 those after the first n zero, n being the phase's length modulo 16. The check is against accidents and not against forgery.
 * Whoever reads a suspended block can decrypt the page and make its tag, without the key. */

/* Suspends a session that is not finished. The session goes on as it was.
 * Writes: 512 bytes to the front of block. Never the session.
 * Refuses: 8 (session not 240 bytes), 7, 4. */
uint64_t tulvekas_suspend(const uint8_t *session, size_t session_len, uint8_t *block, size_t block_len);

/* Resumes a session: from the block that tulvekas_suspend wrote and the key that the session began with, the very bytes of that session, and its
 * IV, found by walking the cipher back. In a block that somebody changed, only what breaks a rule or leads to no IV is found out: the hash so
 * far and the bytes not yet hashed are taken as they stand.
 * Writes: 240 bytes to the front of session, 16 to the front of iv.
 * Refuses: 1, 8 (block not 512 bytes, or another of its rules broken), 6, 4 (either buffer). */
uint64_t tulvekas_resume(const uint8_t *key, size_t key_len, const uint8_t *block, size_t block_len, uint8_t *session, size_t session_len,
                         uint8_t *iv, size_t iv_len);

/* ---- the cipher
 *
 * A state is TULVEKAS_STATE_BYTES bytes that the caller keeps and hands to each call, in that length exactly:
 *
 *     bytes      what stands there
 *     0-31       register A: cells a0 to a15, 2 bytes each, low byte first
 *     32-63      register B: cells b0 to b15
 *     64-111     R1, R2, R3, 16 bytes each
 *     112-119    count: how many blocks lie between the start and these registers, low byte first
 *
 * Bytes 0-111 are bytes 16-127 of a suspended block. The count travels with the registers: it is 0 at a start, each block forward adds one, each
 * block back takes one, and a trace reads it there. Every 120 bytes are answered as a state: one whose count is over 65,538 gives 9 in every run and
 * trace. Whoever reads a state has the keystream before it and behind it, without the key.
 *
 * From a suspended block to the IV of its session, and blocks forward and back, with state, found and sealed as arrays of bytes:
 *
 *     tulvekas_state_of(block, sizeof block, state, sizeof state)
 *     tulvekas_trace(state, sizeof state, key, sizeof key, found, sizeof found, sealed, sizeof sealed)
 *
 *     tulvekas_start(key, sizeof key, iv, sizeof iv, 0, state, sizeof state)
 *     tulvekas_run(state, sizeof state, BLOCKS, 0, forward, sizeof forward)
 *     tulvekas_run(state, sizeof state, BLOCKS, 1, back, sizeof back)
 *
 * The last call leaves the state that the start wrote, and back has the blocks of forward, the last one first. examples/states.c makes these
 * calls.
 *
 * A dump is TULVEKAS_DUMP_BYTES bytes: the registers, bytes 16-127 of a suspended block or bytes 0-111 of a state, of which the count is lost.
 * Where a lowest count and a highest are known, a search finds the least count of that range at which an IV and mode lead to the dump, and these.
 * That is the lost one, unless a lesser count of the range leads there too. The dump with the count found behind it is a state:
 *
 *     tulvekas_search(dump, sizeof dump, key, sizeof key, LOWEST, HIGHEST, count, sizeof count, found, sizeof found, sealed, 1, steps, sizeof steps)
 *     tulvekas_run(state, sizeof state, drawn, 1, stream, sizeof stream)
 *
 * The second call runs that state back to its start, drawn being the count. examples/dump.c makes these calls, and reads by the blocks that come
 * out what the session had sealed. */

/* Gives keystream from block 0 on, as many whole blocks as fit in out.
 * sealed is 0 for plain mode, any other number for sealed mode.
 * Writes: 16 * (out_len / 16) bytes to the front of out.
 * Refuses: 1, 2, 9 (more than 65,538 blocks fit). */
uint64_t tulvekas_keystream(const uint8_t *key, size_t key_len, const uint8_t *iv, size_t iv_len, uint64_t sealed, uint8_t *out, size_t out_len);

/* Starts: gives the state before block 0, with a count of 0.
 * sealed is 0 for plain mode, any other number for sealed mode.
 * Writes: 120 bytes to the front of state.
 * Refuses: 1, 2, 4 (state shorter than 120). */
uint64_t tulvekas_start(const uint8_t *key, size_t key_len, const uint8_t *iv, size_t iv_len, uint64_t sealed, uint8_t *state, size_t state_len);

/* Moves a state by n blocks and gives these, in the order in which they are made: backward the block before the state comes first.
 * back is 0 for forward, any other number for back.
 * Writes: 16 * n bytes to the front of out, and the state.
 * Refuses: 8 (state not 120 bytes), 9 (the count or n over 65,538, in either direction; forward, their sum), 15 (back, n over the count), 4. */
uint64_t tulvekas_run(uint8_t *state, size_t state_len, uint64_t n, uint64_t back, uint8_t *out, size_t out_len);

/* Finds the one IV and mode that lead to a state under a key, after as many blocks as it counts.
 * Writes: 16 bytes to the front of iv; 0 (plain mode) or 1 (sealed mode) to the first byte of sealed. Never the state.
 * Refuses: 1, 8 (state not 120 bytes), 9 (its count over 65,538), 6, 4 (iv shorter than 16, or sealed shorter than 1). */
uint64_t tulvekas_trace(const uint8_t *state, size_t state_len, const uint8_t *key, size_t key_len, uint8_t *iv, size_t iv_len, uint8_t *sealed,
                        size_t sealed_len);

/* Finds the least count from lowest to highest, both included, at which an IV and mode lead to a dump under a key, and these. What is asked is the
 * least: should an IV and mode lead there at a greater count too, at which the dump may have been made, a search from one above the least goes on.
 * The steps are those walked back: c + 16 * (c - lowest + 1), c being the count found, or the highest where none is; one for each block up to c, and
 * 16 at each count tried. The time grows with them. All counts from 0 to 65,538 take 1,114,162 steps.
 * Writes: the count, 8 bytes low byte first, to the front of count; 16 bytes to the front of iv; 0 (plain mode) or 1 (sealed mode) to the first byte
 * of sealed; the steps, 8 bytes low byte first, to the front of steps. Where it answers 6: the steps, if that buffer has at least 8 bytes, and nothing
 * else. Never the dump.
 * Refuses: 1, 8 (dump not 112 bytes), 9 (highest over 65,538), 18 (lowest above highest), 6 (at no count in the range), 4 (count or steps shorter
 * than 8, iv shorter than 16, or sealed shorter than 1). */
uint64_t tulvekas_search(const uint8_t *dump, size_t dump_len, const uint8_t *key, size_t key_len, uint64_t lowest, uint64_t highest, uint8_t *count,
                         size_t count_len, uint8_t *iv, size_t iv_len, uint8_t *sealed, size_t sealed_len, uint8_t *steps, size_t steps_len);

/* Gives the state of a suspended block with its count: a session has drawn 2 + (t + 15) / 16 blocks, t being its text length. It takes no key, so
 * that whether an IV leads there is for tulvekas_trace to say.
 * Writes: 120 bytes to the front of state.
 * Refuses: 8 (block not 512 bytes, or another of its rules broken), 4 (state shorter than 120). */
uint64_t tulvekas_state_of(const uint8_t *block, size_t block_len, uint8_t *state, size_t state_len);

/* ---- dates and keeping
 *
 * A day is a number: the days since 1 January 2000, which is day 0, up to TULVEKAS_LAST_DAY, which is 31 December 2199. A date is a year, a month
 * from 1 to 12 and a day of that month from 1 on, by the Gregorian calendar. It is written in TULVEKAS_DATE_BYTES bytes:
 *
 *     bytes      what stands there
 *     0-1        year, low byte first
 *     2          month
 *     3          day of the month
 *
 * A page is kept for TULVEKAS_KEPT_MONTHS months: up to and including the same day of the month eighteen months after its departure, or the last
 * day of that month where it lacks the day. That date may lie past 2199; it has no day number then, and every day is before it. The latest, for a
 * departure on 31 December 2199, is 30 June 2201.
 *
 *     tulvekas_day(year, month, day, number, sizeof number)
 *     tulvekas_date(departure, date, sizeof date)
 *     tulvekas_kept_until(departure, until, sizeof until)
 *     tulvekas_kept(today, departure, kept, sizeof kept)
 *
 * 31 August 2024 is day 9009, and a page of that departure is kept until 28 February 2026, which is day 9555: tulvekas_kept(9555, 9009, &kept, 1)
 * writes 1, and with 9556, which is 1 March 2026, it writes 0. examples/page_file.c makes these calls for the stays of a page file. */

/* Gives the date of a day.
 * Writes: the date, 4 bytes, to the front of date.
 * Refuses: 12 (day over 73,048), 4 (date shorter than 4). */
uint64_t tulvekas_date(uint64_t day, uint8_t *date, size_t date_len);

/* Gives the day of a date.
 * Writes: the day's number, 8 bytes low byte first, to the front of number.
 * Refuses: 12 (no such date, as 29 February 2100, 31 April, month 0 or 13, day 0; or a year before 2000 or after 2199), 4 (number shorter than 8). */
uint64_t tulvekas_day(uint64_t year, uint64_t month, uint64_t day, uint8_t *number, size_t number_len);

/* Whether a page is kept today: exactly when today is on or before the date that tulvekas_kept_until gives, a departure still to come included.
 * Writes: 1 (kept) or 0 (not) to the first byte of kept.
 * Refuses: 12 (either day over 73,048), 4 (kept shorter than 1). */
uint64_t tulvekas_kept(uint64_t today, uint64_t departure, uint8_t *kept, size_t kept_len);

/* Gives the last date on which a page is kept, by the day of its departure.
 * Writes: the date, 4 bytes, to the front of date.
 * Refuses: 12 (departure over 73,048), 4 (date shorter than 4). */
uint64_t tulvekas_kept_until(uint64_t departure, uint8_t *date, size_t date_len);

/* ---- page files
 *
 * A page file holds the pages of many stays, each with its own tag. It is pages of TULVEKAS_PAGE_BYTES bytes and nothing else; the page at
 * place i begins at byte 512 * i. A page, numbers low byte first:
 *
 *     bytes      what stands there
 *     0-11       stay
 *     12-15      page number within the stay
 *     16-19      departure day, 0 to 73,048
 *     20-21      text length, 0 to 474
 *     22-495     ciphertext of the text and of zeros behind it, 474 bytes in all
 *     496-511    tag
 *
 * Bytes 22-511 are the ciphertext and the tag that tulvekas_seal gives for bytes 0-15 as the IV, bytes 0-21 as the associated data, and the text
 * with its zeros. So stay, page number, day and length can be read without the key, and the tag covers them.
 *
 *     tulvekas_file_seal(key, sizeof key, stay, sizeof stay, 0, day, text, sizeof text, place, file, sizeof file)
 *     tulvekas_file_open(key, sizeof key, stay, sizeof stay, 0, file, sizeof file, opened, sizeof opened, length, sizeof length)
 *
 * The rules of a file: its length is a multiple of 512 (0 included); every page's text length is at most 474 and every page's day at most 73,048.
 * The rules of a stay in it: its pages, in file order, have the numbers 0, 1, 2 and so on, each once and none left out, and all the same day.
 * Pages of other stays may stand between them. An all-zero page is no gap: it counts as page 0, of day 0 and without text, of the stay of 12 zero
 * bytes, and zeros are not its tag, but for an accident as rare as a tag that is guessed. So where places are left all zero, that stay is for no guest.
 *
 *   - Opening tests the rules of the file in every page, of whatever stay: one length or day out of range anywhere gives 13 for all pages. The
 *     rules of a stay are tested in the stay that is named, tag and padding in the page that is named. How other stays' pages are ordered and
 *     dated, and what stands in the ciphertexts and tags of other pages, makes no difference.
 *   - What sealing does depends on the length of the file and on none of its bytes. The pages of a stay may be sealed in any order of calls: as long
 *     as one is missing before another, none of that stay opens. A stay whose last pages are missing cannot be told from one that never had
 *     them.
 *   - What a caller has to see to: stay and page number are the IV. To seal one page number of one stay twice under one key, with another text or
 *     another day, uses one IV twice: whoever has both pages has the difference of their texts, and help to forge a tag. So a page that is sealed
 *     again wants another page number, another stay or another key; where the day of a stay changes, all its pages want another stay or another
 *     key. Another place is not enough, nor is another day, since neither is part of the IV; nor may tulvekas_seal, tulvekas_begin,
 *     tulvekas_keys_store or tulvekas_schedule_join be given the same 16 bytes as IV under that key. */

/* Seals a page into its place in a file. Stay and text may not lie in that file: a stay that is read from it has to be copied out first.
 * Writes: the 512 bytes of the page at that place. Never another page.
 * Refuses: 1, 2 (stay not 12 bytes), 3 (text over 474 bytes), 12, 13 (file_len not a multiple of 512, or no such place in the file). */
uint64_t tulvekas_file_seal(const uint8_t *key, size_t key_len, const uint8_t *stay, size_t stay_len, uint32_t page, uint64_t day,
                            const uint8_t *text, size_t text_len, uint64_t place, uint8_t *file, size_t file_len);

/* Opens the page of a stay with a page number, wherever in the file it stands. An out of 474 bytes is long enough for every page.
 * Writes: the text, as many bytes as its stored length, to the front of out; that length, 8 bytes low byte first, to the front of length.
 * Refuses: 1, 2 (stay not 12 bytes), 13 (a rule of the file), 14 (no such page, or a rule of its stay), 4 (out shorter than the page's stored
 * length), 5, 13 (the text has other bytes than zeros behind its stored length), 4 (length shorter than 8 bytes). */
uint64_t tulvekas_file_open(const uint8_t *key, size_t key_len, const uint8_t *stay, size_t stay_len, uint32_t page, const uint8_t *file,
                            size_t file_len, uint8_t *out, size_t out_len, uint8_t *length, size_t length_len);

/* ---- key stores
 *
 * A key store holds the keys of many stays, each sealed under the season's key. It is blocks of TULVEKAS_KEYS_BLOCK_BYTES bytes and nothing else;
 * the block at place i begins at byte 512 * i. Bytes that are all zero, 512 for each block, are an empty store. A block:
 *
 *     bytes      what stands there
 *     0          mark: 0 empty, 1 held, 2 erased
 *     16-31      the stay number, an IV
 *     32-63      sealed key
 *     64-79      its tag
 *     508-511    check: the sum modulo 2^32 of the 127 words of 32 bits before, as in a suspended block
 *     others     zero
 *
 * Sealed key and tag are the ciphertext and the tag that tulvekas_seal gives for the stay's key as the text, under the season's key, with the
 * number as the IV and no associated data. The number can be read without the key.
 *
 *     tulvekas_keys_store(key, sizeof key, iv, sizeof iv, stay_key, sizeof stay_key, store, sizeof store)
 *     tulvekas_keys_fetch(key, sizeof key, iv, sizeof iv, store, sizeof store, fetched, sizeof fetched)
 *     tulvekas_keys_erase(iv, sizeof iv, store, sizeof store)
 *
 * Here key is the season's. examples/keys.c makes these calls on a store that it keeps in a file.
 *
 * The rules of a store: its length is a multiple of 512 (0 included: a store without a block); every block is as in the table, with its check right;
 * an empty block is all zero; an erased one is zero at key and tag; no number stands in two blocks of mark 1 or 2. The number of 16 zero bytes is a
 * number like any other: an empty block does not have it.
 *
 *   - Every call tests these rules in every block, whichever number is named: one that is broken anywhere gives 8 for all, behind 1 and 2. It
 *     goes over all blocks, tests each block's rules once and compares its number with those before it, so that what a call takes grows with
 *     the square of the number of blocks. Whether a tag is its sealed key's is tested in the block that is fetched, and in no other.
 *   - Erasing zeroes the sealed key and its tag in the store that is lent, and nothing of the key is left there: stores that differed in that key
 *     alone are equal byte for byte afterwards. It zeroes no copy: a store that was copied before, or that a disk or a backup still has, gives the
 *     key to whoever has the season's key. It takes no key, so that whoever may write the store may erase.
 *   - A number once stored is never given another key in that store, not even when it is erased: two seals under one key and one IV would give
 *     away the difference of the two keys. So the block of an erased number is not used again, and a store has room for as many numbers in all as
 *     it has blocks. A longer store is the same bytes with zeros behind them, 512 for each block more.
 *   - What a caller has to see to: the number is an IV under the season's key. The same number may be stored under that key in no other store, nor
 *     again in an earlier copy of this one, unless with the same stay key; nor may tulvekas_seal, tulvekas_begin, tulvekas_keystream,
 *     tulvekas_start, tulvekas_schedule_join or a page file be given the same 16 bytes as IV under that key. Pages of the stay are sealed under its
 *     own key. Each number gets a key of its own: one that is stored for two numbers is erased for each by itself.
 *   - The check is against accidents and not against forgery, and the tag covers the key and its number alone: whoever may write a store can
 *     empty blocks, exchange their places, and put an earlier copy of a block in its place again. */

/* Stores a stay's key: seals it into the first empty block. Keys and number may not lie in that store.
 * Writes: the 512 bytes of that block. Never another block.
 * Refuses: 1 (either key), 2, 8 (a rule of the store), 16 (the number stands in it, held or erased), 4 (no block is empty). */
uint64_t tulvekas_keys_store(const uint8_t *key, size_t key_len, const uint8_t *iv, size_t iv_len, const uint8_t *stay_key, size_t stay_key_len,
                             uint8_t *store, size_t store_len);

/* Fetches a stay's key, wherever in the store it stands.
 * Writes: the 32 bytes of the stay's key to the front of out. Never the store.
 * Refuses: 1, 2, 8 (a rule of the store), 17 (the number is not in it, or is erased), 5, 4 (out shorter than 32). */
uint64_t tulvekas_keys_fetch(const uint8_t *key, size_t key_len, const uint8_t *iv, size_t iv_len, const uint8_t *store, size_t store_len,
                             uint8_t *out, size_t out_len);

/* Erases a stay's key: sets its block's mark to 2, zeroes its sealed key and tag and makes its check anew; the number stays. The number may not lie
 * in that store: one that is read from it has to be copied out first.
 * Writes: the mark, the sealed key, the tag and the check of that block. Never another block.
 * Refuses: 2, 8 (a rule of the store), 17 (the number is not in it, or is erased). */
uint64_t tulvekas_keys_erase(const uint8_t *iv, size_t iv_len, uint8_t *store, size_t store_len);

/* ---- schedulers
 *
 * A scheduler seals the pages of up to TULVEKAS_MOST_STAYS stays a piece at a time, so that none waits for the whole page of another. A stay joins
 * with its key, which may differ from stay to stay, its number, which is its IV, and the length of its text; its page has no associated data. Each
 * turn serves the stay that comes next: it takes the next TULVEKAS_MOST_PIECE bytes of that stay's text, or its rest if less, and gives their
 * ciphertext. With its last piece a stay leaves, and the turn gives its tag. Ciphertext and tag are those of tulvekas_seal, whatever the others do.
 *
 *     tulvekas_schedule_empty(scheduler, sizeof scheduler)
 *     tulvekas_schedule_join(scheduler, sizeof scheduler, stay->key, sizeof stay->key, stay->iv, sizeof stay->iv, stay->length)
 *     tulvekas_schedule_next(scheduler, sizeof scheduler, found, sizeof found, iv, sizeof iv, due, sizeof due)
 *     tulvekas_schedule_turn(scheduler, sizeof scheduler, piece, length, out, length, iv, sizeof iv, turn, sizeof turn, done, 1, tag, sizeof tag)
 *
 * The third call names a stay, and length is the number that it writes to due: piece is that stay's next bytes, as many as that. examples/scheduler.c
 * makes these calls until nobody is there.
 *
 * A scheduler is TULVEKAS_SCHEDULE_BYTES bytes that the caller keeps and hands to each call, in that length exactly. Numbers are low byte first:
 *
 *     bytes      what stands there
 *     0-7        turns done: the number of the last one
 *     8-15       how many stays are there; as many places are in use, from the first on, in the order in which the stays joined
 *     16-8207    32 places of 256 bytes, in each:
 *       0-239    the stay's session, in the bytes of a session; its last 16 are the IV
 *       240-247  left: bytes of its text that are not sealed yet
 *       248-255  mark: the number of its last turn, or, before its first, how many turns were done when it joined
 *
 * A place that is not in use is zero, so that the same scheduler always has the same bytes, and a stay that has left has left nothing in them. They
 * may be copied or moved. Whoever reads them can decrypt the pages of all who are there and make their tags, without a key: wipe them when done.
 *
 *   - Next comes the stay with the lowest mark, and of equal ones the one that joined first. So every stay gets a turn within 32 numbered turns of
 *     its joining, and of each turn that leaves it text. The last of 32 that join one after the other gets the thirty-second.
 *   - Turns are numbered from 1 to TULVEKAS_MOST_TURNS. A turn that is refused is not numbered. Nor is one where nobody is there: it is accepted, and
 *     does nothing. Once all numbers are given, stays may join, but none is served.
 *   - The stay that tulvekas_schedule_next names is the one that the next accepted turn serves, whoever joins before it: a joiner comes behind all
 *     who are there. Only an accepted turn moves on. No call can tell whose text a piece is: where more than one part of a program
 *     makes turns, each has to ask whom it serves, and make the turn before another does.
 *   - Bytes that no call wrote are answered like a scheduler, with no promise but that: they list as many stays as bytes 8-15 say, or 32 where these
 *     say more, each with the session, the bytes left and the mark that its place says. A stay that has nothing left is due an empty piece, and
 *     leaves with that if the turn is not refused. What stands behind the places in use is not read, and stays unless a stay joins there.
 *   - What a caller has to see to: a number is refused only while it is there, then under every key. When its stay has left it may join again, and as
 *     that is another page under the same IV, it wants another key. Nor may the same 16 bytes be an IV under that key in any other call, or
 *     the stay and page number of a page file. Of two copies of a scheduler only one may go on: a piece that is taken again, with another text, is
 *     under the same keystream. */

/* Makes a scheduler with nobody there and no turn done.
 * Writes: 8,208 bytes to the front of scheduler, all zero.
 * Refuses: 4 (scheduler shorter than 8,208). */
uint64_t tulvekas_schedule_empty(uint8_t *scheduler, size_t scheduler_len);

/* A stay joins, with length bytes of text to seal.
 * Writes: bytes 8-15 of the scheduler, and the place behind those in use. Never another place.
 * Refuses: 8 (scheduler not 8,208 bytes), 1, 2, 3 (length 0 or over 1,048,576), 19 (32 stays are there), 16 (a stay with that IV is there). */
uint64_t tulvekas_schedule_join(uint8_t *scheduler, size_t scheduler_len, const uint8_t *key, size_t key_len, const uint8_t *iv, size_t iv_len,
                                uint64_t length);

/* Names the stay that comes next.
 * Writes: 1 (somebody is there) or 0 (nobody) to the first byte of found; where it is 1, the 16 bytes of the stay's IV to the front of iv, and the length
 * of the piece that is due, 8 bytes low byte first, to the front of due. Never the scheduler.
 * Refuses: 8 (scheduler not 8,208 bytes), 4 (found shorter than 1, iv shorter than 16, or due shorter than 8, whether anybody is there or not). */
uint64_t tulvekas_schedule_next(const uint8_t *scheduler, size_t scheduler_len, uint8_t *found, size_t found_len, uint8_t *iv, size_t iv_len,
                                uint8_t *due, size_t due_len);

/* Makes a turn: takes the piece that is due of the stay that comes next.
 * Writes: piece_len bytes of ciphertext to the front of out; the 16 bytes of the stay's IV to the front of iv; the turn's number, 8 bytes low byte
 * first, to the front of turn; 1 (the stay has left) or 0 (it has not) to the first byte of done; where that is 1, the 16 bytes of its tag to the front
 * of tag; and of the scheduler bytes 0-15 and the stay's place, or, where it has left, its place and those in use behind it: each gets what stood in the
 * one behind it, and the last of them zeros. Never another place.
 * Where nobody is there: 0 to turn and 0 to done, and nothing else, whatever the piece.
 * Refuses: 8 (scheduler not 8,208 bytes); where somebody is there, 9 (2^62 turns are done), 3 (piece_len not the length due), 7, 3, 9 (as
 * tulvekas_text for the stay's session; in no scheduler that was empty and that calls alone wrote), 4 (out shorter than the piece); and at last, whether
 * anybody is there or not, 4 (iv or tag shorter than 16, turn shorter than 8, or done shorter than 1, written or not). */
uint64_t tulvekas_schedule_turn(uint8_t *scheduler, size_t scheduler_len, const uint8_t *piece, size_t piece_len, uint8_t *out, size_t out_len,
                                uint8_t *iv, size_t iv_len, uint8_t *turn, size_t turn_len, uint8_t *done, size_t done_len, uint8_t *tag,
                                size_t tag_len);

#ifdef __cplusplus
}
#endif

#endif
