/* Turns at a scheduler, beside the sealing of the same pieces in a session by itself.
 *
 *   scheduler              compares what turns and sessions write
 *   scheduler TASK         makes one call, or two where a session is finished, for counting instructions
 *   scheduler time ROUNDS  prints the nanoseconds of sealing a piece, each the best of so many rounds: in a session by itself, in turns of 32 stays,
 *                          and in turns of one
 *
 * A piece is 4,096 bytes, the most that a turn takes. Who comes next stands at the first place, so that all others move where it leaves; or at the last,
 * with each mark lower than the one before it. */
#include <stdio.h>
#include <stdlib.h>
#include <string.h>
#include <time.h>

#include "tulvekas.h"

enum { PIECE = TULVEKAS_MOST_PIECE, STAYS = TULVEKAS_MOST_STAYS, TURNS = 4 * STAYS };
enum { HEAD = 16, PLACE = 256, LEFT = 240, MARK = 248 };

static uint8_t key[TULVEKAS_KEY_BYTES], text[PIECE], out[PIECE], by_itself[PIECE];
static uint8_t scheduler[TULVEKAS_SCHEDULE_BYTES], session[TULVEKAS_SESSION_BYTES];
static uint8_t iv[TULVEKAS_IV_BYTES], number[TULVEKAS_TURN_BYTES], done[1], tag[TULVEKAS_TAG_BYTES], finished[TULVEKAS_TAG_BYTES];

static void fail(const char *what, const char *of)
{
    fprintf(stderr, "scheduler: %s: %s\n", of, what);
    exit(1);
}

static void accepted(const char *call, uint64_t answer)
{
    if (answer != 0)
        fail("refused", call);
}

static void iv_of(uint8_t *to, int stay)
{
    memset(to, 0x5a, TULVEKAS_IV_BYTES);
    to[15] = (uint8_t)stay;
}

static uint64_t join(int stay, uint64_t length)
{
    uint8_t of[TULVEKAS_IV_BYTES];
    iv_of(of, stay);
    return tulvekas_schedule_join(scheduler, sizeof scheduler, key, sizeof key, of, sizeof of, length);
}

/* So many stays, each with so much to seal, laid by hand, so that no call that is counted is made here. */
static void fill(int stays, uint64_t length)
{
    memset(scheduler, 0, sizeof scheduler);
    scheduler[8] = (uint8_t)stays;
    for (int i = 0; i < stays; i++) {
        uint8_t *place = scheduler + HEAD + PLACE * i, of[TULVEKAS_IV_BYTES];
        iv_of(of, i);
        accepted("begin", tulvekas_begin(key, sizeof key, of, sizeof of, place, TULVEKAS_SESSION_BYTES));
        for (int j = 0; j < 8; j++)
            place[LEFT + j] = (uint8_t)(length >> 8 * j);
    }
}

/* The stay at the last place comes next. */
static void last_next(void)
{
    scheduler[0] = STAYS;
    for (int i = 0; i < STAYS; i++)
        scheduler[HEAD + PLACE * i + MARK] = (uint8_t)(STAYS - i);
}

static void begin(int stay)
{
    uint8_t of[TULVEKAS_IV_BYTES];
    iv_of(of, stay);
    accepted("begin", tulvekas_begin(key, sizeof key, of, sizeof of, session, sizeof session));
}

static uint64_t turn(void)
{
    return tulvekas_schedule_turn(scheduler, sizeof scheduler, text, sizeof text, out, sizeof out, iv, sizeof iv, number, sizeof number, done,
                                  sizeof done, tag, sizeof tag);
}

static uint64_t next(void)
{
    return tulvekas_schedule_next(scheduler, sizeof scheduler, done, sizeof done, iv, sizeof iv, number, sizeof number);
}

static uint64_t seal(void)
{
    return tulvekas_text(session, sizeof session, text, sizeof text, by_itself, sizeof by_itself);
}

static uint64_t finish(void)
{
    return tulvekas_finish(session, sizeof session, finished, sizeof finished, iv, sizeof iv);
}

static int is(const char *task, const char *name)
{
    return strcmp(task, name) == 0;
}

/* Makes all ready for a task, and the call. */
static uint64_t one(const char *task)
{
    if (is(task, "begin") || is(task, "text") || is(task, "finish")) {
        begin(0);
        return (!is(task, "begin") && seal()) || (is(task, "finish") && finish());
    }
    if (is(task, "join")) {
        fill(STAYS - 1, PIECE);
        return join(STAYS - 1, PIECE);
    }
    fill(is(task, "turn1") ? 1 : STAYS, is(task, "leave") ? PIECE : 2 * PIECE);
    if (is(task, "last"))
        last_next();
    return is(task, "next") ? next() : turn();
}

/* Stays that join are laid as by hand, and each piece and each tag is that of the stay's session by itself. */
static void compare(int stays)
{
    static uint8_t laid[TULVEKAS_SCHEDULE_BYTES];
    fill(stays, 2 * PIECE);
    memcpy(laid, scheduler, sizeof laid);
    accepted("empty", tulvekas_schedule_empty(scheduler, sizeof scheduler));
    for (int i = 0; i < stays; i++)
        accepted("join", join(i, 2 * PIECE));
    if (memcmp(laid, scheduler, sizeof laid) != 0)
        fail("another scheduler", "join");
    for (int i = 0; i < 2 * stays; i++) {
        begin(i % stays);
        accepted("text", seal());
        if (i >= stays)
            accepted("text", seal());
        accepted("turn", turn());
        if (iv[15] != i % stays || memcmp(out, by_itself, PIECE) != 0 || done[0] != i / stays)
            fail("another stay or ciphertext", "turn");
        accepted("finish", finish());
        if (done[0] == 1 && memcmp(tag, finished, sizeof tag) != 0)
            fail("another tag", "turn");
    }
    accepted("next", next());
    if (done[0] != 0)
        fail("somebody is left", "next");
}

static double now(void)
{
    struct timespec t;
    clock_gettime(CLOCK_MONOTONIC, &t);
    return 1e9 * (double)t.tv_sec + (double)t.tv_nsec;
}

/* Nanoseconds of a piece: in a session by itself, in turns of 32 stays, in turns of one. */
static double timed(int which)
{
    uint64_t answers = 0;
    double from;
    begin(0);
    fill(which == 1 ? STAYS : 1, TULVEKAS_MOST_TEXT);
    from = now();
    for (int i = 0; i < TURNS; i++)
        answers |= which == 0 ? seal() : turn();
    from = now() - from;
    accepted("a timed call", answers);
    return from / TURNS;
}

/* By turns, there and back, so that noise hits all alike. */
static void time_all(int rounds)
{
    double best[3] = {1e18, 1e18, 1e18};
    for (int round = 0; round < rounds; round++)
        for (int i = 0; i < 3; i++) {
            const int which = round % 2 ? 2 - i : i;
            const double ns = timed(which);
            if (ns < best[which])
                best[which] = ns;
        }
    printf("%f %f %f\n", best[0], best[1], best[2]);
}

int main(int count, char **words)
{
    for (int i = 0; i < TULVEKAS_KEY_BYTES; i++)
        key[i] = (uint8_t)(7 * i + 3);
    for (int i = 0; i < PIECE; i++)
        text[i] = (uint8_t)(13 * i + 1);
    if (count == 3 && is(words[1], "time")) {
        time_all(atoi(words[2]));
        return 0;
    }
    if (count == 2) {
        accepted(words[1], one(words[1]));
        return 0;
    }
    compare(STAYS);
    compare(1);
    return 0;
}
