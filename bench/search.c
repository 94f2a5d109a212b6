/* Searches of dumps in ranges of counts, and traces of states, which go back by the same steps.
 *
 *   search                                     compares what searches and traces find
 *   search tulvekas_search LOWEST HIGHEST AT   makes one search, of a dump at a count, or of a foreign one where AT is `none`
 *   search tulvekas_trace COUNT                makes one trace; both print their steps, for counting instructions
 *   search time ROUNDS                         prints the nanoseconds of a step, each the best of so many rounds: in a search of 1,000 counts in
 *                                              vain, in a trace of as many steps, and in traces at count 0, which are 16 steps of a start
 */
#include <stdio.h>
#include <stdlib.h>
#include <string.h>
#include <time.h>

#include "tulvekas.h"

enum { STARTS = 1000, STEPS = STARTS - 1 + 16 * STARTS, COUNT_AT = TULVEKAS_DUMP_BYTES };

static uint8_t key[TULVEKAS_KEY_BYTES], iv[TULVEKAS_IV_BYTES], out[TULVEKAS_MOST_BLOCKS * TULVEKAS_BLOCK_BYTES];
static uint8_t count[TULVEKAS_COUNT_BYTES], found[TULVEKAS_IV_BYTES], sealed[1], steps[TULVEKAS_STEPS_BYTES];

static void fail(const char *what, uint64_t at)
{
    fprintf(stderr, "search: %s at %llu\n", what, (unsigned long long)at);
    exit(1);
}

static void put(uint8_t *to, uint64_t n)
{
    for (int i = 0; i < 8; i++)
        to[i] = (uint8_t)(n >> 8 * i);
}

static uint64_t number(const uint8_t *at)
{
    uint64_t n = 0;
    for (int i = 7; i >= 0; i--)
        n = n << 8 | at[i];
    return n;
}

/* A state that so many blocks lead to; its front is a dump. */
static void reach(uint8_t *state, uint64_t at)
{
    if (tulvekas_start(key, sizeof key, iv, sizeof iv, 1, state, TULVEKAS_STATE_BYTES) != 0 ||
        tulvekas_run(state, TULVEKAS_STATE_BYTES, at, 0, out, sizeof out) != 0)
        fail("no state", at);
}

/* And one that nothing leads to. */
static void foreign(uint8_t *state, uint64_t at)
{
    memset(state, 0x5a, TULVEKAS_DUMP_BYTES);
    put(state + COUNT_AT, at);
}

static uint64_t search(const uint8_t *dump, uint64_t lowest, uint64_t highest)
{
    return tulvekas_search(dump, TULVEKAS_DUMP_BYTES, key, sizeof key, lowest, highest, count, sizeof count, found, sizeof found, sealed,
                           sizeof sealed, steps, sizeof steps);
}

static uint64_t trace(const uint8_t *state)
{
    return tulvekas_trace(state, TULVEKAS_STATE_BYTES, key, sizeof key, found, sizeof found, sealed, sizeof sealed);
}

/* A search finds the first count at which a trace finds the same, and says the steps that traces would have made, each from the one before. */
static void compare(const uint8_t *dump, uint64_t lowest, uint64_t highest)
{
    uint8_t state[TULVEKAS_STATE_BYTES], traced[TULVEKAS_IV_BYTES] = {0}, mode = 0;
    uint64_t at = lowest, answer, walked = lowest + 16;
    memcpy(state, dump, TULVEKAS_DUMP_BYTES);
    put(state + COUNT_AT, at);
    while ((answer = trace(state)) != 0 && at < highest) {
        put(state + COUNT_AT, ++at);
        walked += 17;
    }
    if (answer == 0) {
        memcpy(traced, found, sizeof traced);
        mode = sealed[0];
    }
    if (search(dump, lowest, highest) != answer || number(steps) != walked)
        fail("a search and traces differ", at);
    if (answer == 0 && (number(count) != at || sealed[0] != mode || memcmp(found, traced, sizeof traced) != 0))
        fail("a search and traces find different things", at);
}

static double now(void)
{
    struct timespec t;
    clock_gettime(CLOCK_MONOTONIC, &t);
    return 1e9 * (double)t.tv_sec + (double)t.tv_nsec;
}

/* Nanoseconds of a step in one of the three. The front of a state is its dump. */
static double timed(int which, const uint8_t *state, const uint8_t *start)
{
    uint64_t answers = 0;
    const double from = now();
    if (which == 0)
        answers = search(state, 0, STARTS - 1);
    else if (which == 1)
        answers = trace(state);
    else
        for (int i = 0; i < STARTS; i++)
            answers |= trace(start);
    if (answers != TULVEKAS_NO_ORIGIN)
        fail("something is found", (uint64_t)which);
    return (now() - from) / (which == 2 ? 16 * STARTS : STEPS);
}

/* By turns, there and back, so that noise hits all alike. */
static void time_all(int rounds)
{
    uint8_t state[TULVEKAS_STATE_BYTES], start[TULVEKAS_STATE_BYTES];
    double best[3] = {1e18, 1e18, 1e18};
    foreign(state, STEPS - 16);
    foreign(start, 0);
    for (int round = 0; round < rounds; round++)
        for (int i = 0; i < 3; i++) {
            const int which = round % 2 ? 2 - i : i;
            const double ns = timed(which, state, start);
            if (ns < best[which])
                best[which] = ns;
        }
    printf("%f %f %f\n", best[0], best[1], best[2]);
}

int main(int words, char **word)
{
    uint8_t state[TULVEKAS_STATE_BYTES];
    for (int i = 0; i < TULVEKAS_KEY_BYTES; i++)
        key[i] = (uint8_t)(7 * i + 3);
    for (int i = 0; i < TULVEKAS_IV_BYTES; i++)
        iv[i] = (uint8_t)(13 * i + 1);
    /* Every page of it is mapped before a clock starts. */
    memset(out, 1, sizeof out);
    if (words == 5 && strcmp(word[1], "tulvekas_search") == 0) {
        const uint64_t lowest = strtoull(word[2], NULL, 10), highest = strtoull(word[3], NULL, 10);
        const int none = strcmp(word[4], "none") == 0;
        if (none)
            foreign(state, 0);
        else
            reach(state, strtoull(word[4], NULL, 10));
        if (search(state, lowest, highest) != (none ? TULVEKAS_NO_ORIGIN : TULVEKAS_ACCEPTED))
            fail("another answer than expected", lowest);
        printf("%llu\n", (unsigned long long)number(steps));
        return 0;
    }
    if (words == 3 && strcmp(word[1], "tulvekas_trace") == 0) {
        const uint64_t at = strtoull(word[2], NULL, 10);
        reach(state, at);
        if (trace(state) != TULVEKAS_ACCEPTED)
            fail("another answer than expected", at);
        printf("%llu\n", (unsigned long long)(at + 16));
        return 0;
    }
    if (words == 3 && strcmp(word[1], "time") == 0) {
        time_all(atoi(word[2]));
        return 0;
    }
    for (uint64_t at = 0; at < 40; at += 13) {
        reach(state, at);
        compare(state, 0, 40);
        compare(state, at, at);
        compare(state, at + 1, 40);
    }
    foreign(state, 0);
    compare(state, 0, 0);
    compare(state, 0, 99);
    compare(state, 100, 150);
    return 0;
}
