/* The library beside an earlier build of it, whose calls are named before_ here: both in one process, in alternating rounds.
 *
 *     against ROUNDS            a line for each row: task, size, best ns before, best ns now
 *     against SIDE TASK SIZE    one call, for callgrind; SIDE is before or tulvekas */

#include "tulvekas.h"

#include <stdio.h>
#include <stdlib.h>
#include <string.h>
#include <time.h>

uint64_t before_seal(const uint8_t *, size_t, const uint8_t *, size_t, const uint8_t *, size_t, const uint8_t *, size_t, uint8_t *, size_t, uint8_t *, size_t);
uint64_t before_open(const uint8_t *, size_t, const uint8_t *, size_t, const uint8_t *, size_t, const uint8_t *, size_t, const uint8_t *, size_t, uint8_t *,
                     size_t);
uint64_t before_keystream(const uint8_t *, size_t, const uint8_t *, size_t, uint64_t, uint8_t *, size_t);
/* A build whose states lack the count has it beside 112 bytes of registers. */
#ifdef COUNT_APART
uint64_t before_trace(const uint8_t *, size_t, const uint8_t *, size_t, uint64_t, uint8_t *, size_t, uint8_t *, size_t);
#define BEFORE_TRACE(n) before_trace(state, 112, key, 32, n, found, 16, &sealed, 1)
#else
uint64_t before_trace(const uint8_t *, size_t, const uint8_t *, size_t, uint8_t *, size_t, uint8_t *, size_t);
#define BEFORE_TRACE(n) before_trace(state, sizeof state, key, 32, found, 16, &sealed, 1)
#endif
uint64_t before_resume(const uint8_t *, size_t, const uint8_t *, size_t, uint8_t *, size_t, uint8_t *, size_t);

#define MIB 1048576
#define BLOCKS 65538

static const struct row {
    const char *task;
    size_t size;
} rows[] = {{"keystream", MIB}, {"seal", MIB}, {"open", MIB}, {"seal", 474}, {"seal", 64}, {"start", 0}, {"trace", BLOCKS}, {"resume", BLOCKS}};

enum { ROWS = sizeof rows / sizeof *rows };

static uint8_t key[32], iv[16], text[MIB], out[MIB], tag[16], cipher[MIB], cipher_tag[16], block[512], session[TULVEKAS_SESSION_BYTES];
static uint8_t state[TULVEKAS_STATE_BYTES], found[16], sealed;

static int is(const struct row *r, const char *task)
{
    return strcmp(r->task, task) == 0;
}

static uint64_t call(int now, const struct row *r)
{
    static const uint8_t first[16];
    size_t n = r->size;
    iv[0]++;
    if (is(r, "keystream") || is(r, "start"))
        return now ? tulvekas_keystream(key, 32, iv, 16, 0, out, n) : before_keystream(key, 32, iv, 16, 0, out, n);
    if (is(r, "seal"))
        return now ? tulvekas_seal(key, 32, iv, 16, NULL, 0, text, n, out, n, tag, 16) : before_seal(key, 32, iv, 16, NULL, 0, text, n, out, n, tag, 16);
    if (is(r, "open"))
        return now ? tulvekas_open(key, 32, first, 16, NULL, 0, cipher, n, cipher_tag, 16, out, n)
                   : before_open(key, 32, first, 16, NULL, 0, cipher, n, cipher_tag, 16, out, n);
    if (is(r, "trace"))
        return now ? tulvekas_trace(state, sizeof state, key, 32, found, 16, &sealed, 1) : BEFORE_TRACE(n);
    return now ? tulvekas_resume(key, 32, block, 512, session, sizeof session, found, 16)
               : before_resume(key, 32, block, 512, session, sizeof session, found, 16);
}

static double clock_ns(void)
{
    struct timespec t;
    clock_gettime(CLOCK_MONOTONIC, &t);
    return (double)t.tv_sec * 1e9 + (double)t.tv_nsec;
}

/* Nanoseconds a call, of so many between two readings of the clock. */
static double timed(int now, const struct row *r, long calls)
{
    double start = clock_ns();
    for (long i = 0; i < calls; i++)
        if (call(now, r) != 0)
            exit(1);
    return (clock_ns() - start) / (double)calls;
}

/* What is opened, traced and resumed, by a session, so that no call that is counted is made here. */
static void prepare(void)
{
    for (int i = 0; i < 32; i++)
        key[i] = (uint8_t)(7 * i + 1);
    for (size_t i = 0; i < MIB; i++)
        text[i] = (uint8_t)(i * 2654435761u >> 13);
    memset(out, 1, sizeof out);
    if (tulvekas_begin(key, 32, iv, 16, session, sizeof session) != 0 || tulvekas_text(session, sizeof session, text, MIB, cipher, MIB) != 0 ||
        tulvekas_suspend(session, sizeof session, block, 512) != 0 || tulvekas_state_of(block, 512, state, sizeof state) != 0 ||
        tulvekas_finish(session, sizeof session, cipher_tag, 16, found, 16) != 0)
        exit(1);
}

int main(int n, char **words)
{
    static double best[ROWS][2];
    static long calls[ROWS];
    prepare();
    if (n == 4) {
        struct row r = {words[2], (size_t)atol(words[3])};
        return call(strcmp(words[1], "before") != 0, &r) != 0;
    }
    /* A round goes over all rows, so that noise hits all alike; in it a call is repeated until it takes 0.2 ms. */
    for (int i = 0; i < ROWS; i++) {
        best[i][0] = best[i][1] = 1e18;
        for (calls[i] = 1; timed(1, rows + i, calls[i]) * (double)calls[i] < 2e5;)
            calls[i] *= 2;
    }
    for (int round = 0; round < atoi(words[1]); round++)
        for (int i = 0; i < ROWS; i++)
            for (int k = 0; k < 2; k++) {
                int now = (round + k) % 2;
                double took = timed(now, rows + i, calls[i]);
                if (took < best[i][now])
                    best[i][now] = took;
            }
    for (int i = 0; i < ROWS; i++)
        printf("%s,%zu,%.1f,%.1f\n", rows[i].task, rows[i].size, best[i][0], best[i][1]);
    return 0;
}
