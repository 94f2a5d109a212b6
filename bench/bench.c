/* Measures every peer on every row of the table, in one run and on the same buffers, and writes a line of CSV for each.
 *
 *   bench                         everything; OpenSSL also in a child process whose OPENSSL_ia32cap masks AES and carry-less multiplication
 *   bench row TASK SIZE           one row, for measuring it in many processes
 *   bench once PEER TASK SIZE     one call, for counting instructions
 *
 * A round goes over all rows, and in a row over all peers, there and back by turns, so that noise hits all alike; the child takes its turn among
 * them. What counts is the best round. In a round a call is repeated until it takes 0.2 ms, so that the clock's grain does not count.
 * All buffers are written, and all results compared, before the clock starts. */
#define _GNU_SOURCE
#include <pthread.h>
#include <stdio.h>
#include <stdlib.h>
#include <string.h>
#include <sys/wait.h>
#include <time.h>
#include <unistd.h>

#include "peers.h"
#include "portable.h"
#include "tulvekas.h"

#define ROUNDS 100
#define LEAST_NS 2e5
#define STACK (64 * 1024)

/* AES (bit 57) and PCLMULQDQ (33) of leaf 1; VAES and VPCLMULQDQ (41 and 42) of leaf 7. */
#define MASK "~0x200000200000000:~0x60000000000"

uint8_t key[32], iv[16], text[MOST_TEXT], zeros[MOST_TEXT], file[PAGES * PAGE];

static uint8_t out[MOST_TEXT], expected[MOST_TEXT], tag[16], expected_tag[16], found[16];

enum task { KEYSTREAM, SEAL, TRACE, RESUME, BACK, FILE_SEAL, FILE_OPEN, PAGE_SEAL, PAGE_OPEN };

static const struct row {
    const char *name;
    enum task task;
    size_t size; /* bytes, blocks drawn, or pages of a file */
} rows[] = {
    {"keystream", KEYSTREAM, 64},
    {"keystream", KEYSTREAM, 1024},
    {"keystream", KEYSTREAM, 16384},
    {"keystream", KEYSTREAM, 1048576},
    {"seal", SEAL, 64},
    {"seal", SEAL, 474}, /* the text of a page in a file of pages */
    {"seal", SEAL, 1024},
    {"seal", SEAL, 16384},
    {"seal", SEAL, 1048576},
    {"start", KEYSTREAM, 0},
    {"trace", TRACE, 2},
    {"trace", TRACE, 65538},
    {"resume", RESUME, 2},
    {"resume", RESUME, 65538},
    {"back", BACK, 1048576},
    {"page_seal", PAGE_SEAL, PAGE_TEXT},
    {"file_seal", FILE_SEAL, PAGES},
    {"page_open", PAGE_OPEN, PAGE_TEXT},
    {"file_open", FILE_OPEN, PAGES},
};

#define ROWS (sizeof rows / sizeof *rows)

/* The states and the suspended blocks after 2 blocks and after 65,538 in sealed mode; and the state that is walked back from, in plain mode. */
static uint8_t near_state[TULVEKAS_STATE_BYTES], far_state[TULVEKAS_STATE_BYTES], near_block[512], far_block[512], back_state[TULVEKAS_STATE_BYTES];

static void fail(const char *what, const char *who)
{
    fprintf(stderr, "bench: %s: %s\n", who, what);
    exit(1);
}

static const struct row *row(const char *task, const char *size)
{
    for (size_t i = 0; i < ROWS; i++)
        if (strcmp(rows[i].name, task) == 0 && rows[i].size == strtoul(size, NULL, 10))
            return rows + i;
    fail("no such row", task);
    return NULL;
}

static double read_clock(clockid_t clock)
{
    struct timespec t;
    clock_gettime(clock, &t);
    return (double)t.tv_sec * 1e9 + (double)t.tv_nsec;
}

/* What all measurements took, by the clock on the wall and by the processor's time: where they differ, other programs were running. */
static double all_wall, all_processor;

static int can(const struct peer *p, const struct row *r)
{
    switch (r->task) {
    case KEYSTREAM: return p->keystream != NULL;
    case SEAL: return p->seal != NULL;
    case TRACE: return p->trace != NULL;
    case RESUME: return p->resume != NULL;
    case BACK: return p->back != NULL;
    case FILE_SEAL: return p->file_seal != NULL;
    case FILE_OPEN: return p->file_open != NULL;
    case PAGE_SEAL: return p->page_seal != NULL;
    case PAGE_OPEN: return p->page_open != NULL;
    }
    return 0;
}

static int has_tag(const struct row *r)
{
    return r->task == SEAL || r->task == PAGE_SEAL;
}

static int call(const struct peer *p, const struct row *r)
{
    switch (r->task) {
    case KEYSTREAM: return p->keystream(out, r->size);
    case SEAL: return p->seal(out, tag, r->size);
    case TRACE: return p->trace(found, r->size == 2 ? near_state : far_state);
    case RESUME: return p->resume(found, r->size == 2 ? near_block : far_block);
    case BACK: return p->back(out, back_state, r->size);
    case FILE_SEAL: return p->file_seal(out);
    case FILE_OPEN: return p->file_open(out);
    case PAGE_SEAL: return p->page_seal(out, tag);
    case PAGE_OPEN: return p->page_open(out);
    }
    return 1;
}

/* Nanoseconds a call. Each page has an IV of its own, as in use: what the processor has learnt of one call's branches does not help the next. */
static double timed(const struct peer *p, const struct row *r, long times)
{
    uint8_t before[sizeof iv];
    int failed = 0;
    double t, processor = read_clock(CLOCK_PROCESS_CPUTIME_ID);
    memcpy(before, iv, sizeof iv);
    t = read_clock(CLOCK_MONOTONIC);
    for (long i = 0; i < times; i++) {
        memcpy(iv, &i, sizeof i);
        failed |= call(p, r);
    }
    t = read_clock(CLOCK_MONOTONIC) - t;
    memcpy(iv, before, sizeof iv);
    all_wall += t;
    all_processor += read_clock(CLOCK_PROCESS_CPUTIME_ID) - processor;
    if (failed)
        fail("a call failed", p->name);
    return t / (double)times;
}

/* ---- inputs and checks */

/* A session of so much text, suspended. */
static void suspend(uint8_t *block, size_t bytes)
{
    uint8_t session[TULVEKAS_SESSION_BYTES];
    if (tulvekas_begin(key, sizeof key, iv, sizeof iv, session, sizeof session) != 0 ||
        tulvekas_text(session, sizeof session, text, bytes, out, sizeof out) != 0 ||
        tulvekas_suspend(session, sizeof session, block, TULVEKAS_SUSPENDED_BYTES) != 0)
        fail("no suspended session", "tulvekas");
}

static void fill_inputs(void)
{
    uint32_t x = 1;
    for (size_t i = 0; i < sizeof key; i++)
        key[i] = (uint8_t)(i * 7 + 1);
    for (size_t i = 0; i < sizeof iv; i++)
        iv[i] = (uint8_t)(i * 13 + 5);
    for (size_t i = 0; i < sizeof text; i++) {
        x = x * 1664525 + 1013904223;
        text[i] = (uint8_t)(x >> 24);
    }
    /* Written and not only declared, so that no page is mapped within a measurement. */
    memset(zeros, 1, sizeof zeros);
    memset(zeros, 0, sizeof zeros);
    memset(out, 1, sizeof out);
    memset(expected, 1, sizeof expected);
}

/* The state that a start leads to by the paper's algorithm: the registers, and the count of blocks behind them. */
static void paper_state(int sealed, uint64_t count, uint8_t *state)
{
    portable_registers(key, iv, sealed, count, state);
    memcpy(state + 112, &count, sizeof count);
}

static void suspend_sessions(void)
{
    uint8_t near[TULVEKAS_STATE_BYTES], far[TULVEKAS_STATE_BYTES];
    suspend(near_block, 0);
    suspend(far_block, MOST_TEXT);
    paper_state(1, 2, near_state);
    paper_state(1, 65538, far_state);
    if (tulvekas_state_of(near_block, sizeof near_block, near, sizeof near) != 0 ||
        tulvekas_state_of(far_block, sizeof far_block, far, sizeof far) != 0 || memcmp(near, near_state, sizeof near) != 0 ||
        memcmp(far, far_state, sizeof far) != 0)
        fail("the suspended states are not those of the paper's algorithm", "tulvekas");
}

/* 65,536 blocks behind a start, and as many back: the start again, with the blocks from the last to the first. */
static void run_forward(void)
{
    enum { BLOCKS = MOST_TEXT / 16 };
    uint8_t first[TULVEKAS_STATE_BYTES], state[TULVEKAS_STATE_BYTES];
    paper_state(0, BLOCKS, back_state);
    if (tulvekas_start(key, sizeof key, iv, sizeof iv, 0, first, sizeof first) != 0)
        fail("no start", "tulvekas");
    memcpy(state, first, sizeof state);
    if (tulvekas_run(state, sizeof state, BLOCKS, 0, expected, sizeof expected) != 0 || memcmp(state, back_state, sizeof state) != 0)
        fail("the state behind a run is not that of the paper's algorithm", "tulvekas");
    if (tulvekas_run(state, sizeof state, BLOCKS, 1, out, sizeof out) != 0 || memcmp(state, first, sizeof state) != 0)
        fail("as many blocks back do not lead to the start", "tulvekas");
    for (size_t i = 0; i < BLOCKS; i++)
        if (memcmp(out + 16 * i, expected + 16 * (BLOCKS - 1 - i), 16) != 0)
            fail("the blocks back are not those forward", "tulvekas");
}

/* The pages of 250 stays, four to a stay. They are sealed by pieces, so that no call that is counted is made here. */
static void fill_file(void)
{
    for (uint32_t i = 0; i < PAGES; i++) {
        uint8_t session[TULVEKAS_SESSION_BYTES], given_iv[TULVEKAS_IV_BYTES], *page = file + PAGE * i;
        uint32_t number = i % 4, day = DAY + i / 4 % 30;
        uint16_t length = PAGE_TEXT;
        memcpy(page, iv, TULVEKAS_STAY_BYTES);
        page[10] = (uint8_t)(i / 4);
        memcpy(page + 12, &number, sizeof number);
        memcpy(page + 16, &day, sizeof day);
        memcpy(page + 20, &length, sizeof length);
        if (tulvekas_begin(key, sizeof key, page, sizeof iv, session, sizeof session) != 0 ||
            tulvekas_data(session, sizeof session, page, HEADER) != 0 ||
            tulvekas_text(session, sizeof session, text, PAGE_TEXT, page + HEADER, PAGE_TEXT) != 0 ||
            tulvekas_finish(session, sizeof session, page + HEADER + PAGE_TEXT, TULVEKAS_TAG_BYTES, given_iv, sizeof given_iv) != 0)
            fail("no page of a file", "tulvekas");
    }
}

/* All SNOW-V peers give the bytes that the first one gives, and what is opened is the text. */
static void compare(const struct row *r)
{
    for (size_t i = 0; i < peer_count; i++) {
        const struct peer *p = peers + i;
        if (!can(p, r) || !p->is_snow_v)
            continue;
        memset(out, 0x55, sizeof out);
        memset(found, 0x55, sizeof found);
        if (call(p, r) != 0)
            fail("a call failed", p->name);
        if (r->task == TRACE || r->task == RESUME) {
            if (memcmp(found, iv, sizeof iv) != 0)
                fail("not the IV", p->name);
        } else if (i == 0) {
            memcpy(expected, out, sizeof out);
            memcpy(expected_tag, tag, sizeof tag);
        } else if (memcmp(out, expected, sizeof out) != 0 || (has_tag(r) && memcmp(tag, expected_tag, sizeof tag) != 0)) {
            fail("the results differ", p->name);
        }
        if ((r->task == FILE_OPEN || r->task == PAGE_OPEN) && memcmp(out, text, PAGE_TEXT) != 0)
            fail("not the text", p->name);
    }
}

/* ---- the stack that the library needs */

/* A page with data sealed, opened, and sealed again by pieces; and the calls that no row makes. */
static int sealed_and_opened(void)
{
    uint8_t session[TULVEKAS_SESSION_BYTES], block[TULVEKAS_SUSPENDED_BYTES], state[TULVEKAS_STATE_BYTES], again[16], given_iv[16], kept;
    uint8_t date[TULVEKAS_DATE_BYTES], number[TULVEKAS_DAY_BYTES], store[2 * TULVEKAS_KEYS_BLOCK_BYTES] = {0}, fetched[TULVEKAS_KEY_BYTES];
    uint8_t count[TULVEKAS_COUNT_BYTES], steps[TULVEKAS_STEPS_BYTES], found;
    static uint8_t scheduler[TULVEKAS_SCHEDULE_BYTES];
    return tulvekas_seal(key, sizeof key, iv, sizeof iv, zeros, 100, text, MOST_TEXT, out, sizeof out, tag, sizeof tag) == 0 &&
           tulvekas_open(key, sizeof key, iv, sizeof iv, zeros, 100, out, MOST_TEXT, tag, sizeof tag, expected, sizeof expected) == 0 &&
           memcmp(expected, text, MOST_TEXT) == 0 && tulvekas_begin(key, sizeof key, iv, sizeof iv, session, sizeof session) == 0 &&
           tulvekas_data(session, sizeof session, zeros, 100) == 0 &&
           tulvekas_text(session, sizeof session, text, MOST_TEXT, expected, sizeof expected) == 0 &&
           tulvekas_suspend(session, sizeof session, block, sizeof block) == 0 &&
           tulvekas_finish(session, sizeof session, again, sizeof again, given_iv, sizeof given_iv) == 0 && memcmp(expected, out, MOST_TEXT) == 0 &&
           memcmp(again, tag, sizeof tag) == 0 && memcmp(given_iv, iv, sizeof given_iv) == 0 && tulvekas_state_of(block, sizeof block, state, sizeof state) == 0 &&
           tulvekas_start(key, sizeof key, iv, sizeof iv, 1, state, sizeof state) == 0 &&
           tulvekas_run(state, sizeof state, MOST_TEXT / 16, 0, expected, sizeof expected) == 0 && tulvekas_kept(0, 0, &kept, 1) == 0 &&
           tulvekas_date(0, date, sizeof date) == 0 && tulvekas_day(2000, 1, 1, number, sizeof number) == 0 &&
           tulvekas_kept_until(0, date, sizeof date) == 0 &&
           tulvekas_keys_store(key, sizeof key, iv, sizeof iv, text, TULVEKAS_KEY_BYTES, store, sizeof store) == 0 &&
           tulvekas_keys_fetch(key, sizeof key, iv, sizeof iv, store, sizeof store, fetched, sizeof fetched) == 0 &&
           memcmp(fetched, text, sizeof fetched) == 0 && tulvekas_keys_erase(iv, sizeof iv, store, sizeof store) == 0 &&
           tulvekas_search(state, TULVEKAS_DUMP_BYTES, key, sizeof key, MOST_TEXT / 16 - 9, TULVEKAS_MOST_BLOCKS, count, sizeof count, given_iv,
                           sizeof given_iv, &kept, 1, steps, sizeof steps) == 0 &&
           tulvekas_schedule_empty(scheduler, sizeof scheduler) == 0 &&
           tulvekas_schedule_join(scheduler, sizeof scheduler, key, sizeof key, iv, sizeof iv, TULVEKAS_MOST_PIECE) == 0 &&
           tulvekas_schedule_next(scheduler, sizeof scheduler, &found, 1, given_iv, sizeof given_iv, number, sizeof number) == 0 &&
           tulvekas_schedule_turn(scheduler, sizeof scheduler, text, TULVEKAS_MOST_PIECE, expected, sizeof expected, given_iv, sizeof given_iv, number,
                                  sizeof number, &found, 1, again, sizeof again) == 0;
}

static void *all_calls(void *unused)
{
    (void)unused;
    for (size_t i = 0; i < ROWS; i++)
        if (can(peers, rows + i) && call(peers, rows + i) != 0)
            fail("a call failed", peers->name);
    if (!sealed_and_opened())
        fail("a call failed, or sealed, opened and sealed by pieces do not agree", peers->name);
    return NULL;
}

static void *no_call(void *unused)
{
    return unused;
}

/* How far down its stack of 64 KiB a thread writes. */
static size_t depth(void *(*run)(void *))
{
    static uint8_t stack[STACK] __attribute__((aligned(4096)));
    pthread_attr_t attr;
    pthread_t thread;
    size_t unused = 0;
    memset(stack, 0xa5, sizeof stack);
    if (pthread_attr_init(&attr) != 0 || pthread_attr_setstack(&attr, stack, sizeof stack) != 0 ||
        pthread_create(&thread, &attr, run, NULL) != 0 || pthread_join(thread, NULL) != 0)
        fail("no thread with a stack of 64 KiB", "tulvekas");
    while (unused < sizeof stack && stack[unused] == 0xa5)
        unused++;
    return sizeof stack - unused;
}

/* ---- the masked child */

struct request {
    size_t row, peer;
    long times;
};

struct answer {
    double ns;
    uint8_t tag[16];
};

static int to_child, from_child;

/* Answers requests until there are none. */
static void serve(void)
{
    struct request q;
    while (read(STDIN_FILENO, &q, sizeof q) == (ssize_t)sizeof q) {
        struct answer a;
        a.ns = timed(peers + q.peer, rows + q.row, q.times);
        memcpy(a.tag, tag, sizeof tag);
        if (write(STDOUT_FILENO, &a, sizeof a) != (ssize_t)sizeof a)
            exit(1);
    }
}

static void start_child(const char *program)
{
    int down[2], up[2];
    pid_t child;
    if (pipe(down) != 0 || pipe(up) != 0)
        fail("no pipe", program);
    child = fork();
    if (child < 0)
        fail("no child process", program);
    if (child == 0) {
        if (dup2(down[0], STDIN_FILENO) < 0 || dup2(up[1], STDOUT_FILENO) < 0)
            _exit(1);
        close(down[0]);
        close(down[1]);
        close(up[0]);
        close(up[1]);
        setenv("OPENSSL_ia32cap", MASK, 1);
        execl(program, program, "serve", (char *)NULL);
        _exit(1);
    }
    close(down[0]);
    close(up[1]);
    to_child = down[1];
    from_child = up[0];
}

static double timed_masked(size_t peer, size_t row, long times, uint8_t *its_tag)
{
    struct request q = {row, peer, times};
    struct answer a;
    if (write(to_child, &q, sizeof q) != (ssize_t)sizeof q || read(from_child, &a, sizeof a) != (ssize_t)sizeof a)
        fail("the masked process does not answer", peers[peer].name);
    memcpy(its_tag, a.tag, sizeof a.tag);
    return a.ns;
}

/* ---- the table */

/* The peers, and those of OpenSSL once more, masked. */
struct column {
    size_t peer;
    int masked;
};

#define MOST_COLUMNS 16

static double column_timed(const struct column *c, size_t row, long times, uint8_t *its_tag)
{
    double ns;
    if (c->masked)
        return timed_masked(c->peer, row, times, its_tag);
    ns = timed(peers + c->peer, rows + row, times);
    memcpy(its_tag, tag, sizeof tag);
    return ns;
}

static int by_value(const void *a, const void *b)
{
    double x = *(const double *)a, y = *(const double *)b;
    return (x > y) - (x < y);
}

/* All rows, or one; of one, nothing masked. */
static int measure(const char *program, int rounds, const struct row *only)
{
    static struct column columns[MOST_COLUMNS];
    static long times[ROWS][MOST_COLUMNS];
    size_t count = 0;
    double *ns;
    uint8_t its_tag[16];
    const char *openssl = only == NULL ? openssl_version() : NULL;

    for (int masked = 0; masked < (openssl != NULL ? 2 : 1); masked++)
        for (size_t i = 0; i < peer_count; i++)
            if (!masked || !peers[i].is_snow_v)
                columns[count++] = (struct column){i, masked};
    if (openssl != NULL)
        start_child(program);
    ns = calloc(ROWS * MOST_COLUMNS * (size_t)rounds, sizeof *ns);
    if (ns == NULL)
        fail("no memory", program);

    for (size_t i = 0; i < ROWS; i++)
        if (only == NULL || only == rows + i)
            compare(rows + i);
    fprintf(stderr, "all results agree\n");
    if (openssl != NULL)
        printf("# OpenSSL: %s\n# masked: OPENSSL_ia32cap=%s\n", openssl, MASK);
    printf("# rounds: %d\n# stack: %zu bytes of a thread's %d\n", rounds, depth(all_calls) - depth(no_call), STACK);

    /* How often a call has to be repeated; the masked OpenSSL gives the tags of the other. */
    for (size_t i = 0; i < ROWS; i++)
        for (size_t j = 0; j < count; j++)
            if ((only == NULL || only == rows + i) && can(peers + columns[j].peer, rows + i)) {
                double once;
                column_timed(columns + j, i, 1, its_tag);
                once = column_timed(columns + j, i, 1, its_tag);
                times[i][j] = once < LEAST_NS ? 1 + (long)(LEAST_NS / once) : 1;
                if (columns[j].masked && rows[i].task == SEAL) {
                    timed(peers + columns[j].peer, rows + i, 1);
                    if (memcmp(tag, its_tag, sizeof tag) != 0)
                        fail("the masked process gives another tag", peers[columns[j].peer].name);
                }
            }

    for (int round = 0; round < rounds; round++)
        for (size_t i = 0; i < ROWS; i++)
            for (size_t k = 0; k < count; k++) {
                size_t j = round % 2 == 0 ? k : count - 1 - k;
                if (times[i][j] > 0)
                    ns[(i * MOST_COLUMNS + j) * (size_t)rounds + (size_t)round] = column_timed(columns + j, i, times[i][j], its_tag);
            }

    printf("# processor share: %.0f%%\n", 100 * all_processor / all_wall);
    printf("task,size,peer,best ns,median ns,calls a round\n");
    for (size_t i = 0; i < ROWS; i++)
        for (size_t j = 0; j < count; j++)
            if (times[i][j] > 0) {
                double *at = ns + (i * MOST_COLUMNS + j) * (size_t)rounds;
                qsort(at, (size_t)rounds, sizeof *at, by_value);
                printf("%s,%zu,%s%s,%.1f,%.1f,%ld\n", rows[i].name, rows[i].size, peers[columns[j].peer].name, columns[j].masked ? " masked" : "",
                       at[0], at[rounds / 2], times[i][j]);
            }
    free(ns);
    if (openssl != NULL) {
        close(to_child);
        wait(NULL);
    }
    return 0;
}

static int once(const char *peer, const struct row *r)
{
    for (size_t j = 0; j < peer_count; j++)
        if (strcmp(peers[j].name, peer) == 0 && can(peers + j, r))
            return call(peers + j, r);
    fail("no such call", peer);
    return 1;
}

int main(int argc, char **argv)
{
    const char *given = getenv("BENCH_ROUNDS");
    int rounds = given == NULL || atoi(given) < 1 ? ROUNDS : atoi(given);
    fill_inputs();
    if (argc == 2 && strcmp(argv[1], "serve") == 0) {
        serve();
        return 0;
    }
    suspend_sessions();
    run_forward();
    fill_file();
    if (argc == 5 && strcmp(argv[1], "once") == 0)
        return once(argv[2], row(argv[3], argv[4]));
    return measure(argv[0], rounds, argc == 4 && strcmp(argv[1], "row") == 0 ? row(argv[2], argv[3]) : NULL);
}
