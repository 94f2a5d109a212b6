/* What support does with a crash dump: of a session's suspended block bytes 16 to 127 are left, the registers, and the count of blocks is lost with
 * the text length that it follows from. The owner knows that a page has at most 474 bytes of text, so that the session has drawn 2 to 32 blocks. A
 * search of these counts finds the count, the IV and the mode; with its count the dump is a state, which is traced, and run back for the
 * keystream that reads the ciphertext. Then what is refused: a range without that count, another key, and a range whose ends are exchanged. */
#include <stdint.h>
#include <stdio.h>
#include <stdlib.h>
#include <string.h>

#include "tulvekas.h"

/* In use a key is 32 random bytes that nobody else has. */
static const uint8_t key[TULVEKAS_KEY_BYTES] = {
    0x50, 0x51, 0x52, 0x53, 0x54, 0x55, 0x56, 0x57, 0x58, 0x59, 0x5a, 0x5b, 0x5c, 0x5d, 0x5e, 0x5f,
    0x0a, 0x1a, 0x2a, 0x3a, 0x4a, 0x5a, 0x6a, 0x7a, 0x8a, 0x9a, 0xaa, 0xba, 0xca, 0xda, 0xea, 0xfa,
};

static const uint8_t iv[TULVEKAS_IV_BYTES] = {
    0x01, 0x23, 0x45, 0x67, 0x89, 0xab, 0xcd, 0xef, 0xfe, 0xdc, 0xba, 0x98, 0x76, 0x54, 0x32, 0x10,
};

static const char text[] = "Mari Saar; pitch 12; two nights; tax 4.00";

/* A session has drawn 2 blocks when it begins, and one for each 16 bytes of text that it has begun. */
enum { TEXT = sizeof text - 1, DUMP_AT = 16, LOWEST = 2, HIGHEST = 2 + (TULVEKAS_MOST_PAGE_TEXT + 15) / 16 };

/* What the crash has left. */
static uint8_t dump[TULVEKAS_DUMP_BYTES], cipher[TEXT];

/* Every call answers 0 or the number of a refusal. */
static void accepted(const char *call, uint64_t answer)
{
    if (answer != TULVEKAS_ACCEPTED) {
        fprintf(stderr, "%s: refused %llu\n", call, (unsigned long long)answer);
        exit(1);
    }
}

static void print_refusal(const char *what, uint64_t answer)
{
    printf("%s: refused %llu\n", what, (unsigned long long)answer);
}

/* A number of 8 bytes, low byte first. */
static uint64_t number(const uint8_t *bytes)
{
    uint64_t n = 0;
    for (int i = 7; i >= 0; i--)
        n = 256 * n + bytes[i];
    return n;
}

static void print_number(const char *name, const uint8_t *bytes)
{
    printf("%s: %llu\n", name, (unsigned long long)number(bytes));
}

static void print_origin(const uint8_t *found, uint8_t sealed)
{
    printf("IV: ");
    for (int i = 0; i < TULVEKAS_IV_BYTES; i++)
        printf("%02x", found[i]);
    printf("\nmode: %s\n", sealed ? "sealed" : "plain");
}

static void crash(void)
{
    uint8_t session[TULVEKAS_SESSION_BYTES], block[TULVEKAS_SUSPENDED_BYTES];
    accepted("begin", tulvekas_begin(key, sizeof key, iv, sizeof iv, session, sizeof session));
    accepted("text", tulvekas_text(session, sizeof session, (const uint8_t *)text, TEXT, cipher, sizeof cipher));
    accepted("suspend", tulvekas_suspend(session, sizeof session, block, sizeof block));
    memcpy(dump, block + DUMP_AT, sizeof dump);
}

/* Text under the keystream of a run back, whose blocks come last one first; the first block of text is the third of them all. */
static void read_text(const uint8_t *stream, uint64_t drawn)
{
    printf("text: ");
    for (size_t i = 0; i < TEXT; i++) {
        const uint8_t *block = stream + TULVEKAS_BLOCK_BYTES * (drawn - 3 - i / TULVEKAS_BLOCK_BYTES);
        putchar(cipher[i] ^ block[i % TULVEKAS_BLOCK_BYTES]);
    }
    putchar('\n');
}

static void recover(void)
{
    uint8_t count[TULVEKAS_COUNT_BYTES], found[TULVEKAS_IV_BYTES], sealed[1], steps[TULVEKAS_STEPS_BYTES];
    uint8_t state[TULVEKAS_STATE_BYTES], stream[HIGHEST * TULVEKAS_BLOCK_BYTES];

    accepted("search", tulvekas_search(dump, sizeof dump, key, sizeof key, LOWEST, HIGHEST, count, sizeof count, found, sizeof found, sealed, 1,
                                       steps, sizeof steps));
    print_number("count", count);
    print_origin(found, sealed[0]);
    print_number("steps", steps);

    /* The registers with their count behind them are a state. */
    const uint64_t drawn = number(count);
    if (drawn < LOWEST + (TEXT + TULVEKAS_BLOCK_BYTES - 1) / TULVEKAS_BLOCK_BYTES) {
        fprintf(stderr, "a lesser count leads there too: too few blocks for the ciphertext that is left\n");
        exit(1);
    }
    memcpy(state, dump, sizeof dump);
    memcpy(state + sizeof dump, count, sizeof count);
    accepted("trace", tulvekas_trace(state, sizeof state, key, sizeof key, found, sizeof found, sealed, sizeof sealed));
    printf("traced:\n");
    print_origin(found, sealed[0]);
    accepted("run", tulvekas_run(state, sizeof state, drawn, 1, stream, sizeof stream));
    read_text(stream, drawn);
    print_number("count", state + sizeof dump);
}

/* A search that finds nothing says how far it walked. */
static void in_vain(const char *what, const uint8_t *under, uint64_t lowest, uint64_t highest)
{
    uint8_t count[TULVEKAS_COUNT_BYTES], found[TULVEKAS_IV_BYTES], sealed[1], steps[TULVEKAS_STEPS_BYTES];
    print_refusal(what, tulvekas_search(dump, sizeof dump, under, TULVEKAS_KEY_BYTES, lowest, highest, count, sizeof count, found, sizeof found,
                                        sealed, sizeof sealed, steps, sizeof steps));
    print_number("steps", steps);
}

static void refusals(void)
{
    uint8_t other[TULVEKAS_KEY_BYTES];
    memcpy(other, key, sizeof other);
    other[0] ^= 1;
    in_vain("counts from 6 on", key, 6, HIGHEST);
    in_vain("under another key", other, LOWEST, HIGHEST);
    print_refusal("from the highest to the lowest", tulvekas_search(dump, sizeof dump, key, sizeof key, HIGHEST, LOWEST, NULL, 0, NULL, 0, NULL, 0,
                                                                    NULL, 0));
}

int main(void)
{
    crash();
    recover();
    refusals();
    return 0;
}
