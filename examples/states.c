/* Draws blocks of keystream and walks back over them; goes the way from a suspended block to the IV of its session, which takes the key and nothing
 * else, since a state has its count with it; and shows what is refused: a block before the start, another key, and a count that is too high. */
#include <stdint.h>
#include <stdio.h>
#include <stdlib.h>
#include <string.h>

#include "tulvekas.h"

/* In use a key is 32 random bytes that nobody else has. */
static const uint8_t key[TULVEKAS_KEY_BYTES] = {
    0x50, 0x51, 0x52, 0x53, 0x54, 0x55, 0x56, 0x57, 0x58, 0x59, 0x5a, 0x5b, 0x5c, 0x5d, 0x5e, 0x5f,
    0x0a, 0x1a, 0x2a, 0x3a, 0x4a, 0x5a, 0x6a, 0x7a, 0x8a, 0x9a, 0xaa, 0xba, 0xca, 0xda, 0xea, 0xfa,
};

static const uint8_t iv[TULVEKAS_IV_BYTES] = {
    0x01, 0x23, 0x45, 0x67, 0x89, 0xab, 0xcd, 0xef, 0xfe, 0xdc, 0xba, 0x98, 0x76, 0x54, 0x32, 0x10,
};

enum { BLOCKS = 3, COUNT_AT = 112 };

/* Every call answers 0 or the number of a refusal. */
static void accepted(const char *call, uint64_t answer)
{
    if (answer != TULVEKAS_ACCEPTED) {
        fprintf(stderr, "%s: refused %llu\n", call, (unsigned long long)answer);
        exit(1);
    }
}

static void print_refusal(const char *what, uint64_t answer)
{
    printf("%s: refused %llu\n", what, (unsigned long long)answer);
}

static void print_bytes(const char *name, const uint8_t *bytes, size_t length)
{
    printf("%s: ", name);
    for (size_t i = 0; i < length; i++)
        printf("%02x", bytes[i]);
    putchar('\n');
}

/* The count that a state has with it, low byte first. */
static void print_count(const uint8_t *state)
{
    uint64_t count = 0;
    for (int i = 7; i >= 0; i--)
        count = 256 * count + state[COUNT_AT + i];
    printf("count: %llu\n", (unsigned long long)count);
}

static void forward_and_back(void)
{
    uint8_t state[TULVEKAS_STATE_BYTES], first[TULVEKAS_STATE_BYTES];
    uint8_t forward[BLOCKS * TULVEKAS_BLOCK_BYTES], back[BLOCKS * TULVEKAS_BLOCK_BYTES];

    accepted("start", tulvekas_start(key, sizeof key, iv, sizeof iv, 0, state, sizeof state));
    memcpy(first, state, sizeof first);
    accepted("run", tulvekas_run(state, sizeof state, BLOCKS, 0, forward, sizeof forward));
    print_bytes("forward", forward, sizeof forward);
    print_count(state);

    accepted("run", tulvekas_run(state, sizeof state, BLOCKS, 1, back, sizeof back));
    print_bytes("back", back, sizeof back);
    print_count(state);
    if (memcmp(state, first, sizeof first) != 0) {
        fprintf(stderr, "the state is not that of the start\n");
        exit(1);
    }
    print_refusal("a block before the start", tulvekas_run(state, sizeof state, 1, 1, back, sizeof back));
}

/* A session of 20 bytes of text, suspended. */
static void suspend(uint8_t *block, size_t length)
{
    static const uint8_t text[20];
    uint8_t session[TULVEKAS_SESSION_BYTES], cipher[sizeof text];
    accepted("begin", tulvekas_begin(key, sizeof key, iv, sizeof iv, session, sizeof session));
    accepted("text", tulvekas_text(session, sizeof session, text, sizeof text, cipher, sizeof cipher));
    accepted("suspend", tulvekas_suspend(session, sizeof session, block, length));
}

static void from_block_to_iv(void)
{
    uint8_t block[TULVEKAS_SUSPENDED_BYTES], state[TULVEKAS_STATE_BYTES], other[TULVEKAS_KEY_BYTES];
    uint8_t found[TULVEKAS_IV_BYTES], sealed[1];

    suspend(block, sizeof block);
    accepted("state_of", tulvekas_state_of(block, sizeof block, state, sizeof state));
    print_count(state);
    accepted("trace", tulvekas_trace(state, sizeof state, key, sizeof key, found, sizeof found, sealed, sizeof sealed));
    print_bytes("IV", found, sizeof found);
    printf("mode: %s\n", sealed[0] ? "sealed" : "plain");

    memcpy(other, key, sizeof other);
    other[0] ^= 1;
    print_refusal("under another key", tulvekas_trace(state, sizeof state, other, sizeof other, found, sizeof found, sealed, sizeof sealed));

    /* 65,539: the byte of 65,536, and 3. */
    state[COUNT_AT] = 3;
    state[COUNT_AT + 2] = 1;
    print_count(state);
    print_refusal("trace", tulvekas_trace(state, sizeof state, key, sizeof key, found, sizeof found, sealed, sizeof sealed));
    print_refusal("no block back", tulvekas_run(state, sizeof state, 0, 1, NULL, 0));
}

int main(void)
{
    forward_and_back();
    from_block_to_iv();
    return 0;
}
