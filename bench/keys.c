/* Stays' keys stored, fetched and erased in stores of many blocks, and going over such a store, written in C by hand, which every call does.
 *
 *   keys                  compares what the calls and the C find
 *   keys CALL BLOCKS      makes one call, for counting instructions
 *
 * All blocks of a store are held but for the last, which is empty; a key is stored there, and fetched from the block before or erased in it. */
#include <stdio.h>
#include <stdlib.h>
#include <string.h>

#include "tulvekas.h"

#define APART __attribute__((noinline))

enum { BLOCK = TULVEKAS_KEYS_BLOCK_BYTES, MOST_BLOCKS = 1000 };

static uint8_t key[TULVEKAS_KEY_BYTES], stay_key[TULVEKAS_KEY_BYTES], store[MOST_BLOCKS * BLOCK];

static void fail(const char *what, size_t blocks)
{
    fprintf(stderr, "keys: %zu blocks: %s\n", blocks, what);
    exit(1);
}

/* ---- going over a store */

static uint32_t word(const uint8_t *at)
{
    return (uint32_t)at[0] | (uint32_t)at[1] << 8 | (uint32_t)at[2] << 16 | (uint32_t)at[3] << 24;
}

static uint32_t sum(const uint8_t *block)
{
    uint32_t sum = 0;
    for (int i = 0; i < 127; i++)
        sum += word(block + 4 * i);
    return sum;
}

static int all_zero(const uint8_t *block, size_t from, size_t length)
{
    uint8_t any = 0;
    for (size_t i = 0; i < length; i++)
        any |= block[from + i];
    return any == 0;
}

static int well_laid(const uint8_t *block)
{
    const uint8_t mark = block[0];
    return (mark <= 2) & ((mark != 0) | all_zero(block, 0, BLOCK)) & ((mark != 2) | all_zero(block, 32, 48)) & all_zero(block, 1, 15) &
           all_zero(block, 80, 428) & (sum(block) == word(block + 508));
}

static int same_number(const uint8_t *one, const uint8_t *other)
{
    return memcmp(one + 16, other + 16, TULVEKAS_IV_BYTES) == 0;
}

/* The rules of each block, and its number beside those before it: 0 or 8. */
APART uint64_t same_look(const uint8_t *of, size_t length)
{
    int sound = length % BLOCK == 0;
    for (size_t i = 0; i < length / BLOCK; i++) {
        const uint8_t *block = of + BLOCK * i;
        sound &= well_laid(block);
        for (size_t j = 0; j < i; j++)
            sound &= !((block[0] != 0) & (of[BLOCK * j] != 0) & same_number(block, of + BLOCK * j));
    }
    return sound ? 0 : 8;
}

/* ---- a store */

static void number(uint8_t *iv, size_t n)
{
    memset(iv, 0x5a, TULVEKAS_IV_BYTES);
    iv[14] = (uint8_t)n;
    iv[15] = (uint8_t)(n >> 8);
}

/* Sealed as pages, so that no call that is counted is made here. */
static void fill(size_t blocks)
{
    memset(store, 0, sizeof store);
    for (size_t n = 0; n + 1 < blocks; n++) {
        uint8_t *block = store + BLOCK * n;
        uint32_t check;
        block[0] = 1;
        number(block + 16, n);
        if (tulvekas_seal(key, sizeof key, block + 16, TULVEKAS_IV_BYTES, NULL, 0, stay_key, sizeof stay_key, block + 32, 32, block + 64, 16) != 0)
            fail("no key of a store", blocks);
        check = sum(block);
        for (int i = 0; i < 4; i++)
            block[508 + i] = (uint8_t)(check >> 8 * i);
    }
}

static uint64_t one(const char *call, size_t blocks)
{
    uint8_t last[TULVEKAS_IV_BYTES], next[TULVEKAS_IV_BYTES], fetched[TULVEKAS_KEY_BYTES];
    number(last, blocks - 2);
    number(next, blocks - 1);
    if (strcmp(call, "tulvekas_keys_store") == 0)
        return tulvekas_keys_store(key, sizeof key, next, sizeof next, stay_key, sizeof stay_key, store, BLOCK * blocks);
    if (strcmp(call, "tulvekas_keys_fetch") == 0)
        return tulvekas_keys_fetch(key, sizeof key, last, sizeof last, store, BLOCK * blocks, fetched, sizeof fetched);
    if (strcmp(call, "tulvekas_keys_erase") == 0)
        return tulvekas_keys_erase(last, sizeof last, store, BLOCK * blocks);
    return same_look(store, BLOCK * blocks);
}

/* Accepted calls leave a store that the C finds sound, and both refuse one with a number twice. */
static void compare(size_t blocks)
{
    static const char *const calls[] = {"same_look", "tulvekas_keys_fetch", "tulvekas_keys_store", "same_look", "tulvekas_keys_erase", "same_look"};
    fill(blocks);
    for (size_t i = 0; i < sizeof calls / sizeof *calls; i++)
        if (one(calls[i], blocks) != 0)
            fail(calls[i], blocks);
    memcpy(store + BLOCK * (blocks - 1), store, BLOCK);
    if (one("same_look", blocks) != 8 || one("tulvekas_keys_fetch", blocks) != 8)
        fail("a number twice is accepted", blocks);
}

int main(int count, char **words)
{
    for (int i = 0; i < TULVEKAS_KEY_BYTES; i++) {
        key[i] = (uint8_t)(7 * i + 3);
        stay_key[i] = (uint8_t)(13 * i + 1);
    }
    if (count == 3) {
        const size_t blocks = strtoul(words[2], NULL, 10);
        if (blocks < 2 || blocks > MOST_BLOCKS)
            fail("no such store", blocks);
        fill(blocks);
        if (one(words[1], blocks) != 0)
            fail(words[1], blocks);
        return 0;
    }
    compare(10);
    compare(100);
    compare(MOST_BLOCKS);
    return 0;
}
