/* Keeps the keys of a season's stays in a file: stores two, fetches one from the file and seals a page under it, and erases it; then shows what is
 * refused: a number that is not there, another season's key, an erased key, a number that was used, and any key once a block is damaged. */
#include <stdint.h>
#include <stdio.h>
#include <stdlib.h>
#include <string.h>

#include "tulvekas.h"

/* The season's key. In use a key is 32 random bytes that nobody else has. */
static const uint8_t key[TULVEKAS_KEY_BYTES] = {
    0x50, 0x51, 0x52, 0x53, 0x54, 0x55, 0x56, 0x57, 0x58, 0x59, 0x5a, 0x5b, 0x5c, 0x5d, 0x5e, 0x5f,
    0x0a, 0x1a, 0x2a, 0x3a, 0x4a, 0x5a, 0x6a, 0x7a, 0x8a, 0x9a, 0xaa, 0xba, 0xca, 0xda, 0xea, 0xfa,
};

/* Stay numbers. */
static const uint8_t iv[TULVEKAS_IV_BYTES] = {'2', '0', '2', '6', ' ', 's', 't', 'a', 'y', ' ', 'n', 'o', '.', ' ', '4', '2'};
static const uint8_t other[TULVEKAS_IV_BYTES] = {'2', '0', '2', '6', ' ', 's', 't', 'a', 'y', ' ', 'n', 'o', '.', ' ', '4', '3'};
static const uint8_t absent[TULVEKAS_IV_BYTES] = {'2', '0', '2', '6', ' ', 's', 't', 'a', 'y', ' ', 'n', 'o', '.', ' ', '4', '4'};

/* A season has as many stays at most as its store has blocks. */
enum { BLOCKS = 3 };
static uint8_t store[BLOCKS * TULVEKAS_KEYS_BLOCK_BYTES];

/* Every call answers 0 or the number of a refusal. */
static void accepted(const char *call, uint64_t answer)
{
    if (answer != TULVEKAS_ACCEPTED) {
        fprintf(stderr, "%s: refused %llu\n", call, (unsigned long long)answer);
        exit(1);
    }
}

static void print_refusal(const char *what, uint64_t answer)
{
    printf("%s: refused %llu\n", what, (unsigned long long)answer);
}

static void fail(const char *what)
{
    fprintf(stderr, "%s\n", what);
    exit(1);
}

/* A key for a stay, which would be random as well. */
static void make_key(uint8_t *stay_key, uint8_t first)
{
    for (int i = 0; i < TULVEKAS_KEY_BYTES; i++)
        stay_key[i] = (uint8_t)(first + i);
}

static void write_file(FILE *file)
{
    rewind(file);
    if (fwrite(store, 1, sizeof store, file) != sizeof store || fflush(file) != 0)
        fail("the store cannot be written");
}

static void read_file(FILE *file)
{
    memset(store, 0, sizeof store);
    rewind(file);
    if (fread(store, 1, sizeof store, file) != sizeof store)
        fail("the store cannot be read");
}

static void print_bytes(const char *name, const uint8_t *bytes, size_t length)
{
    printf("%s: ", name);
    for (size_t i = 0; i < length; i++)
        printf("%02x", bytes[i]);
    putchar('\n');
}

/* Mark and number of a block can be read without the key. */
static void print_blocks(void)
{
    static const char *const marks[] = {"empty", "held", "erased"};
    for (int place = 0; place < BLOCKS; place++) {
        const uint8_t *block = store + TULVEKAS_KEYS_BLOCK_BYTES * place;
        printf("block %d: %s", place, marks[block[0]]);
        if (block[0] != 0)
            printf(", %.*s", TULVEKAS_IV_BYTES, (const char *)block + 16);
        putchar('\n');
    }
    print_bytes("tag of block 0", store + 64, TULVEKAS_TAG_BYTES);
}

/* Fetches a stay's key and says whether it is there. */
static void print_fetch(const uint8_t *season, const uint8_t *number)
{
    uint8_t fetched[TULVEKAS_KEY_BYTES];
    uint64_t answer = tulvekas_keys_fetch(season, TULVEKAS_KEY_BYTES, number, TULVEKAS_IV_BYTES, store, sizeof store, fetched, sizeof fetched);
    printf("%.*s: ", TULVEKAS_IV_BYTES, (const char *)number);
    if (answer != TULVEKAS_ACCEPTED)
        printf("refused %llu\n", (unsigned long long)answer);
    else
        puts("its key is there");
}

/* The store is made, all zero, and two keys are stored. */
static void make_store(FILE *file)
{
    uint8_t stay_key[TULVEKAS_KEY_BYTES];

    make_key(stay_key, 42);
    accepted("keys_store", tulvekas_keys_store(key, sizeof key, iv, sizeof iv, stay_key, sizeof stay_key, store, sizeof store));
    make_key(stay_key, 143);
    accepted("keys_store", tulvekas_keys_store(key, sizeof key, other, sizeof other, stay_key, sizeof stay_key, store, sizeof store));
    write_file(file);
}

/* Pages of a stay are sealed under its own key. Under that key they may be numbered from 1. */
static void seal_page(void)
{
    static const uint8_t page[TULVEKAS_IV_BYTES] = {1}, text[] = {'M', 'a', 'r', 'i', ' ', 'S', 'a', 'a', 'r'};
    uint8_t fetched[TULVEKAS_KEY_BYTES], stay_key[TULVEKAS_KEY_BYTES], cipher[sizeof text], tag[TULVEKAS_TAG_BYTES];

    accepted("keys_fetch", tulvekas_keys_fetch(key, sizeof key, iv, sizeof iv, store, sizeof store, fetched, sizeof fetched));
    make_key(stay_key, 42);
    if (memcmp(fetched, stay_key, sizeof fetched) != 0)
        fail("the key differs");
    accepted("seal", tulvekas_seal(fetched, sizeof fetched, page, sizeof page, NULL, 0, text, sizeof text, cipher, sizeof cipher, tag, sizeof tag));
    print_bytes("page", cipher, sizeof cipher);
    print_bytes("its tag", tag, sizeof tag);
}

int main(void)
{
    uint8_t another[TULVEKAS_KEY_BYTES], stay_key[TULVEKAS_KEY_BYTES];
    FILE *file = tmpfile();

    if (file == NULL)
        fail("no file");
    make_store(file);
    read_file(file);
    print_blocks();
    print_fetch(key, iv);
    print_fetch(key, other);
    seal_page();

    puts("a number that is not there:");
    print_fetch(key, absent);

    puts("under another season's key:");
    memcpy(another, key, sizeof another);
    another[0] ^= 1;
    print_fetch(another, iv);

    puts("erased:");
    accepted("keys_erase", tulvekas_keys_erase(iv, sizeof iv, store, sizeof store));
    write_file(file);
    read_file(file);
    print_blocks();
    print_fetch(key, iv);
    print_fetch(key, other);

    puts("erased or stored again:");
    print_refusal("erase", tulvekas_keys_erase(iv, sizeof iv, store, sizeof store));
    make_key(stay_key, 44);
    print_refusal("store", tulvekas_keys_store(key, sizeof key, iv, sizeof iv, stay_key, sizeof stay_key, store, sizeof store));

    puts("a bit of block 2 changed:");
    store[2 * TULVEKAS_KEYS_BLOCK_BYTES + 100] ^= 1;
    print_fetch(key, other);
    fclose(file);
    return 0;
}
