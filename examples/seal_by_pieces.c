/* Seals two pages and opens them again. The first has associated data: it is sealed whole and by pieces, and not opened under other data. The
 * second is sealed by pieces, and its session suspended in the middle and resumed; what is printed is what the program `seal` prints for it.
 * They are vectors 6 and 5 of the SNOW-V paper's SNOW-V-GCM vectors. */
#include <stdint.h>
#include <stdio.h>
#include <stdlib.h>
#include <string.h>

#include "tulvekas.h"

static const uint8_t key[TULVEKAS_KEY_BYTES] = {
    0x50, 0x51, 0x52, 0x53, 0x54, 0x55, 0x56, 0x57, 0x58, 0x59, 0x5a, 0x5b, 0x5c, 0x5d, 0x5e, 0x5f,
    0x0a, 0x1a, 0x2a, 0x3a, 0x4a, 0x5a, 0x6a, 0x7a, 0x8a, 0x9a, 0xaa, 0xba, 0xca, 0xda, 0xea, 0xfa,
};

/* A vector's IV. In use no two pages under one key have the same. */
static const uint8_t iv[TULVEKAS_IV_BYTES] = {
    0x01, 0x23, 0x45, 0x67, 0x89, 0xab, 0xcd, 0xef, 0xfe, 0xdc, 0xba, 0x98, 0x76, 0x54, 0x32, 0x10,
};

static void fail(const char *what)
{
    fprintf(stderr, "%s\n", what);
    exit(1);
}

/* Every call answers 0 or the number of a refusal. */
static void accepted(const char *call, uint64_t answer)
{
    if (answer != TULVEKAS_ACCEPTED) {
        fprintf(stderr, "%s: refused %llu\n", call, (unsigned long long)answer);
        exit(1);
    }
}

static void agree(const char *what, const uint8_t *a, const uint8_t *b, size_t n)
{
    if (memcmp(a, b, n) != 0) {
        fprintf(stderr, "%s differs\n", what);
        exit(1);
    }
}

static void print_line(const char *name, const uint8_t *bytes, size_t n)
{
    fputs(name, stdout);
    for (size_t i = 0; i < n; i++)
        printf("%02x", bytes[i]);
    putchar('\n');
}

/* A page with associated data. */
static void with_associated_data(void)
{
    static const uint8_t ad[] = {'A', 'A', 'D', ' ', 't', 'e', 's', 't', ' ', 'v', 'a', 'l', 'u', 'e', '!'};
    static const uint8_t other[] = {'A', 'A', 'D', ' ', 't', 'e', 's', 't', ' ', 'v', 'a', 'l', 'u', 'e', '?'};
    static const uint8_t text[] = {'0', '1', '2', '3', '4', '5', '6', '7', '8', '9', 'a', 'b', 'c', 'd', 'e', 'f', ' ',
                                   'S', 'n', 'o', 'w', 'V', '-', 'A', 'E', 'A', 'D', ' ', 'm', 'o', 'd', 'e', '!'};
    static const uint8_t paper_tag[TULVEKAS_TAG_BYTES] = {
        0x90, 0x7e, 0xa6, 0xa5, 0xb7, 0x3a, 0x51, 0xde, 0x74, 0x7c, 0x3e, 0x9a, 0xd9, 0xee, 0x02, 0x9b,
    };
    uint8_t whole[sizeof text], session[TULVEKAS_SESSION_BYTES], given_iv[TULVEKAS_IV_BYTES];
    uint8_t cipher[sizeof text], tag[TULVEKAS_TAG_BYTES], opened[sizeof text];

    accepted("seal", tulvekas_seal(key, sizeof key, iv, sizeof iv, ad, sizeof ad, text, sizeof text, cipher, sizeof cipher, tag, sizeof tag));
    agree("the tag", tag, paper_tag, sizeof tag);
    accepted("open",
             tulvekas_open(key, sizeof key, iv, sizeof iv, ad, sizeof ad, cipher, sizeof cipher, tag, sizeof tag, opened, sizeof opened));
    agree("the text", opened, text, sizeof text);

    /* Under other data nothing is opened, and not a byte is written. */
    memset(opened, 0xee, sizeof opened);
    if (tulvekas_open(key, sizeof key, iv, sizeof iv, other, sizeof other, cipher, sizeof cipher, tag, sizeof tag, opened, sizeof opened) !=
            TULVEKAS_BAD_TAG ||
        opened[0] != 0xee)
        fail("a page was opened under other data");

    /* By pieces: the data first, then the text, each in as many pieces as one likes. */
    memcpy(whole, cipher, sizeof whole);
    accepted("begin", tulvekas_begin(key, sizeof key, iv, sizeof iv, session, sizeof session));
    accepted("data", tulvekas_data(session, sizeof session, ad, 3));
    accepted("data", tulvekas_data(session, sizeof session, ad + 3, sizeof ad - 3));
    accepted("text", tulvekas_text(session, sizeof session, text, sizeof text, cipher, sizeof cipher));
    accepted("finish", tulvekas_finish(session, sizeof session, tag, sizeof tag, given_iv, sizeof given_iv));
    agree("the ciphertext by pieces", cipher, whole, sizeof whole);
    agree("the tag by pieces", tag, paper_tag, sizeof tag);
    agree("the IV that finish gives", given_iv, iv, sizeof iv);
}

/* A page without associated data, suspended between two pieces of its text. */
static void suspended_and_resumed(void)
{
    static const uint8_t text[] = {'0', '1', '2', '3', '4', '5', '6', '7', '8', '9'};
    enum { LENGTH = sizeof text, FIRST = 4 };
    uint8_t session[TULVEKAS_SESSION_BYTES], again[TULVEKAS_SESSION_BYTES];
    uint8_t block[TULVEKAS_SUSPENDED_BYTES], found[TULVEKAS_IV_BYTES], given_iv[TULVEKAS_IV_BYTES];
    uint8_t cipher[LENGTH], tag[TULVEKAS_TAG_BYTES], opened[LENGTH];

    accepted("begin", tulvekas_begin(key, sizeof key, iv, sizeof iv, session, sizeof session));
    accepted("text", tulvekas_text(session, sizeof session, text, FIRST, cipher, sizeof cipher));

    /* The block may be written to a file, and the session be forgotten. */
    accepted("suspend", tulvekas_suspend(session, sizeof session, block, sizeof block));
    accepted("resume", tulvekas_resume(key, sizeof key, block, sizeof block, again, sizeof again, found, sizeof found));
    agree("the session", again, session, sizeof session);
    agree("the IV", found, iv, sizeof iv);

    accepted("text", tulvekas_text(again, sizeof again, text + FIRST, LENGTH - FIRST, cipher + FIRST, LENGTH - FIRST));
    accepted("finish", tulvekas_finish(again, sizeof again, tag, sizeof tag, given_iv, sizeof given_iv));
    agree("the IV that finish gives", given_iv, iv, sizeof iv);

    accepted("open", tulvekas_open(key, sizeof key, iv, sizeof iv, NULL, 0, cipher, LENGTH, tag, sizeof tag, opened, sizeof opened));
    agree("the text", opened, text, LENGTH);

    /* With one bit of the tag changed nothing is opened either. */
    memset(opened, 0xee, sizeof opened);
    tag[0] ^= 1;
    if (tulvekas_open(key, sizeof key, iv, sizeof iv, NULL, 0, cipher, LENGTH, tag, sizeof tag, opened, sizeof opened) != TULVEKAS_BAD_TAG ||
        opened[0] != 0xee)
        fail("a page was opened under another tag");
    tag[0] ^= 1;

    print_line("cipher=", cipher, LENGTH);
    print_line("auth=", tag, sizeof tag);
}

int main(void)
{
    with_associated_data();
    suspended_and_resumed();
    return 0;
}
