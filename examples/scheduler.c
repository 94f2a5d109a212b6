/* A changeover Saturday: stays join a scheduler, each with a key of its own, and are sealed in turns of at most 4,096 bytes, one of them joining while
 * others are served. Whoever has finished leaves with its tag, and ciphertext and tag are those of the whole page. Then what is refused: a stay
 * number that is there, a text of no bytes, a piece that is not the one due, a short output, a thirty-third stay, and bytes that are no scheduler. */
#include <stdint.h>
#include <stdio.h>
#include <stdlib.h>
#include <string.h>

#include "tulvekas.h"

enum { MOST_LENGTH = 10000, STAYS = 4 };

/* What reception knows of a stay: its text is in memory here, and might as well be read from a file, piece by piece. */
struct stay {
    uint8_t iv[TULVEKAS_IV_BYTES], key[TULVEKAS_KEY_BYTES], text[MOST_LENGTH], cipher[MOST_LENGTH];
    uint64_t length, sealed;
};

static struct stay stays[STAYS];

/* Whoever reads it can decrypt the pages of all who are there. */
static uint8_t scheduler[TULVEKAS_SCHEDULE_BYTES];

/* Every call answers 0 or the number of a refusal. */
static void accepted(const char *call, uint64_t answer)
{
    if (answer != TULVEKAS_ACCEPTED) {
        fprintf(stderr, "%s: refused %llu\n", call, (unsigned long long)answer);
        exit(1);
    }
}

static void print_refusal(const char *what, uint64_t answer)
{
    printf("%s: refused %llu\n", what, (unsigned long long)answer);
}

static void fail(const char *what)
{
    fprintf(stderr, "%s\n", what);
    exit(1);
}

/* A number of 8 bytes, low byte first. */
static uint64_t number(const uint8_t *bytes)
{
    uint64_t n = 0;
    for (int i = 7; i >= 0; i--)
        n = 256 * n + bytes[i];
    return n;
}

/* In use a key is 32 random bytes that nobody else has. */
static void make_stay(struct stay *stay, int no, uint64_t length)
{
    char name[TULVEKAS_IV_BYTES + 1];
    snprintf(name, sizeof name, "2026 stay no. %02d", no);
    memcpy(stay->iv, name, sizeof stay->iv);
    for (int i = 0; i < TULVEKAS_KEY_BYTES; i++)
        stay->key[i] = (uint8_t)(no + i);
    for (uint64_t i = 0; i < length; i++)
        stay->text[i] = (uint8_t)('a' + ((uint64_t)no + i) % 26);
    stay->length = length;
    stay->sealed = 0;
}

static struct stay *stay_of(const uint8_t *iv)
{
    for (int i = 0; i < STAYS; i++)
        if (memcmp(stays[i].iv, iv, TULVEKAS_IV_BYTES) == 0)
            return stays + i;
    fail("nobody has this number");
    return NULL;
}

static void join(const struct stay *stay)
{
    accepted("schedule_join", tulvekas_schedule_join(scheduler, sizeof scheduler, stay->key, sizeof stay->key, stay->iv, sizeof stay->iv, stay->length));
    printf("%.*s joins with %llu bytes\n", TULVEKAS_IV_BYTES, (const char *)stay->iv, (unsigned long long)stay->length);
}

/* The stay that comes next and the length of its piece; NULL where nobody is there. */
static struct stay *next(uint64_t *length)
{
    uint8_t found[1], iv[TULVEKAS_IV_BYTES], due[TULVEKAS_DUE_BYTES];
    accepted("schedule_next", tulvekas_schedule_next(scheduler, sizeof scheduler, found, sizeof found, iv, sizeof iv, due, sizeof due));
    if (found[0] == 0)
        return NULL;
    *length = number(due);
    return stay_of(iv);
}

/* By itself the stay's page has the same ciphertext, and this tag. */
static void compare(const struct stay *stay, const uint8_t *tag)
{
    static uint8_t cipher[MOST_LENGTH];
    uint8_t whole[TULVEKAS_TAG_BYTES];
    accepted("seal", tulvekas_seal(stay->key, sizeof stay->key, stay->iv, sizeof stay->iv, NULL, 0, stay->text, stay->length, cipher, sizeof cipher,
                                   whole, sizeof whole));
    if (memcmp(cipher, stay->cipher, stay->length) != 0 || memcmp(whole, tag, sizeof whole) != 0)
        fail("the whole page differs");
}

/* One turn; gives 0 where nobody was there. */
static uint64_t make_turn(void)
{
    uint8_t iv[TULVEKAS_IV_BYTES], turn[TULVEKAS_TURN_BYTES], done[1], tag[TULVEKAS_TAG_BYTES];
    uint64_t length = 0;
    struct stay *stay = next(&length);
    const uint8_t *piece = stay ? stay->text + stay->sealed : NULL;
    uint8_t *out = stay ? stay->cipher + stay->sealed : NULL;

    accepted("schedule_turn",
             tulvekas_schedule_turn(scheduler, sizeof scheduler, piece, length, out, length, iv, sizeof iv, turn, sizeof turn, done, 1, tag, sizeof tag));
    if (number(turn) == 0)
        return 0;
    if (stay_of(iv) != stay)
        fail("another stay was served than was named");
    stay->sealed += length;
    printf("turn %llu: %.*s, %llu bytes\n", (unsigned long long)number(turn), TULVEKAS_IV_BYTES, (const char *)iv, (unsigned long long)length);
    if (done[0] == 1) {
        printf("it leaves with tag ");
        for (int i = 0; i < TULVEKAS_TAG_BYTES; i++)
            printf("%02x", tag[i]);
        putchar('\n');
        compare(stay, tag);
    }
    return number(turn);
}

/* What a turn answers to so many bytes of the piece that is due, with so much room. */
static uint64_t try_turn(size_t piece_len, size_t out_len)
{
    static uint8_t out[TULVEKAS_MOST_PIECE];
    uint8_t iv[TULVEKAS_IV_BYTES], turn[TULVEKAS_TURN_BYTES], done[1], tag[TULVEKAS_TAG_BYTES];
    uint64_t length;
    const struct stay *stay = next(&length);
    return tulvekas_schedule_turn(scheduler, sizeof scheduler, stay->text, piece_len, out, out_len, iv, sizeof iv, turn, sizeof turn, done,
                                  sizeof done, tag, sizeof tag);
}

/* None of them is numbered, or changes the scheduler. */
static void refusals(void)
{
    const struct stay *stay = stays;
    print_refusal("a second stay with that number", tulvekas_schedule_join(scheduler, sizeof scheduler, stays[1].key, sizeof stays[1].key, stay->iv,
                                                                           sizeof stay->iv, 1));
    print_refusal("a text of no bytes", tulvekas_schedule_join(scheduler, sizeof scheduler, stays[3].key, sizeof stays[3].key, stays[3].iv,
                                                               sizeof stays[3].iv, 0));
    print_refusal("a piece of 4095 bytes", try_turn(4095, TULVEKAS_MOST_PIECE));
    print_refusal("an output of 4095 bytes", try_turn(TULVEKAS_MOST_PIECE, 4095));
}

/* A scheduler with nobody there has room for 32. */
static void fill(void)
{
    struct stay *stay = stays;
    for (int no = 0; no < TULVEKAS_MOST_STAYS; no++) {
        make_stay(stay, no, 1);
        accepted("schedule_join", tulvekas_schedule_join(scheduler, sizeof scheduler, stay->key, sizeof stay->key, stay->iv, sizeof stay->iv, 1));
    }
    make_stay(stay, TULVEKAS_MOST_STAYS, 1);
    print_refusal("a thirty-third stay", tulvekas_schedule_join(scheduler, sizeof scheduler, stay->key, sizeof stay->key, stay->iv, sizeof stay->iv, 1));
    print_refusal("a scheduler without its last byte", tulvekas_schedule_join(scheduler, sizeof scheduler - 1, stay->key, sizeof stay->key, stay->iv,
                                                                              sizeof stay->iv, 1));
}

int main(void)
{
    static const uint64_t lengths[STAYS] = {MOST_LENGTH, 500, 4096, 5000};
    for (int i = 0; i < STAYS; i++)
        make_stay(stays + i, 42 + i, lengths[i]);

    accepted("schedule_empty", tulvekas_schedule_empty(scheduler, sizeof scheduler));
    for (int i = 0; i < STAYS - 1; i++)
        join(stays + i);
    refusals();
    make_turn();
    make_turn();
    join(stays + STAYS - 1);
    while (make_turn() != 0)
        ;
    puts("nobody is there");
    fill();
    return 0;
}
