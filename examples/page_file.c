/* Seals the pages of two stays into a page file, opens them by stay and page number and says until when they are kept; then shows what is refused: a
 * date that the calendar lacks, a page that is not there, one whose ciphertext was changed, and all of them once a stored length is out of range. */
#include <stdint.h>
#include <stdio.h>
#include <stdlib.h>
#include <string.h>

#include "tulvekas.h"

/* In use a key is 32 random bytes that nobody else has. */
static const uint8_t key[TULVEKAS_KEY_BYTES] = {
    0x50, 0x51, 0x52, 0x53, 0x54, 0x55, 0x56, 0x57, 0x58, 0x59, 0x5a, 0x5b, 0x5c, 0x5d, 0x5e, 0x5f,
    0x0a, 0x1a, 0x2a, 0x3a, 0x4a, 0x5a, 0x6a, 0x7a, 0x8a, 0x9a, 0xaa, 0xba, 0xca, 0xda, 0xea, 0xfa,
};

static const uint8_t stay[TULVEKAS_STAY_BYTES] = {'2', '0', '2', '6', ' ', 'n', 'o', '.', ' ', '0', '4', '2'};
static const uint8_t other[TULVEKAS_STAY_BYTES] = {'2', '0', '2', '6', ' ', 'n', 'o', '.', ' ', '0', '4', '3'};

/* Places that no page is sealed into stay all zero. */
enum { PLACES = 4 };
static uint8_t file[PLACES * TULVEKAS_PAGE_BYTES];

/* Every call answers 0 or the number of a refusal. */
static void accepted(const char *call, uint64_t answer)
{
    if (answer != TULVEKAS_ACCEPTED) {
        fprintf(stderr, "%s: refused %llu\n", call, (unsigned long long)answer);
        exit(1);
    }
}

/* Numbers in a page and in what the library writes have their low byte first. */
static uint64_t number_in(const uint8_t *bytes, size_t len)
{
    uint64_t number = 0;
    while (len-- > 0)
        number = 256 * number + bytes[len];
    return number;
}

static uint64_t day_of(uint64_t year, uint64_t month, uint64_t day)
{
    uint8_t number[TULVEKAS_DAY_BYTES];
    accepted("day", tulvekas_day(year, month, day, number, sizeof number));
    return number_in(number, sizeof number);
}

static void seal(const uint8_t *of, uint32_t page, uint64_t day, const char *text, uint64_t place)
{
    accepted("file_seal", tulvekas_file_seal(key, sizeof key, of, TULVEKAS_STAY_BYTES, page, day, (const uint8_t *)text, strlen(text), place, file,
                                             sizeof file));
}

/* Opens a page and prints its text, or the number of the refusal. */
static void print_page(const uint8_t *of, uint32_t page)
{
    uint8_t opened[TULVEKAS_MOST_PAGE_TEXT], length[TULVEKAS_LENGTH_BYTES];
    uint64_t answer =
        tulvekas_file_open(key, sizeof key, of, TULVEKAS_STAY_BYTES, page, file, sizeof file, opened, sizeof opened, length, sizeof length);
    printf("%.*s, page %u: ", TULVEKAS_STAY_BYTES, (const char *)of, (unsigned)page);
    if (answer != TULVEKAS_ACCEPTED)
        printf("refused %llu\n", (unsigned long long)answer);
    else
        printf("%.*s\n", (int)number_in(length, sizeof length), (const char *)opened);
}

static void print_date(const uint8_t *date)
{
    printf("%04d-%02d-%02d", (int)number_in(date, 2), date[2], date[3]);
}

/* The stay at a place and its departure can be read there without the key. */
static void print_stay(int place)
{
    printf("%.*s: ", TULVEKAS_STAY_BYTES, (const char *)file + TULVEKAS_PAGE_BYTES * place);
}

static uint64_t departure_at(int place)
{
    return number_in(file + TULVEKAS_PAGE_BYTES * place + 16, 4);
}

static void print_kept_until(int place)
{
    const uint64_t departure = departure_at(place);
    uint8_t date[TULVEKAS_DATE_BYTES], until[TULVEKAS_DATE_BYTES];

    accepted("date", tulvekas_date(departure, date, sizeof date));
    accepted("kept_until", tulvekas_kept_until(departure, until, sizeof until));
    print_stay(place);
    printf("departure ");
    print_date(date);
    printf(", kept until ");
    print_date(until);
    putchar('\n');
}

static void print_kept(int place, uint64_t today)
{
    const uint64_t departure = departure_at(place);
    uint8_t kept[1];

    accepted("kept", tulvekas_kept(today, departure, kept, sizeof kept));
    print_stay(place);
    puts(kept[0] ? "kept" : "not kept");
}

/* The first page, by both calls as they are. */
static void first_page(void)
{
    static const uint8_t text[] = {'M', 'a', 'r', 'i', ' ', 'S', 'a', 'a', 'r'};
    const uint64_t day = day_of(2026, 11, 15), place = 0;
    uint8_t opened[TULVEKAS_MOST_PAGE_TEXT], length[TULVEKAS_LENGTH_BYTES];

    accepted("file_seal", tulvekas_file_seal(key, sizeof key, stay, sizeof stay, 0, day, text, sizeof text, place, file, sizeof file));
    accepted("file_open",
             tulvekas_file_open(key, sizeof key, stay, sizeof stay, 0, file, sizeof file, opened, sizeof opened, length, sizeof length));
    if (number_in(length, sizeof length) != sizeof text || memcmp(opened, text, sizeof text) != 0) {
        fprintf(stderr, "the text differs\n");
        exit(1);
    }
}

int main(void)
{
    uint8_t number[TULVEKAS_DAY_BYTES];

    first_page();
    seal(other, 0, day_of(2026, 8, 31), "Jaan Tamm, Liis Tamm", 1);
    seal(stay, 1, day_of(2026, 11, 15), "tax for two nights: 4.00", 2);

    for (int place = 0; place < PLACES; place++) {
        printf("tag at place %d: ", place);
        for (int i = 496; i < TULVEKAS_PAGE_BYTES; i++)
            printf("%02x", file[TULVEKAS_PAGE_BYTES * place + i]);
        putchar('\n');
    }
    print_page(stay, 0);
    print_page(stay, 1);
    print_page(other, 0);

    print_kept_until(0);
    print_kept_until(1);
    puts("on 2028-02-29:");
    print_kept(0, day_of(2028, 2, 29));
    print_kept(1, day_of(2028, 2, 29));
    puts("on 2028-03-01:");
    print_kept(0, day_of(2028, 3, 1));
    print_kept(1, day_of(2028, 3, 1));

    puts("a date that the calendar lacks:");
    printf("2026-02-29: refused %llu\n", (unsigned long long)tulvekas_day(2026, 2, 29, number, sizeof number));

    puts("a page that is not there:");
    print_page(stay, 2);

    puts("a bit of the ciphertext at place 2 changed:");
    file[2 * TULVEKAS_PAGE_BYTES + 22] ^= 1;
    print_page(stay, 0);
    print_page(stay, 1);
    file[2 * TULVEKAS_PAGE_BYTES + 22] ^= 1;

    puts("the length stored at place 1 set to 475:");
    file[TULVEKAS_PAGE_BYTES + 20] = 475 % 256;
    file[TULVEKAS_PAGE_BYTES + 21] = 475 / 256;
    print_page(stay, 0);
    print_page(stay, 1);
    print_page(other, 0);
    return 0;
}
