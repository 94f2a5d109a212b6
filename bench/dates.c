/* Days and dates by the library, by its quotients in C, and by loops over years and months, which the quotients stand in for.
 *
 *   dates          compares the results on every day
 *   dates CALL     makes one call for every day, for counting instructions */
#include <stdio.h>
#include <stdlib.h>
#include <string.h>

#include "tulvekas.h"

#define APART __attribute__((noinline))

static void put_date(uint8_t *date, uint64_t year, uint64_t month, uint64_t day)
{
    date[0] = (uint8_t)year;
    date[1] = (uint8_t)(year >> 8);
    date[2] = (uint8_t)month;
    date[3] = (uint8_t)day;
}

/* ---- the quotients, in years that begin with March */

APART void same_date(uint64_t day, uint8_t *date)
{
    const uint64_t n = day + 306 + (day >= 36584), year = 4 * n / 1461, rest = n - (1461 * year + 3) / 4, month = (5 * rest + 2) / 153;
    const uint64_t in_month = rest - (153 * month + 2) / 5 + 1;
    if (month < 10)
        put_date(date, 1999 + year, month + 3, in_month);
    else
        put_date(date, 2000 + year, month - 9, in_month);
}

/* ---- the loops */

static int leap(uint64_t year)
{
    return (year % 4 == 0 && year % 100 != 0) || year % 400 == 0;
}

static uint64_t month_length(uint64_t year, uint64_t month)
{
    static const uint8_t lengths[] = {31, 28, 31, 30, 31, 30, 31, 31, 30, 31, 30, 31};
    return lengths[month - 1] + (month == 2 && leap(year));
}

APART void loop_date(uint64_t day, uint8_t *date)
{
    uint64_t year = 2000, month = 1, length;
    while (day >= (length = (uint64_t)(365 + leap(year)))) {
        day -= length;
        year++;
    }
    while (day >= (length = month_length(year, month))) {
        day -= length;
        month++;
    }
    put_date(date, year, month, day + 1);
}

APART uint64_t loop_day(uint64_t year, uint64_t month, uint64_t day)
{
    uint64_t number = day - 1;
    for (uint64_t y = 2000; y < year; y++)
        number += (uint64_t)(365 + leap(y));
    for (uint64_t m = 1; m < month; m++)
        number += month_length(year, m);
    return number;
}

/* ---- every day */

static void fail(const char *what, uint64_t day)
{
    fprintf(stderr, "dates: day %llu: %s\n", (unsigned long long)day, what);
    exit(1);
}

static uint64_t year_in(const uint8_t *date)
{
    return date[0] + 256u * date[1];
}

/* The day is taken as today and as a departure, so that the page is kept. */
static uint64_t one(const char *call, uint64_t day)
{
    uint8_t date[TULVEKAS_DATE_BYTES], number[TULVEKAS_DAY_BYTES], kept[1];
    if (strcmp(call, "tulvekas_date") == 0)
        return tulvekas_date(day, date, sizeof date);
    if (strcmp(call, "tulvekas_kept") == 0)
        return tulvekas_kept(day, day, kept, sizeof kept);
    if (strcmp(call, "tulvekas_kept_until") == 0)
        return tulvekas_kept_until(day, date, sizeof date);
    if (strcmp(call, "loop_date") == 0) {
        loop_date(day, date);
        return 0;
    }
    same_date(day, date);
    if (strcmp(call, "tulvekas_day") == 0)
        return tulvekas_day(year_in(date), date[2], date[3], number, sizeof number);
    if (strcmp(call, "loop_day") == 0)
        return loop_day(year_in(date), date[2], date[3]) != day;
    return strcmp(call, "same_date") != 0;
}

static void compare(uint64_t day)
{
    uint8_t date[TULVEKAS_DATE_BYTES], same[TULVEKAS_DATE_BYTES], loop[TULVEKAS_DATE_BYTES], number[TULVEKAS_DAY_BYTES];
    uint64_t found = 0;
    same_date(day, same);
    loop_date(day, loop);
    if (tulvekas_date(day, date, sizeof date) != 0 || memcmp(same, date, sizeof date) != 0 || memcmp(loop, date, sizeof date) != 0)
        fail("the dates differ", day);
    if (tulvekas_day(year_in(date), date[2], date[3], number, sizeof number) != 0)
        fail("the date is refused", day);
    for (size_t i = sizeof number; i-- > 0;)
        found = 256 * found + number[i];
    if (found != day || loop_day(year_in(date), date[2], date[3]) != day)
        fail("the days differ", day);
}

int main(int count, char **words)
{
    for (uint64_t day = 0; day <= TULVEKAS_LAST_DAY; day++) {
        if (count == 1)
            compare(day);
        else if (one(words[1], day) != 0)
            fail(words[1], day);
    }
    return 0;
}
