/*
 * A first program over the engine: today in Bikram Sambat, what the calendar prints under it, its festivals, and its month. It keeps a state, so that the
 * festivals of the BS year are worked out once, for the day, and the month has them from the state.
 *
 *   panel                today by the clock
 *   panel YEAR MONTH DAY another Gregorian date
 *
 * examples/run builds and runs it.
 */
#include "panel.h"

#include <stdio.h>
#include <stdlib.h>
#include <time.h>

/* The year table: BS 2082 begins on 14 April 2025. For each year the lengths of its months, and their sum. A new year is one more row. */
#define FIRST 2082, 2025, 4, 14
static const uint16_t rows[] = {
    31, 31, 32, 31, 31, 31, 30, 29, 30, 29, 30, 30, 365, /* 2082 */
    31, 31, 32, 31, 31, 31, 30, 29, 30, 29, 30, 30, 365, /* 2083 */
    31, 32, 31, 32, 31, 30, 30, 30, 29, 29, 30, 31, 366, /* 2084 */
    30, 32, 31, 32, 31, 30, 30, 30, 29, 30, 29, 31, 365, /* 2085 */
    31, 31, 32, 31, 31, 31, 30, 29, 30, 29, 30, 30, 365, /* 2086 */
    31, 31, 32, 32, 31, 30, 30, 29, 30, 29, 30, 30, 365, /* 2087 */
    31, 32, 31, 32, 31, 30, 30, 30, 29, 29, 30, 31, 366, /* 2088 */
    30, 32, 31, 32, 31, 30, 30, 30, 29, 30, 29, 31, 365, /* 2089 */
};

/* The festivals, each by its place in the list of names. */
static const char *const names[] = {
    "Nepali New Year", "Christmas", "Vijaya Dashami", "Laxmi Puja", "Bhai Tika", "Chhath", "Maha Shivaratri", "Holi",
};

/* The rules: kind (1 a BS date, 2 a Gregorian date, 3 computed), year, month, day or tithi, half (0 waxing, 1 waning), kala, name, holiday. */
static const uint16_t rules[] = {
    1, 0, 1,  1,  0, 0, 0, 1, /* the first day of the first month */
    2, 0, 12, 25, 0, 0, 1, 1, /* 25 December */
    3, 0, 6,  10, 0, 2, 2, 1, /* the tenth tithi of the sixth lunar month's waxing half, in the afternoon */
    3, 0, 6,  15, 1, 3, 3, 1, /* its new moon, at dusk */
    3, 0, 7,  2,  0, 1, 4, 1, /* the second tithi of the seventh lunar month, at midday */
    3, 0, 7,  6,  0, 3, 5, 1, /* the sixth, at dusk */
    3, 0, 10, 14, 1, 4, 6, 1, /* the night before the new moon of the tenth */
    3, 0, 11, 15, 0, 3, 7, 1, /* the full moon of the eleventh, at dusk */
};
#define RULES rules, sizeof rules / sizeof *rules

/* Ends the program where a call refuses. */
static void expect(const char *question, uint16_t refusal)
{
    if (refusal != 0) {
        fprintf(stderr, "%s: refused with %u\n", question, (unsigned)refusal);
        exit(1);
    }
}

/* The state: the table, the rules, and what was worked out for the last question. */
static uint16_t state[PANEL_KEPT];
#define STATE state, PANEL_KEPT

static void start(void)
{
    expect("start", panel_kept_start(FIRST, STATE));
    expect("rules", panel_kept_take_rules(STATE, RULES));
    for (size_t i = 0; i < sizeof rows / sizeof *rows; i += 13) expect("row", panel_kept_append_row(STATE, rows + i, 13));
}

static void print_minutes(const char *what, uint16_t minutes)
{
    if (minutes < 1440) printf("%s %02u:%02u", what, (unsigned)minutes / 60, (unsigned)minutes % 60);
}

/* Gregorian dates and BS dates are three numbers. */
static void print_date(const uint16_t date[3])
{
    printf("%u-%02u-%02u", (unsigned)date[0], (unsigned)date[1], (unsigned)date[2]);
}

static void print_reading(const uint16_t ad[3])
{
    uint16_t tithi, end, sunrise, sunset;
    expect("reading", panel_reading(ad[0], ad[1], ad[2], &tithi, &end, &sunrise, &sunset));
    printf("tithi %u", (unsigned)tithi);
    print_minutes(" until", end);
    print_minutes(", sunrise", sunrise);
    print_minutes(", sunset", sunset);
    printf("\n");
}

/* A day has at most 384 festivals, of two numbers each: a name and whether it is a holiday. */
static void print_festivals(const uint16_t bs[3])
{
    uint16_t festivals[2 * 384];
    size_t count;
    expect("festivals", panel_kept_festivals_on(STATE, bs[0], bs[1], bs[2], festivals, sizeof festivals / sizeof *festivals, &count));
    for (size_t i = 0; i < count; i++) printf("%s%s\n", names[festivals[2 * i]], festivals[2 * i + 1] ? ", a holiday" : "");
}

/* A month has at most 42 cells, of twelve numbers each: the first is the BS day, or 0 where the cell is padding, the sixth and seventh are whether it is
   today and a holiday. Its festivals are at most 12,288, 384 on each of 32 days, which serves all rules: much for a stack, so they are static. */
static void print_month(const uint16_t today[3], uint16_t year, uint16_t month)
{
    static uint16_t festivals[2 * 12288];
    uint16_t cells[42 * 12], days, first[3], last[3];
    size_t cell_count, festival_count;
    expect("month", panel_kept_month_grid(STATE, today[0], today[1], today[2], year, month, cells, sizeof cells / sizeof *cells, festivals,
                                          sizeof festivals / sizeof *festivals, &days, &first[0], &first[1], &first[2], &last[0], &last[1], &last[2],
                                          &cell_count, &festival_count));
    printf("\n%u-%02u has %u days, from ", (unsigned)year, (unsigned)month, (unsigned)days);
    print_date(first);
    printf(" to ");
    print_date(last);
    printf("\n Sun Mon Tue Wed Thu Fri Sat\n");
    for (size_t i = 0; i < cell_count; i++) {
        const uint16_t *cell = cells + 12 * i;
        if (cell[0] == 0) printf("    ");
        else printf("%c%2u%c", cell[5] ? '>' : ' ', (unsigned)cell[0], cell[6] ? '*' : ' ');
        if (i % 7 == 6) printf("\n");
    }
}

/* The Gregorian date in Nepal by the clock. The clock begins at the instant 2440587.5. */
static void read_clock(uint16_t ad[3])
{
    expect("clock", panel_npt_date(2440587.5 + (double)time(NULL) / 86400.0, &ad[0], &ad[1], &ad[2]));
}

int main(int count, char **words)
{
    uint16_t ad[3], bs[3];
    uint32_t before, after;
    if (count == 4)
        for (int i = 0; i < 3; i++) ad[i] = (uint16_t)atoi(words[i + 1]);
    else read_clock(ad);
    start();
    uint16_t refusal = panel_kept_ad_to_bs(STATE, ad[0], ad[1], ad[2], &bs[0], &bs[1], &bs[2], &before, &after);
    if (refusal == 7) printf("%lu days %s the table\n", (unsigned long)(before + after), before > 0 ? "before" : "after");
    expect("conversion", refusal);
    print_date(ad);
    printf(" is BS ");
    print_date(bs);
    printf("\n");
    print_reading(ad);
    print_festivals(bs);
    print_month(ad, bs[0], bs[1]);
    return 0;
}
