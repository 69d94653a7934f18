/*
 * Answers the line language of oracle/README.md by the calls of panel.h: a table, rules and a text are lent by lines, each question is a line and so is each
 * answer. So the calls from C can be held against the two Rust oracles. examples/lines builds it and asks the stored questions.
 *
 * The two conversions over a kept state have no question of their own. So each of the questions `bs` and `ad` over an accepted table is asked of a kept state
 * with the rows of that table too; where the two do not agree, the program ends with 1.
 */
#define _POSIX_C_SOURCE 200809L
#include "panel.h"

#include <inttypes.h>
#include <stdio.h>
#include <stdlib.h>
#include <string.h>

/* ---- what lines have lent */

enum { MOST = 65535, LONGEST = 1 << 22, FILL = 7 };

static uint16_t head[4], rows[MOST], rules[MOST], row[MOST];
static uint8_t text[LONGEST];
static size_t rows_len, rules_len, row_len, text_len;

#define HEAD head[0], head[1], head[2], head[3]
#define TABLE HEAD, rows, rows_len
#define RULES rules, rules_len
#define TEXT text, text_len
#define ROW row, row_len

/* ---- kept states: the one that questions start and change, and one with the rows of the lent table */

static uint16_t state[PANEL_KEPT], of_table[PANEL_KEPT];
static int is_started, is_of_table;

#define STATE state, PANEL_KEPT
#define OF_TABLE of_table, PANEL_KEPT

static void stop(const char *why)
{
    fprintf(stderr, "lines: %s\n", why);
    exit(1);
}

/* Makes the second of an accepted table, once for each table that is lent. */
static void keep_table(void)
{
    uint16_t refusal;
    if (is_of_table) return;
    refusal = panel_kept_start(HEAD, OF_TABLE);
    for (size_t i = 0; refusal == 0 && i < rows_len; i += 13) refusal = panel_kept_append_row(OF_TABLE, rows + i, 13);
    if (refusal != 0) stop("a kept state refuses a table that is accepted");
    is_of_table = 1;
}

/* ---- the words of a question */

struct question {
    const char *rest, *end; /* what is still to be read; past the end where that is nothing */
    uint32_t number[16];
    double real[2];
    int32_t step;
};

/* The next word, of no letter where there is none. */
static size_t next_word(struct question *q, const char **from)
{
    const char *space;
    *from = q->rest;
    if (q->rest > q->end) return 0;
    space = memchr(q->rest, ' ', (size_t)(q->end - q->rest));
    if (!space) space = q->end;
    q->rest = space + 1;
    return (size_t)(space - *from);
}

/* A decimal number without leading zeros, from 0 to most, or -1. */
static int64_t natural(const char *digits, size_t length, int64_t most)
{
    int64_t value = 0;
    if (length < 1 || length > 10 || (length > 1 && digits[0] == '0')) return -1;
    for (size_t i = 0; i < length; i++) {
        if (digits[i] < '0' || digits[i] > '9') return -1;
        value = 10 * value + (digits[i] - '0');
    }
    return value <= most ? value : -1;
}

static int read_number(struct question *q, uint32_t *to, int64_t most)
{
    const char *from;
    size_t length = next_word(q, &from);
    int64_t value = natural(from, length, most);
    *to = (uint32_t)value;
    return value >= 0;
}

static int read_step(struct question *q)
{
    const char *from;
    size_t length = next_word(q, &from);
    int minus = length > 0 && *from == '-';
    int64_t value = natural(from + minus, length - (size_t)minus, minus ? 2147483648 : 2147483647);
    q->step = (int32_t)(minus ? -value : value);
    return value >= 0;
}

/* So many hex digits of lower case, sixteen at most, as a number. */
static int read_hex(const char *from, size_t count, uint64_t *to)
{
    static const char digits[] = "0123456789abcdef";
    *to = 0;
    for (size_t i = 0; i < count; i++) {
        const char *digit = memchr(digits, from[i], 16);
        if (!digit) return 0;
        *to = 16 * *to + (uint64_t)(digit - digits);
    }
    return 1;
}

/* A float by its bits: 0x and sixteen digits. */
static int read_real(struct question *q, double *to)
{
    const char *from;
    uint64_t bits;
    if (next_word(q, &from) != 18 || memcmp(from, "0x", 2) != 0 || !read_hex(from + 2, 16, &bits)) return 0;
    memcpy(to, &bits, sizeof bits);
    return 1;
}

/* So many numbers, from least to most, to the line's end, added to a list. */
static int read_list(struct question *q, size_t least, size_t most, uint16_t *list, size_t *len)
{
    size_t count = 0;
    uint32_t number;
    for (; q->rest <= q->end; count++) {
        if (count == most || !read_number(q, &number, 65535)) return 0;
        if (*len + count == MOST) exit(2);
        list[*len + count] = (uint16_t)number;
    }
    if (count < least) return 0;
    *len += count;
    return 1;
}

/* As many numbers as stand there, to the line's end. */
static int read_row(struct question *q)
{
    row_len = 0;
    return read_list(q, 0, MOST, row, &row_len);
}

/* The words that letters ask for, to the line's end: n a number of 16 bits, b of 8, w of 32, k a kala, s a step, f a float, a the row to append. S, which is
   no word, asks for a started state. */
static int read_words(struct question *q, const char *letters)
{
    uint32_t *number = q->number;
    double *real = q->real;
    for (; *letters; letters++) {
        int good = *letters == 'f'   ? read_real(q, real++)
                   : *letters == 's' ? read_step(q)
                   : *letters == 'b' ? read_number(q, number++, 255)
                   : *letters == 'w' ? read_number(q, number++, 4294967295)
                   : *letters == 'k' ? read_number(q, number++, 5)
                   : *letters == 'a' ? read_row(q)
                   : *letters == 'S' ? is_started
                                     : read_number(q, number++, 65535);
        if (!good) return 0;
    }
    return q->rest > q->end;
}

/* A word of 1 to 64 bytes, two hex digits each, to the line's end, added to the text. */
static int read_octets(struct question *q)
{
    const char *from;
    uint64_t octets[64];
    size_t length = next_word(q, &from), count = length / 2;
    if (count < 1 || count > 64 || length % 2 > 0 || q->rest <= q->end) return 0;
    for (size_t i = 0; i < count; i++)
        if (!read_hex(from + 2 * i, 2, &octets[i])) return 0;
    if (text_len + count > LONGEST) exit(2);
    for (size_t i = 0; i < count; i++) text[text_len++] = (uint8_t)octets[i];
    return 1;
}

/* ---- the words of an answer */

/* The refusal or 0; whether it was answered. */
static int told(uint16_t refusal)
{
    printf("%u", (unsigned)refusal);
    return refusal == 0;
}

static void put_number(size_t number)
{
    printf(" %zu", number);
}

static void put_real(double real)
{
    uint64_t bits;
    memcpy(&bits, &real, sizeof bits);
    if (real != real) printf(" nan");
    else printf(" 0x%016" PRIx64, bits);
}

static void put_date(const uint16_t date[3])
{
    for (int i = 0; i < 3; i++) put_number(date[i]);
}

/* One instant or two, or none. */
static void put_found(uint16_t found, const double *real, int count)
{
    if (!found) printf(" none");
    for (int i = 0; found && i < count; i++) put_real(real[i]);
}

static void put_buffer(const uint16_t *buffer, size_t length)
{
    printf(" |");
    for (size_t i = 0; i < length; i++) put_number(buffer[i]);
}

static void fill(uint16_t *buffer, size_t length)
{
    for (size_t i = 0; i < length; i++) buffer[i] = FILL;
}

/* ---- the questions */

#define N(i) ((uint16_t)q->number[i])
#define DATE N(0), N(1), N(2)
#define PLACES(date) &(date)[0], &(date)[1], &(date)[2]

static void ask_day(const struct question *q)
{
    uint16_t same[3], next[3];
    uint32_t number, weekday;
    if (!told(panel_date_new(DATE, PLACES(same)))) return;
    if (panel_date_day_number(same[0], same[1], same[2], &number) || panel_date_weekday(same[0], same[1], same[2], &weekday)) exit(2);
    put_number(number);
    put_number(weekday);
    if (panel_date_next(DATE, PLACES(next)) == 0) put_date(next);
    else printf(" none");
}

static void ask_starts(const struct question *q)
{
    static double starts[MOST];
    size_t count, steps, length = N(1);
    for (size_t i = 0; i < length; i++) starts[i] = FILL;
    if (told(panel_tithi_starts_between(N(0), q->real[0], q->real[1], starts, length, &count, &steps))) {
        put_number(count);
        put_number(steps);
    }
    printf(" |");
    for (size_t i = 0; i < length; i++) put_real(starts[i]);
}

/* Refusal 12 has its line behind it. */
static void ask_readrules(const struct question *q)
{
    static uint16_t read[MOST];
    size_t count, line;
    uint16_t refusal;
    fill(read, N(0));
    refusal = panel_read_rules(TEXT, read, N(0), &count, &line);
    if (told(refusal)) put_number(count);
    else if (refusal == 12) put_number(line);
    put_buffer(read, N(0));
}

static void ask_writerules(const struct question *q)
{
    static uint8_t written[MOST];
    size_t bytes;
    memset(written, FILL, N(0));
    if (told(panel_write_rules(RULES, written, N(0), &bytes))) put_number(bytes);
    printf(N(0) > 0 ? " | " : " |");
    for (size_t i = 0; i < N(0); i++) printf("%02x", (unsigned)written[i]);
}

static uint16_t number, numbers[4], list[MOST], days, first[3], last[3], cells[MOST], festivals[MOST];
static uint32_t outside[2];
static uint8_t byte;
static double real, reals[2];
static size_t count, cell_count, festival_count;

#define OUTSIDE &outside[0], &outside[1]
#define MONTH cells, N(5), festivals, N(6), &days, PLACES(first), PLACES(last), &cell_count, &festival_count

/* Refusal 7 has behind it the days after the last table day, or those before the first with a minus sign. */
static void put_outside(uint16_t refusal)
{
    if (refusal == 7) printf(" %" PRId64, (int64_t)outside[1] - (int64_t)outside[0]);
}

static void fill_month(const struct question *q)
{
    fill(cells, N(5));
    fill(festivals, N(6));
}

static void put_month(void)
{
    put_number(days);
    put_date(first);
    put_date(last);
    put_number(cell_count);
    put_number(festival_count);
}

static void put_month_buffers(const struct question *q)
{
    put_buffer(cells, N(5));
    put_buffer(festivals, N(6));
}

/* The years that a state has stored, none, one or two: their count, the first and the last. */
static void put_years(const uint16_t years[3])
{
    for (int i = 1; i <= years[0]; i++) put_number(years[i]);
}

/* Ends the program where a conversion over a kept state does not say what the same over the lent table has said. */
static void hold_bs(const struct question *q, uint16_t refusal)
{
    uint16_t ad[3];
    if (refusal == 1) return;
    keep_table();
    if (panel_kept_bs_to_ad(OF_TABLE, DATE, PLACES(ad)) != refusal) stop("a kept state converts otherwise");
    if (refusal == 0 && memcmp(ad, numbers, sizeof ad) != 0) stop("a kept state converts to another date");
}

static void hold_ad(const struct question *q, uint16_t refusal)
{
    uint16_t bs[3];
    uint32_t before, after;
    if (refusal == 1) return;
    keep_table();
    if (panel_kept_ad_to_bs(OF_TABLE, DATE, PLACES(bs), &before, &after) != refusal) stop("a kept state converts otherwise");
    if (refusal == 0 && memcmp(bs, numbers, sizeof bs) != 0) stop("a kept state converts to another date");
    if (refusal == 7 && (before != outside[0] || after != outside[1])) stop("a kept state tells another distance");
}

/* What is asked by a tag: the letters of its words, the call, what is printed where it answers, and what is printed after either. */
#define QUESTIONS(f) \
    f(check, "", panel_check_table(TABLE), , ) \
    f(checkrules, "", panel_check_rules(RULES), , ) \
    f(bs, "nnn", panel_bs_to_ad(TABLE, DATE, PLACES(numbers)), put_date(numbers), hold_bs(q, refusal)) \
    f(ad, "nnn", panel_ad_to_bs(TABLE, DATE, PLACES(numbers), OUTSIDE), put_date(numbers), put_outside(refusal); hold_ad(q, refusal)) \
    f(len, "nn", panel_bs_month_len(TABLE, N(0), N(1), &number), put_number(number), ) \
    f(valid, "nnn", panel_validate_bs_date(TABLE, DATE), , ) \
    f(step, "nbs", panel_step_month(TABLE, N(0), (uint8_t)N(1), q->step, &number, &byte), put_number(number); put_number(byte), ) \
    f(date, "w", panel_date_from_day_number(q->number[0], PLACES(numbers)), put_date(numbers), ) \
    f(jd, "nnnf", panel_julian_day(DATE, q->real[0], &real), put_real(real), ) \
    f(npt, "f", panel_npt_date(q->real[0], PLACES(numbers)), put_date(numbers), ) \
    f(deltat, "f", panel_delta_t(q->real[0], &real), put_real(real), ) \
    f(tt, "f", panel_tt_from_ut(q->real[0], &real), put_real(real), ) \
    f(sun, "f", panel_sun_longitude(q->real[0], &real), put_real(real), ) \
    f(moon, "f", panel_moon_longitude(q->real[0], &real), put_real(real), ) \
    f(elong, "f", panel_elongation(q->real[0], &real), put_real(real), ) \
    f(tithi, "f", panel_tithi_at(q->real[0], &number), put_number(number), ) \
    f(tithiof, "f", panel_tithi_of(q->real[0], &number), put_number(number), ) \
    f(end, "f", panel_tithi_end(q->real[0], &number, reals), put_found(number, reals, 1), ) \
    f(events, "nnn", panel_sun_events(DATE, &number, &reals[0], &reals[1]), put_found(number, reals, 2), ) \
    f(rise, "nnn", panel_sunrise(DATE, &number, reals), put_found(number, reals, 1), ) \
    f(set, "nnn", panel_sunset(DATE, &number, reals), put_found(number, reals, 1), ) \
    f(kala, "nnnk", panel_kala_instant(DATE, N(3), &number, reals), put_found(number, reals, 1), ) \
    f(nishita, "nnn", panel_nishita_window(DATE, &number, &reals[0], &reals[1]), put_found(number, reals, 2), ) \
    f(clock, "f", panel_npt_clock(q->real[0], &number), put_number(number), ) \
    f(minutes, "f", panel_minutes_of(q->real[0], &number), put_number(number), ) \
    f(read, "nnn", panel_reading(DATE, PLACES(numbers), &numbers[3]), put_date(numbers); put_number(numbers[3]), ) \
    f(listbs, "nnnn", (fill(list, N(3)), panel_festivals_on(TABLE, RULES, DATE, list, N(3), &count)), put_number(count), put_buffer(list, N(3))) \
    f(listad, "nnnn", (fill(list, N(3)), panel_festivals_on_ad(TABLE, RULES, DATE, list, N(3), &count, OUTSIDE)), put_number(count), \
      put_outside(refusal); put_buffer(list, N(3))) \
    f(holiday, "nnn", panel_is_holiday(TABLE, RULES, DATE, &number), put_number(number), ) \
    f(grid, "nnnnnnn", (fill_month(q), panel_month_grid(TABLE, RULES, DATE, N(3), N(4), MONTH)), put_month(), put_month_buffers(q)) \
    f(start, "nnnn", panel_kept_start(DATE, N(3), STATE), , is_started = refusal == 0) \
    f(take, "S", panel_kept_take_rules(STATE, RULES), , ) \
    f(append, "Sa", panel_kept_append_row(STATE, ROW), , ) \
    f(askbs, "Snnnn", (fill(list, N(3)), panel_kept_festivals_on(STATE, DATE, list, N(3), &count)), put_number(count), put_buffer(list, N(3))) \
    f(askad, "Snnnn", (fill(list, N(3)), panel_kept_festivals_on_ad(STATE, DATE, list, N(3), &count, OUTSIDE)), put_number(count), \
      put_outside(refusal); put_buffer(list, N(3))) \
    f(askgrid, "Snnnnnnn", (fill_month(q), panel_kept_month_grid(STATE, DATE, N(3), N(4), MONTH)), put_month(), put_month_buffers(q)) \
    f(forget, "S", panel_kept_forget(STATE), , ) \
    f(stored, "S", panel_kept_stored(STATE, PLACES(numbers)), put_years(numbers), ) \
    f(sin, "f", panel_sine(q->real[0], &real), put_real(real), ) \
    f(cos, "f", panel_cosine(q->real[0], &real), put_real(real), ) \
    f(asin, "f", panel_arcsine(q->real[0], &real), put_real(real), ) \
    f(acos, "f", panel_arccosine(q->real[0], &real), put_real(real), ) \
    f(tan, "f", panel_tangent(q->real[0], &real), put_real(real), )

#define DEFINED(tag, letters, call, answer, after) \
    static void ask_##tag(const struct question *q) \
    { \
        uint16_t refusal = call; \
        (void)q; \
        if (told(refusal)) { answer; } \
        after; \
    }
#define LISTED(tag, letters, call, answer, after) { #tag, letters, ask_##tag },

QUESTIONS(DEFINED)

static const struct {
    const char *tag, *letters;
    void (*ask)(const struct question *q);
} questions[] = { QUESTIONS(LISTED) { "day", "nnn", ask_day }, { "starts", "nffn", ask_starts }, { "readrules", "n", ask_readrules },
                  { "writerules", "n", ask_writerules } };

/* A line that lends, or a question; whether it is in form. */
static int take(struct question *q)
{
    const char *from;
    size_t length = next_word(q, &from);
#define IS(text) (length == strlen(text) && memcmp(from, text, length) == 0)
    if (IS("cells")) {
        is_of_table = 0;
        return read_list(q, 1, 13, rows, &rows_len);
    }
    if (IS("rule")) return read_list(q, 1, 8, rules, &rules_len);
    if (IS("octets")) return read_octets(q);
    if (IS("rules") || IS("text")) {
        if (q->rest <= q->end) return 0;
        *(IS("text") ? &text_len : &rules_len) = 0;
        return 1;
    }
    if (IS("table")) {
        if (!read_words(q, "nnnn")) return 0;
        for (int i = 0; i < 4; i++) head[i] = N(i);
        rows_len = 0;
        is_of_table = 0;
        return 1;
    }
    for (size_t i = 0; i < sizeof questions / sizeof *questions; i++)
        if (IS(questions[i].tag)) {
            if (!read_words(q, questions[i].letters)) return 0;
            questions[i].ask(q);
            printf("\n");
            return 1;
        }
    return 0;
}

int main(void)
{
    char *line = NULL;
    size_t room = 0;
    ssize_t length;
    while ((length = getline(&line, &room, stdin)) > 0) {
        struct question q = { line, line + length - (line[length - 1] == '\n'), { 0 }, { 0.0 }, 0 };
        if (!take(&q)) printf("?\n");
    }
    free(line);
    return 0;
}
