#define _GNU_SOURCE
#include "arguments.h"
#include "memory.h"
#include "panel.h"

#include <float.h>
#include <math.h>
#include <stdio.h>
#include <stdlib.h>
#include <string.h>

#define COUNT(array) (sizeof(array) / sizeof *(array))

/* ---- random numbers: Marsaglia's xorshift */

static uint64_t state;

static uint64_t bits(void)
{
    state ^= state << 13;
    state ^= state >> 7;
    state ^= state << 17;
    return state;
}

uint64_t below(uint64_t end)
{
    return (bits() >> 11) % end;
}

uint64_t nan_bits(void)
{
    return 0x7ff0000000000001u | bits();
}

static uint32_t from_to(uint32_t from, uint32_t to)
{
    return from + (uint32_t)below(to - from + 1);
}

/* from 0.0 to 1.0 */
static double part(void)
{
    return (double)(bits() >> 11) / 9007199254740992.0;
}

/* ---- year tables */

struct table {
    uint32_t first_year, year, month, day, years;
    struct slice rows;
};

enum { MOST_YEARS = 128 };

static struct table good_tables[24], broken_tables[40];

static struct slice lasting(const uint16_t *numbers, size_t len)
{
    struct slice made = { read_only(numbers, len * sizeof *numbers), len };
    return made;
}

static void random_row(uint16_t *row)
{
    row[12] = 0;
    for (int month = 0; month < 12; month++) row[12] += row[month] = (uint16_t)from_to(29, 32);
}

/* A good table: it begins in 1901 to 1943, so that 128 years of at most 384 days end before 2100. */
static struct table random_table(uint32_t years, uint16_t *rows)
{
    struct table made = { from_to(1, 3000), from_to(1901, 1943), from_to(1, 12), from_to(1, 28), years, { NULL, 0 } };
    for (uint16_t *row = rows; row < rows + 13 * years; row += 13) random_row(row);
    return made;
}

/* Breaks the rows of a table in one of eight ways; the length that is then lent. */
static size_t break_rows(uint16_t *rows, size_t len, unsigned way)
{
    switch (way) {
    case 0: rows[below(len)] ^= (uint16_t)(1u << below(16)); return len;
    case 1: rows[below(len)] = 65535; return len;
    case 2: return len - from_to(1, 12);
    case 3: return len + from_to(1, 12);
    case 4: memset(rows, 255, len * sizeof *rows); return len;
    case 5:
        for (size_t k = 0; k < len; k++) rows[k] = (uint16_t)bits();
        rows[0] = 0;
        return len;
    case 6: return 0;
    default: memcpy(rows + len, rows, (13 * (MOST_YEARS + 1) - len) * sizeof *rows); return 13 * (MOST_YEARS + 1);
    }
}

static void prepare_tables(void)
{
    static const uint32_t years[] = { 1, 2, 3, 90, 127, MOST_YEARS };
    static uint16_t rows[2 * 13 * (MOST_YEARS + 1)];
    for (size_t i = 0; i < COUNT(good_tables); i++) {
        good_tables[i] = random_table(i < COUNT(years) ? years[i] : from_to(1, 40), rows);
        good_tables[i].rows = lasting(rows, 13 * good_tables[i].years);
    }
    for (size_t i = 0; i < COUNT(broken_tables); i++) {
        broken_tables[i] = random_table(from_to(1, MOST_YEARS), rows);
        broken_tables[i].rows = lasting(rows, break_rows(rows, 13 * broken_tables[i].years, i % 8));
    }
    broken_tables[0].rows = (struct slice){ zeros((size_t)1 << 31), (size_t)1 << 30 };
}

/* ---- year rows */

static struct slice good_rows[24], broken_rows[40];

static void prepare_rows(void)
{
    static uint16_t row[2 * 13 * (MOST_YEARS + 1)];
    for (size_t i = 0; i < COUNT(good_rows); i++) {
        random_row(row);
        good_rows[i] = lasting(row, 13);
    }
    for (size_t i = 0; i < COUNT(broken_rows); i++) {
        random_row(row);
        broken_rows[i] = lasting(row, break_rows(row, 13, i % 8));
    }
    broken_rows[0] = (struct slice){ zeros((size_t)1 << 31), (size_t)1 << 30 };
}

/* ---- rules */

static struct slice good_lists[24], broken_lists[40];

static void random_rule(uint16_t *rule, unsigned kind)
{
    static const uint16_t last_day[] = { 0, 32, 31, 15, 32 };
    uint16_t year = (uint16_t)(below(2) ? bits() : from_to(1, 3127));
    uint16_t name = (uint16_t)(below(2) ? bits() : below(4));
    uint16_t made[] = { (uint16_t)kind, kind == 4 ? year : 0, (uint16_t)from_to(1, 12), (uint16_t)from_to(1, last_day[kind]),
                        (uint16_t)(kind == 3 ? below(2) : 0), (uint16_t)(kind == 3 ? below(6) : 0), name, (uint16_t)below(2) };
    memcpy(rule, made, sizeof made);
}

/* So many rules of each kind; how many numbers they are. */
static size_t random_rules(uint16_t *rules, size_t fixed, size_t gregorian, size_t computed, size_t overrides)
{
    const size_t counts[] = { 0, fixed, gregorian, computed, overrides };
    size_t len = 0;
    for (unsigned kind = 1; kind <= 4; kind++)
        for (size_t k = 0; k < counts[kind]; k++, len += 8) random_rule(rules + len, kind);
    return len;
}

/* Breaks a list of rules in one of eight ways; the length that is then lent. */
static size_t break_rules(uint16_t *rules, size_t len, unsigned way)
{
    switch (way) {
    case 0: rules[8 * below(len / 8)] = 5; return len;
    case 1: rules[8 * below(len / 8) + 2] = below(2) ? 0 : 13; return len;
    case 2: rules[8 * below(len / 8) + 7] = 2; return len;
    case 3: return len - from_to(1, 7);
    case 4: return random_rules(rules, 65, 0, 0, 0);
    case 5: return random_rules(rules, 0, 0, 65, 0);
    case 6: return random_rules(rules, 0, 0, 0, 129);
    default:
        for (size_t k = 0; k < len; k++) rules[k] = (uint16_t)bits();
        rules[0] = 0;
        return len;
    }
}

static void prepare_lists(void)
{
    static uint16_t rules[8 * (64 + 64 + 64 + 128)];
    for (size_t i = 2; i < COUNT(good_lists); i++) good_lists[i] = lasting(rules, random_rules(rules, below(9), below(9), below(9), below(9)));
    good_lists[0] = lasting(rules, 0);
    good_lists[1] = lasting(rules, random_rules(rules, 64, 64, 64, 128));
    for (size_t i = 0; i < COUNT(broken_lists); i++)
        broken_lists[i] = lasting(rules, break_rules(rules, random_rules(rules, 1 + below(8), below(9), below(9), below(9)), i % 8));
    broken_lists[0] = (struct slice){ zeros((size_t)1 << 31), (size_t)1 << 30 };
    broken_lists[1] = (struct slice){ zeros((size_t)1 << 21), (size_t)1 << 20 };
}

/* Rules. The longest list of all is read to its end in a second, so it comes seldom. */
static struct slice draw_list(int odd)
{
    size_t broken = below(COUNT(broken_lists));
    if (!odd) return good_lists[below(COUNT(good_lists))];
    return broken_lists[broken == 0 && below(2000) > 0 ? 1 : broken];
}

/* ---- rule files */

enum { LONGEST_LINE = 14, MOST_LINES = 65536 };

static struct slice good_texts[COUNT(good_lists)], broken_texts[1024];

/* The file of a list of numbers; how many bytes it is. */
static size_t write_text(char *text, const uint16_t *numbers, size_t len)
{
    static const char *const keys[] = { "kind", "year", "month", "day", "half", "kala", "name", "holiday" };
    size_t bytes = 0;
    for (size_t k = 0; k < len; k++) bytes += (size_t)sprintf(text + bytes, "%s=%u\n", keys[k % 8], (unsigned)numbers[k]);
    return bytes;
}

/* A byte as it stands in a file, or any. */
static char odd_byte(void)
{
    static const char near[] = "0123456789=\n\r\t -+kindyearmonthdayhalfkalanameholidayK\xef";
    return below(4) ? near[below(sizeof near)] : (char)bits();
}

/* Puts so many bytes into a text, or takes them out; the length then. */
static size_t put_in(char *text, size_t len, size_t at, const char *bytes, size_t count)
{
    memmove(text + at + count, text + at, len - at);
    memcpy(text + at, bytes, count);
    return len + count;
}

static size_t take_out(char *text, size_t len, size_t at, size_t count)
{
    memmove(text + at, text + at + count, len - at - count);
    return len - count;
}

/* Where the line begins that has a byte, and how long it is. */
static size_t line_of(const char *text, size_t len, size_t *at)
{
    const char *end;
    while (*at > 0 && text[*at - 1] != '\n') --*at;
    end = memchr(text + *at, '\n', len - *at);
    return end ? (size_t)(end - text) - *at + 1 : len - *at;
}

/* Damages the file of some rules in one of eight ways; the length that is then lent. */
static size_t break_text(char *text, size_t len, unsigned way)
{
    char line[LONGEST_LINE], byte = odd_byte();
    size_t at = below(len), from = at, length = line_of(text, len, &from);
    memcpy(line, text + from, length);
    switch (way) {
    case 0: text[at] = byte; return len;
    case 1: return put_in(text, len, at, &byte, 1);
    case 2: return take_out(text, len, at, 1);
    case 3: return at;
    case 4: return take_out(text, len, from, length);
    case 5: return put_in(text, len, from, line, length);
    case 6:
        len = take_out(text, len, from, length);
        from = below(len);
        line_of(text, len, &from);
        return put_in(text, len, from, line, length);
    default:
        for (size_t k = 0; k < len; k++) text[k] = below(2) ? odd_byte() : (char)bits();
        return len;
    }
}

/* Damaged files, and files in form whose rules are not accepted. */
static void prepare_texts(void)
{
    static uint16_t rules[MOST_LINES];
    static char text[MOST_LINES * LONGEST_LINE];
    for (size_t i = 0; i < COUNT(good_texts); i++) {
        size_t bytes = write_text(text, good_lists[i].at, good_lists[i].len);
        good_texts[i] = (struct slice){ read_only(text, bytes), bytes };
    }
    for (size_t i = 0; i < COUNT(broken_texts); i++) {
        size_t len = random_rules(rules, 1 + below(8), below(9), below(9), below(9)), bytes;
        if (i % 9 == 8) len = break_rules(rules, len, below(8));
        bytes = write_text(text, rules, len);
        if (i % 9 < 8) bytes = break_text(text, bytes, i % 9);
        broken_texts[i] = (struct slice){ read_only(text, bytes), bytes };
    }
    for (size_t k = 0; k < MOST_LINES; k++) rules[k] = (uint16_t)bits();
    broken_texts[0].len = write_text(text, rules, MOST_LINES);
    broken_texts[0].at = read_only(text, broken_texts[0].len);
    broken_texts[1] = (struct slice){ zeros((size_t)1 << 31), (size_t)1 << 31 };
}

/* A rule file. The longest in form is read to its end, so it comes seldom. */
static struct slice draw_text(int odd)
{
    size_t broken = below(COUNT(broken_texts));
    if (!odd) return good_texts[below(COUNT(good_texts))];
    return broken_texts[broken == 0 && below(8) > 0 ? 1 : broken];
}

void prepare(uint64_t seed)
{
    state = seed * 0x9e3779b97f4a7c15u | 1;
    prepare_tables();
    prepare_lists();
    prepare_texts();
}

/* ---- hostile numbers */

static uint32_t odd_number(uint32_t most)
{
    static const uint32_t odd[] = { 0,     1,     2,     5,     6,     11,      12,      13,      28,      29,         30,          31,         32,  33,   255,  256,  257,  1899, 1900, 2149,
                                    2150,  32767, 32768, 65534, 65535, 2415020, 2415021, 2506331, 2506332, 2147483647, 2147483648u, 4294967295u };
    return most & (below(2) ? (uint32_t)bits() : odd[below(COUNT(odd))]);
}

static double of_bits(uint64_t bits)
{
    double real;
    memcpy(&real, &bits, sizeof real);
    return real;
}

static double odd_real(void)
{
    static const double odd[] = { 0.0,       0.5,       1.0,       12.0,      348.0,        360.0,        1920.0,         1941.0,  1961.0,  1986.0,      2005.0,
                                  2050.0,    100000.0,  2399999.0, 2400000.0, 2451545.0,    2507497.5,    2510000.0,      2510001.0, 4294967295.0, 4294967296.0, 9007199254740992.0,
                                  18446744073709551616.0, 1e300, DBL_MAX, DBL_MIN, DBL_EPSILON };
    double x = odd[below(COUNT(odd))];
    switch (below(8)) {
    case 0: return of_bits(nan_bits());
    case 1: return below(2) ? INFINITY : -INFINITY;
    case 2: return of_bits(bits());
    case 3: return of_bits(bits() & 0x800fffffffffffffu); /* below the normal numbers */
    case 4: return x;
    case 5: return -x;
    case 6: return nextafter(x, below(2) ? INFINITY : -INFINITY);
    default: return x + part() - 0.5;
    }
}

static size_t odd_room(size_t most)
{
    switch (below(4)) {
    case 0: return 0;
    case 1: return below(40);
    case 2: return below(most + 1);
    default: return below(32) ? most + below(8) : 65536;
    }
}

/* ---- kept states */

enum { BEHIND = 40 };

/* An array that the calls alone have made, or one made of such a one, and the table of the first; whether that has a row. */
struct state {
    struct slice array;
    struct table table;
    int is_made, has_row;
};

static struct state made_states[40], odd_states[400];

static void must(uint16_t refusal)
{
    if (refusal == 0) return;
    fprintf(stderr, "hostile: a kept state cannot be made, refused with %u\n", (unsigned)refusal);
    exit(2);
}

/* Asks for a day, more often than not in one of the two months that draw computed rules from two years. */
static void ask_state(uint16_t *array, const struct table *table)
{
    static uint16_t festivals[768];
    uint16_t year = (uint16_t)(table->first_year + below(table->years)), month = (uint16_t)from_to(1, below(2) ? 2 : 12);
    size_t count;
    must(panel_kept_festivals_on(array, PANEL_KEPT, year, month, (uint16_t)from_to(1, 29), festivals, COUNT(festivals), &count));
}

/* A state by the calls: with rows or with none, with rules or with none, with stored years or with none, and with other numbers behind it. */
static void make_state(struct state *made, const struct table *table, size_t i)
{
    static uint16_t array[PANEL_KEPT + BEHIND];
    const uint16_t *rows = table->rows.at;
    const struct slice rules = good_lists[i % COUNT(good_lists)];
    for (size_t k = 0; k < COUNT(array); k++) array[k] = (uint16_t)bits();
    must(panel_kept_start((uint16_t)table->first_year, (uint16_t)table->year, (uint16_t)table->month, (uint16_t)table->day, array, PANEL_KEPT));
    made->has_row = i % 8 > 0;
    if (i % 3 > 0) must(panel_kept_take_rules(array, PANEL_KEPT, rules.at, rules.len));
    for (size_t k = 0; made->has_row && k < table->years; k++) must(panel_kept_append_row(array, PANEL_KEPT, rows + 13 * k, 13));
    if (i % 8 > 1) ask_state(array, table);
    if (i % 8 == 2) must(panel_kept_forget(array, PANEL_KEPT));
    made->array = lasting(array, PANEL_KEPT + (below(2) ? 0 : below(BEHIND + 1)));
    made->table = *table;
    made->is_made = 1;
}

/* Another array from one that was made, in one of eight ways; the length that is then lent. */
static size_t spoil(uint16_t *array, size_t len, unsigned way)
{
    switch (way) {
    case 0: array[below(8)] = (uint16_t)odd_number(65535); return len;
    case 1: array[below(PANEL_KEPT)] = (uint16_t)odd_number(65535); return len;
    case 2: array[below(len)] ^= (uint16_t)(1u << below(16)); return len;
    case 3: return below(2) ? PANEL_KEPT - 1 : below(PANEL_KEPT);
    case 4: return below(2) ? 0 : from_to(1, 8);
    case 5: memset(array, below(2) ? 255 : 0, len * sizeof *array); return len;
    case 6:
        for (size_t k = 4; k < len; k++) array[k] = (uint16_t)bits();
        return len;
    default:
        for (size_t k = 0; k < len; k++) array[k] = (uint16_t)bits();
        return len;
    }
}

void prepare_states(void)
{
    static uint16_t array[PANEL_KEPT + BEHIND];
    prepare_rows();
    for (size_t i = 0; i < COUNT(made_states); i++) make_state(&made_states[i], &good_tables[i % COUNT(good_tables)], i);
    for (size_t i = 0; i < COUNT(odd_states); i++) {
        struct state *odd = &odd_states[i];
        *odd = made_states[below(COUNT(made_states))];
        memcpy(array, odd->array.at, odd->array.len * sizeof *array);
        odd->array = lasting(array, spoil(array, odd->array.len, i % 8));
        odd->is_made = 0;
    }
}

/* A tame call gets a state with a row. */
static const struct state *draw_state(int odd, int tame)
{
    const struct state *state = odd ? &odd_states[below(COUNT(odd_states))] : &made_states[below(COUNT(made_states))];
    return tame && !state->has_row ? draw_state(odd, tame) : state;
}

/* ---- drawing */

static uint32_t month_days(uint32_t year, uint32_t month)
{
    static const uint32_t days[] = { 31, 28, 31, 30, 31, 30, 31, 31, 30, 31, 30, 31 };
    int leap = year % 4 == 0 && (year % 100 != 0 || year % 400 == 0);
    return month >= 1 && month <= 12 ? days[month - 1] + (month == 2 && leap) : 28;
}

/* Where the next of each kind goes. */
struct places {
    uint32_t *number;
    double *real;
    struct slice *slice;
    size_t *room;
};

static void draw_number(struct places *to, int odd, uint32_t from, uint32_t up_to, uint32_t most)
{
    *to->number++ = odd ? odd_number(most) : from_to(from, up_to);
}

/* A table, of a hostile call perhaps with another year or first day. */
static const struct table *draw_table(struct places *to, int odd, int tame)
{
    const struct table *table = odd ? &broken_tables[below(COUNT(broken_tables))] : &good_tables[below(COUNT(good_tables))];
    const uint32_t head[] = { table->first_year, table->year, table->month, table->day };
    for (int k = 0; k < 4; k++) draw_number(to, !tame && below(16) == 0, head[k], head[k], 65535);
    *to->slice++ = table->rows;
    return table;
}

static void draw_date(struct places *to)
{
    draw_number(to, 0, 1900, 2149, 65535);
    draw_number(to, 0, 1, 12, 65535);
    draw_number(to, 0, 1, month_days(to->number[-2], to->number[-1]), 65535);
}

/* A date after a table's first month, or of a hostile call perhaps any date. Each year of a table has at least 348 days. */
static void draw_in_table(struct places *to, const struct table *table, int tame)
{
    uint32_t wholes = table->years * 348 / 366, year = table->year + table->month / 12;
    if (!tame && below(4) == 0) {
        draw_date(to);
        return;
    }
    draw_number(to, !tame && below(2), year, year + (wholes > 1 ? wholes - 1 : 0), 65535);
    draw_number(to, !tame && below(2), table->month % 12 + 1, table->month % 12 + 1, 65535);
    draw_number(to, !tame && below(2), 1, 28, 65535);
}

static void draw_real(struct places *to, int odd, double from, double width)
{
    *to->real++ = odd ? odd_real() : from + width * part();
}

/* A fraction of a day, an angle in degrees or in radians, or a year. */
static void draw_wide(struct places *to, int odd)
{
    static const double from[] = { -0.5, -2.0, -400.0, -100000.0, 1800.0 }, width[] = { 2.0, 4.0, 800.0, 200000.0, 400.0 };
    size_t i = below(COUNT(from));
    draw_real(to, odd, from[i], width[i]);
}

void draw(struct arguments *arguments, const char *letters, int tame, const size_t *most)
{
    struct places to = { arguments->number, arguments->real, arguments->slice, arguments->room };
    const struct table *table = NULL;
    const struct state *state = NULL;
    for (const char *letter = letters; *letter; letter++) {
        /* of hostile arguments about half are good, so that each test that stands behind another is reached */
        int odd = !tame && below(2);
        switch (*letter) {
        case 'y': draw_number(&to, odd, 1900, 2149, 65535); break;
        case 'm': draw_number(&to, odd, 1, 12, 65535); break;
        case 'd': draw_number(&to, odd, 1, month_days(to.number[-2], to.number[-1]), 65535); break;
        case 'n': draw_number(&to, odd, 2415021, 2506331, 4294967295u); break;
        case 'k': draw_number(&to, odd, 1, 30, 65535); break;
        case 'q': draw_number(&to, odd, 0, 5, 65535); break;
        case 'T': table = draw_table(&to, odd, tame); break;
        case 'Y': draw_number(&to, odd, table->first_year, table->first_year + table->years - 1, 65535); break;
        case 'M': draw_number(&to, odd, 1, 12, 65535); break;
        case 'D': draw_number(&to, odd, 1, 29, 65535); break;
        case 'g': draw_in_table(&to, table, tame); break;
        case 'R': *to.slice++ = draw_list(odd); break;
        case 'x': *to.slice++ = draw_text(odd); break;
        case 'b': draw_number(&to, odd, 1, 12, 255); break;
        case 's': arguments->step = (int32_t)(odd ? odd_number(4294967295u) : below(24 * table->years)) - (int32_t)(odd ? 0 : 12 * table->years); break;
        case 'i': draw_real(&to, odd, 2400000.0, 110000.0); break;
        case 'e': draw_real(&to, odd, 2400000.0, 109960.0); break;
        case 'u': draw_real(&to, odd, to.real[-1], 40.0); break;
        case 't': draw_real(&to, odd, 2399999.0, 110002.0); break;
        case 'r': draw_wide(&to, odd); break;
        case 'h':
            draw_number(&to, odd, 1, 3000, 65535);
            draw_number(&to, !tame && below(2), 1901, 2099, 65535);
            draw_number(&to, !tame && below(2), 1, 12, 65535);
            draw_number(&to, !tame && below(2), 1, month_days(to.number[-2], to.number[-1]), 65535);
            break;
        case 'K':
        case 'J':
            state = draw_state(odd, tame);
            table = &state->table;
            arguments->is_made = state->is_made;
            if (*letter == 'K') arguments->state = state->array;
            else *to.slice++ = state->array;
            break;
        case 'w': *to.slice++ = odd ? broken_rows[below(COUNT(broken_rows))] : good_rows[below(COUNT(good_rows))]; break;
        case 'B':
            *to.room++ = odd ? odd_room(*most) : *most;
            most++;
            break;
        }
    }
}

void show(const struct arguments *shown, const char *letters)
{
    const uint32_t *number = shown->number;
    const double *real = shown->real;
    const struct slice *slice = shown->slice;
    const size_t *room = shown->room;
    for (const char *letter = letters; *letter; letter++) {
        int numbers = strchr("Th", *letter) ? 4 : *letter == 'g' ? 3 : strchr("ymdnkqYMDb", *letter) != NULL;
        while (numbers-- > 0) fprintf(stderr, " %lu", (unsigned long)*number++);
        if (strchr("TRxJw", *letter)) fprintf(stderr, " (%zu lent)", (slice++)->len);
        if (*letter == 'K') fprintf(stderr, " (a state of %zu)", shown->state.len);
        if (strchr("ieutr", *letter)) fprintf(stderr, " %a", *real++);
        if (*letter == 's') fprintf(stderr, " %ld", (long)shown->step);
        if (*letter == 'B') fprintf(stderr, " (room for %zu)", *room++);
    }
    fprintf(stderr, "\n");
}
