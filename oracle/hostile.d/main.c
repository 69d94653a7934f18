/* See ../hostile. */
#define _GNU_SOURCE
#include "arguments.h"
#include "memory.h"
#include "panel.h"

#include <math.h>
#include <signal.h>
#include <stdio.h>
#include <stdlib.h>
#include <string.h>
#include <sys/wait.h>
#include <unistd.h>

/* ---- the functions */

static struct arguments a;
static struct lent places[16], buffers[2], array;

/* What is passed: a number, a real, a lent slice, a table, the array of a kept state; a place to write a u8, u16, u32, size_t or double to; a buffer. */
#define N(i) ((uint16_t)a.number[i])
#define X(i) (a.real[i])
#define S(i) a.slice[i].at, a.slice[i].len
#define HEAD N(0), N(1), N(2), N(3)
#define TABLE HEAD, S(0)
#define STATE (uint16_t *)array.at, a.state.len
#define C(i) ((uint8_t *)places[i].at)
#define H(i) ((uint16_t *)places[i].at)
#define W(i) ((uint32_t *)places[i].at)
#define Z(i) ((size_t *)places[i].at)
#define F(i) ((double *)places[i].at)
#define CB(i) (uint8_t *)buffers[i].at, a.room[i]
#define HB(i) (uint16_t *)buffers[i].at, a.room[i]
#define FB(i) (double *)buffers[i].at, a.room[i]

/* A lent buffer: the width of its elements, the most that an answer can write, and the place that tells how many times `each` were written; where `each` is 0
   every answer writes the most. */
struct buffer {
    size_t width, most, place, each;
};

static const struct buffer no_buffer[2], starts[2] = { { sizeof(double), 40, 0, 1 } }, lists[2] = { { sizeof(uint16_t), 768, 0, 2 } },
                           rules[2] = { { sizeof(uint16_t), 2560, 0, 8 } }, texts[2] = { { sizeof(uint8_t), 29120, 0, 1 } },
                           grids[2] = { { sizeof(uint16_t), 504, 7, 12 }, { sizeof(uint16_t), 768, 8, 2 } },
                           states[2] = { { sizeof(uint16_t), PANEL_KEPT, 0, 0 } };

/* The name; the letters of its arguments (arguments.h); the letters of its places: c a u8, h a u16, w a u32, z a size_t, f a double, y a u16 that is 0 or 1,
   o one that is 1 where the places behind it are written and 0 where they stay, l a size_t that refusal 12 alone writes, d a u32 that refusal 7 alone writes
   (there are two, one of which it makes 0 and the other not); its buffers; the refusals that docs/RULES.md allows; one in how many calls is tame; the call. */
#define FUNCTIONS(f) \
    f(panel_date_new, "ymd", "hhh", no_buffer, "3", 2, (N(0), N(1), N(2), H(0), H(1), H(2))) \
    f(panel_date_day_number, "ymd", "w", no_buffer, "3", 2, (N(0), N(1), N(2), W(0))) \
    f(panel_date_weekday, "ymd", "w", no_buffer, "3", 2, (N(0), N(1), N(2), W(0))) \
    f(panel_date_next, "ymd", "hhh", no_buffer, "3", 2, (N(0), N(1), N(2), H(0), H(1), H(2))) \
    f(panel_date_from_day_number, "n", "hhh", no_buffer, "3", 2, (a.number[0], H(0), H(1), H(2))) \
    f(panel_julian_day, "ymdr", "f", no_buffer, "3 8", 2, (N(0), N(1), N(2), X(0), F(0))) \
    f(panel_npt_date, "i", "hhh", no_buffer, "8 3", 2, (X(0), H(0), H(1), H(2))) \
    f(panel_check_table, "T", "", no_buffer, "1", 4, (TABLE)) \
    f(panel_bs_month_len, "TYM", "h", no_buffer, "1 4 5", 4, (TABLE, N(4), N(5), H(0))) \
    f(panel_validate_bs_date, "TYMD", "", no_buffer, "1 4 5 6", 4, (TABLE, N(4), N(5), N(6))) \
    f(panel_bs_to_ad, "TYMD", "hhh", no_buffer, "1 4 5 6", 4, (TABLE, N(4), N(5), N(6), H(0), H(1), H(2))) \
    f(panel_ad_to_bs, "Tg", "hhhdd", no_buffer, "1 3 7", 4, (TABLE, N(4), N(5), N(6), H(0), H(1), H(2), W(3), W(4))) \
    f(panel_sine, "r", "f", no_buffer, "", 2, (X(0), F(0))) \
    f(panel_cosine, "r", "f", no_buffer, "", 2, (X(0), F(0))) \
    f(panel_tangent, "r", "f", no_buffer, "", 2, (X(0), F(0))) \
    f(panel_arcsine, "r", "f", no_buffer, "", 2, (X(0), F(0))) \
    f(panel_arccosine, "r", "f", no_buffer, "", 2, (X(0), F(0))) \
    f(panel_delta_t, "r", "f", no_buffer, "", 2, (X(0), F(0))) \
    f(panel_tt_from_ut, "i", "f", no_buffer, "8", 2, (X(0), F(0))) \
    f(panel_sun_longitude, "t", "f", no_buffer, "8", 2, (X(0), F(0))) \
    f(panel_moon_longitude, "t", "f", no_buffer, "8", 2, (X(0), F(0))) \
    f(panel_elongation, "i", "f", no_buffer, "8", 2, (X(0), F(0))) \
    f(panel_tithi_of, "r", "h", no_buffer, "", 2, (X(0), H(0))) \
    f(panel_tithi_at, "i", "h", no_buffer, "8", 2, (X(0), H(0))) \
    f(panel_tithi_starts_between, "keuB", "zz", starts, "8 11 9", 50, (N(0), X(0), X(1), FB(0), Z(0), Z(1))) \
    f(panel_tithi_end, "e", "of", no_buffer, "8", 10, (X(0), H(0), F(1))) \
    f(panel_sun_events, "ymd", "off", no_buffer, "3", 2, (N(0), N(1), N(2), H(0), F(1), F(2))) \
    f(panel_sunrise, "ymd", "of", no_buffer, "3", 2, (N(0), N(1), N(2), H(0), F(1))) \
    f(panel_sunset, "ymd", "of", no_buffer, "3", 2, (N(0), N(1), N(2), H(0), F(1))) \
    f(panel_nishita_window, "ymd", "off", no_buffer, "3", 2, (N(0), N(1), N(2), H(0), F(1), F(2))) \
    f(panel_kala_instant, "ymdq", "of", no_buffer, "2 3", 2, (N(0), N(1), N(2), N(3), H(0), F(1))) \
    f(panel_npt_clock, "i", "h", no_buffer, "8", 2, (X(0), H(0))) \
    f(panel_minutes_of, "r", "h", no_buffer, "", 2, (X(0), H(0))) \
    f(panel_reading, "ymd", "hhhh", no_buffer, "3", 10, (N(0), N(1), N(2), H(0), H(1), H(2), H(3))) \
    f(panel_check_rules, "R", "", no_buffer, "2", 4, (S(0))) \
    f(panel_read_rules, "xB", "zl", rules, "12 2 9", 4, (S(0), HB(0), Z(0), Z(1))) \
    f(panel_write_rules, "RB", "z", texts, "2 9", 4, (S(0), CB(0), Z(0))) \
    f(panel_festivals_on, "TRYMDB", "z", lists, "1 2 4 5 6 9", 200, (TABLE, S(1), N(4), N(5), N(6), HB(0), Z(0))) \
    f(panel_festivals_on_ad, "TRgB", "zdd", lists, "1 2 3 7 9", 200, (TABLE, S(1), N(4), N(5), N(6), HB(0), Z(0), W(1), W(2))) \
    f(panel_is_holiday, "TRYMD", "y", no_buffer, "1 2 4 5 6", 200, (TABLE, S(1), N(4), N(5), N(6), H(0))) \
    f(panel_step_month, "TYbs", "hc", no_buffer, "1 10", 4, (TABLE, N(4), (uint8_t)a.number[5], a.step, H(0), C(1))) \
    f(panel_month_grid, "TRymdYMBB", "hhhhhhhzz", grids, "1 2 3 4 5 9", 500, \
      (TABLE, S(1), N(4), N(5), N(6), N(7), N(8), HB(0), HB(1), H(0), H(1), H(2), H(3), H(4), H(5), H(6), Z(7), Z(8))) \
    f(panel_kept_start, "hB", "", states, "1 9", 2, (HEAD, HB(0))) \
    f(panel_kept_take_rules, "KR", "", no_buffer, "9 2", 4, (STATE, S(0))) \
    f(panel_kept_forget, "K", "", no_buffer, "9", 4, (STATE)) \
    f(panel_kept_stored, "J", "hhh", no_buffer, "9", 4, (S(0), H(0), H(1), H(2))) \
    f(panel_kept_bs_to_ad, "JYMD", "hhh", no_buffer, "9 13 4 5 6", 4, (S(0), N(0), N(1), N(2), H(0), H(1), H(2))) \
    f(panel_kept_ad_to_bs, "Jg", "hhhdd", no_buffer, "9 13 3 7", 4, (S(0), N(0), N(1), N(2), H(0), H(1), H(2), W(3), W(4))) \
    f(panel_kept_append_row, "Kw", "", no_buffer, "9 1", 200, (STATE, S(0))) \
    f(panel_kept_festivals_on, "KYMDB", "z", lists, "9 13 4 5 6", 200, (STATE, N(0), N(1), N(2), HB(0), Z(0))) \
    f(panel_kept_festivals_on_ad, "KgB", "zdd", lists, "9 13 3 7", 200, (STATE, N(0), N(1), N(2), HB(0), Z(0), W(1), W(2))) \
    f(panel_kept_month_grid, "KymdYMBB", "hhhhhhhzz", grids, "9 13 3 4 5", 200, \
      (STATE, N(0), N(1), N(2), N(3), N(4), HB(0), HB(1), H(0), H(1), H(2), H(3), H(4), H(5), H(6), Z(7), Z(8)))

struct function {
    const char *name, *letters, *places;
    const struct buffer *buffers;
    const char *refusals;
    unsigned tame;
    uint16_t (*call)(void);
};

/* Functions that break what is promised, each in one way: --self-test sees that each is noticed. */
#define BROKEN(f) \
    f(broken_refusal, "ymd", "h", no_buffer, "3", 2, (N(0), H(0))) \
    f(broken_place, "ymd", "h", no_buffer, "3", 2, (N(0), H(0))) \
    f(broken_none, "ymd", "oh", no_buffer, "3", 2, (H(0), H(1))) \
    f(broken_answer, "ymd", "h", no_buffer, "3", 2, (H(0))) \
    f(broken_yes, "ymd", "y", no_buffer, "3", 2, (H(0))) \
    f(broken_guard, "kB", "z", starts, "8 9", 2, (FB(0), Z(0))) \
    f(broken_room, "kB", "z", starts, "8 9", 2, (FB(0), Z(0))) \
    f(broken_rest, "kB", "z", starts, "8 9", 2, (FB(0), Z(0))) \
    f(broken_quiet, "kB", "z", starts, "8 9", 2, (FB(0))) \
    f(broken_payload, "kB", "z", starts, "8 9", 2, (FB(0))) \
    f(broken_line, "x", "l", no_buffer, "12 2 9", 2, (Z(0))) \
    f(broken_told, "x", "l", no_buffer, "12 2 9", 2, (Z(0))) \
    f(broken_outside, "ymd", "dd", no_buffer, "3 7", 2, (W(0), W(1))) \
    f(broken_distance, "ymd", "dd", no_buffer, "3 7", 2, (W(0), W(1))) \
    f(broken_sides, "ymd", "dd", no_buffer, "3 7", 2, (W(0), W(1))) \
    f(broken_zero, "ymd", "dd", no_buffer, "3 7", 2, (W(0), W(1))) \
    f(broken_sign, "i", "f", no_buffer, "8", 2, (F(0))) \
    f(broken_read, "TYM", "h", no_buffer, "1 4 5", 2, (S(0), H(0))) \
    f(broken_write, "TYM", "h", no_buffer, "1 4 5", 2, (S(0), H(0))) \
    f(broken_start, "hB", "", states, "1 9", 2, (HB(0))) \
    f(broken_state, "K", "", no_buffer, "9 2", 2, (STATE)) \
    f(broken_behind, "K", "", no_buffer, "9 2", 2, (STATE)) \
    f(broken_past, "K", "", no_buffer, "9 2", 2, (STATE)) \
    f(broken_short, "K", "", no_buffer, "9 2", 2, (STATE)) \
    f(broken_late, "KR", "", no_buffer, "9 2", 2, (STATE)) \
    f(broken_long, "K", "", no_buffer, "9 2", 2, (STATE)) \
    f(broken_table, "J", "", no_buffer, "9", 2, (S(0))) \
    f(broken_memory, "K", "", no_buffer, "9", 2, (STATE))

/* refuses with a number of another call */
static uint16_t broken_refusal(uint16_t year, uint16_t *out)
{
    *out = year;
    return year < 1900 ? 7 : 0;
}

/* writes and refuses */
static uint16_t broken_place(uint16_t year, uint16_t *out)
{
    *out = year;
    return year < 1900 ? 3 : 0;
}

/* writes what there is not */
static uint16_t broken_none(uint16_t *found, uint16_t *out)
{
    *found = 0;
    *out = 1;
    return 0;
}

/* leaves a place that belongs to its answer */
static uint16_t broken_answer(uint16_t *out)
{
    (void)out;
    return 0;
}

/* says neither yes nor no */
static uint16_t broken_yes(uint16_t *out)
{
    *out = 2;
    return 0;
}

/* writes in front of its buffer */
static uint16_t broken_guard(double *out, size_t len, size_t *count)
{
    out[-1] = 1.0;
    *count = 0 * len;
    return 0;
}

/* writes one element more than there is room for */
static uint16_t broken_room(double *out, size_t len, size_t *count)
{
    for (size_t i = 0; i < 4; i++) out[i] = 1.0;
    *count = len < 4 ? len : 4;
    return 0;
}

/* writes one element more than it answers */
static uint16_t broken_rest(double *out, size_t len, size_t *count)
{
    if (len < 5) return 9;
    for (size_t i = 0; i < 5; i++) out[i] = 1.0;
    *count = 4;
    return 0;
}

/* refuses, and makes each NaN of its buffer a quiet one: the sum of a NaN and a number is quiet, any other number is itself */
static uint16_t broken_quiet(double *out, size_t len)
{
    for (size_t i = 0; i < len; i++) out[i] += 0.0;
    return 9;
}

/* refuses, and writes a NaN of its own over the last of its buffer where that is one */
static uint16_t broken_payload(double *out, size_t len)
{
    if (len > 0 && isnan(out[len - 1])) out[len - 1] = copysign(NAN, out[len - 1]);
    return 9;
}

/* refuses with another number than 12, and writes a line */
static uint16_t broken_line(size_t *line)
{
    *line = 1;
    return 2;
}

/* refuses with 12, and writes no line */
static uint16_t broken_told(size_t *line)
{
    (void)line;
    return 12;
}

/* refuses with another number than 7, and tells a distance */
static uint16_t broken_outside(uint32_t *before, uint32_t *after)
{
    *before = 0;
    *after = 1;
    return 3;
}

/* refuses with 7, and tells no distance */
static uint16_t broken_distance(uint32_t *before, uint32_t *after)
{
    (void)before;
    (void)after;
    return 7;
}

/* refuses with 7, and tells a distance on both sides */
static uint16_t broken_sides(uint32_t *before, uint32_t *after)
{
    *before = *after = 1;
    return 7;
}

/* refuses with 7, and tells a distance of 0 */
static uint16_t broken_zero(uint32_t *before, uint32_t *after)
{
    *before = *after = 0;
    return 7;
}

/* refuses, and turns the sign of a NaN */
static uint16_t broken_sign(double *out)
{
    if (isnan(*out)) *out = -*out;
    return 8;
}

/* reads past a slice */
static uint16_t broken_read(const uint16_t *rows, size_t len, uint16_t *out)
{
    *out = ((const volatile uint16_t *)rows)[len];
    return 0;
}

/* writes to what is only to be read */
static uint16_t broken_write(const uint16_t *rows, size_t len, uint16_t *out)
{
    if (len > 0) ((uint16_t *)rows)[0] = 0;
    *out = 0;
    return 0;
}

/* starts a state, and leaves a number of the array */
static uint16_t broken_start(uint16_t *state, size_t len)
{
    if (len < PANEL_KEPT) return 9;
    memset(state, 0, (PANEL_KEPT - 1) * sizeof *state);
    return 0;
}

/* refuses, and changes the array */
static uint16_t broken_state(uint16_t *state, size_t len)
{
    if (len < PANEL_KEPT) return 9;
    state[PANEL_KEPT - 1] ^= 1;
    return 2;
}

/* answers, and changes what is behind the state */
static uint16_t broken_behind(uint16_t *state, size_t len)
{
    if (len < PANEL_KEPT) return 9;
    if (len > PANEL_KEPT) state[PANEL_KEPT] ^= 1;
    return 0;
}

/* answers, and writes past the array */
static uint16_t broken_past(uint16_t *state, size_t len)
{
    if (len < PANEL_KEPT) return 9;
    state[len] ^= 1;
    return 0;
}

/* answers over an array that is too short */
static uint16_t broken_short(uint16_t *state, size_t len)
{
    (void)state;
    return len + 1 < PANEL_KEPT ? 9 : 0;
}

/* refuses an array that is too short with another number */
static uint16_t broken_late(uint16_t *state, size_t len)
{
    (void)state;
    return len < PANEL_KEPT ? 2 : 0;
}

/* refuses an array with room for a state as too short */
static uint16_t broken_long(uint16_t *state, size_t len)
{
    (void)state;
    return len <= PANEL_KEPT ? 9 : 0;
}

/* refuses a state that the calls have made with a number that only another array may get */
static uint16_t broken_table(const uint16_t *state, size_t len)
{
    if (len < PANEL_KEPT) return 9;
    return state[6] > 0 ? 1 : 0;
}

/* leaves another state each time */
static uint16_t broken_memory(uint16_t *state, size_t len)
{
    static uint16_t calls;
    if (len < PANEL_KEPT) return 9;
    state[7] = calls++;
    return 0;
}

#define DEFINED(name, letters, places, buffers, refusals, tame, passed) \
    static uint16_t call_##name(void) { return name passed; }
#define LISTED(name, letters, places, buffers, refusals, tame, passed) { #name, letters, places, buffers, refusals, tame, call_##name },

FUNCTIONS(DEFINED)
BROKEN(DEFINED)
static const struct function functions[] = { FUNCTIONS(LISTED) }, broken[] = { BROKEN(LISTED) };

/* ---- one call, and what must hold after it */

static const struct function *function;

static void failed(const char *what)
{
    fprintf(stderr, "hostile: %s %s:", function->name, what);
    show(&a, function->letters);
    exit(1);
}

static void fault(int number)
{
    fprintf(stderr, "hostile: signal %d\n", number);
    failed("faults");
}

static size_t width_of(char place)
{
    return place == 'c'           ? sizeof(uint8_t)
           : strchr("wd", place) ? sizeof(uint32_t)
           : strchr("zl", place) ? sizeof(size_t)
           : place == 'f'        ? sizeof(double)
                                 : sizeof(uint16_t);
}

/* Whether the call takes a kept state, and one that it may change. */
static int changes_state(void)
{
    return strchr(function->letters, 'K') != NULL;
}

static int has_state(void)
{
    return changes_state() || strchr(function->letters, 'J') != NULL;
}

static unsigned long made; /* calls in all */

/* Calls it over a guard byte. What is lent for doubles holds NaNs in every other call or so. */
static uint16_t call(unsigned char fill)
{
    uint64_t (*reals)(void) = below(2) ? nan_bits : NULL;
    made++;
    for (size_t i = 0; function->places[i]; i++)
        lend(&places[i], width_of(function->places[i]), (int)below(2), fill, function->places[i] == 'f' ? reals : NULL);
    for (size_t i = 0; i < 2 && function->buffers[i].width > 0; i++) {
        size_t width = function->buffers[i].width;
        lend(&buffers[i], a.room[i] * width, (int)below(2), fill, width == sizeof(double) ? reals : NULL);
    }
    if (changes_state()) lend_copy(&array, a.state.at, a.state.len * sizeof(uint16_t), (int)below(2), fill);
    return function->call();
}

/* Whether a refusal is one of those that are allowed: of an array that is no kept state the table and the rules too may be refused. */
static int allowed(uint16_t code)
{
    char *rest;
    if (has_state() && !a.is_made && (code == 1 || code == 2)) return 1;
    for (const char *at = function->refusals; *at; at = rest)
        if (strtoul(at, &rest, 10) == code) return 1;
    return 0;
}

/* Whether 9 is right about a kept state's array: it comes where the array is too short, and else only for want of room in a buffer. */
static int is_room_right(uint16_t code)
{
    size_t len = changes_state() ? a.state.len : a.slice[0].len;
    return len < PANEL_KEPT ? code == 9 : code != 9 || function->buffers[0].width > 0;
}

/* Whether there is something: each answer says so but one whose first place says that there is nothing. */
static int is_found(uint16_t code)
{
    return code == 0 && !(function->places[0] == 'o' && *H(0) == 0);
}

/* Whether a place is written: a line's with 12 alone, a distance's with 7 alone, the one that says whether there is something with each answer, any other
   where there is. */
static int is_written(size_t i, uint16_t code)
{
    char place = function->places[i];
    return place == 'l' ? code == 12 : place == 'd' ? code == 7 : place == 'o' ? code == 0 : is_found(code);
}

/* Whether one of the two distances is 0 and the other is not, or the call has none. */
static int is_on_one_side(void)
{
    const char *first = strchr(function->places, 'd');
    size_t i = first ? (size_t)(first - function->places) : 0;
    return !first || (*W(i) == 0) != (*W(i + 1) == 0);
}

/* The bytes that an answer has written to a buffer. */
static size_t written(size_t i)
{
    const struct buffer *buffer = &function->buffers[i];
    return (buffer->each > 0 ? *Z(buffer->place) * buffer->each : buffer->most) * buffer->width;
}

/* The bytes of a kept state's array that an answer may change. */
static size_t changed(uint16_t code)
{
    return code == 0 ? PANEL_KEPT * sizeof(uint16_t) : 0;
}

static void check(uint16_t code)
{
    if (code != 0 && !allowed(code)) failed("refuses with a number that is not allowed");
    for (size_t i = 0; function->places[i]; i++) {
        if (!untouched(&places[i], is_written(i, code) ? places[i].bytes : 0)) failed("changes a place that it must leave");
        if (code == 0 && strchr("oy", function->places[i]) && *H(i) > 1) failed("says neither 0 nor 1");
    }
    if (code == 7 && !is_on_one_side()) failed("tells a distance on no side or on both");
    for (size_t i = 0; i < 2 && function->buffers[i].width > 0; i++) {
        if (code == 0 && written(i) > buffers[i].bytes) failed("answers more than there is room for");
        if (!untouched(&buffers[i], code == 0 ? written(i) : 0)) failed("changes a buffer past its answer");
    }
    if (has_state() && !is_room_right(code)) failed("takes an array that is too short, or refuses one that is not");
    if (changes_state() && !untouched(&array, changed(code))) failed("changes a kept state on a refusal, or what is not of it");
}

/* What an answer or a refusal has written, all places and buffers and the kept state one after the other. */
static size_t outcome(uint16_t code, unsigned char *to)
{
    unsigned char *at = to;
    for (size_t i = 0; function->places[i]; i++)
        if (is_written(i, code)) {
            memcpy(at, places[i].at, places[i].bytes);
            at += places[i].bytes;
        }
    for (size_t i = 0; code == 0 && i < 2 && function->buffers[i].width > 0; at += written(i), i++) memcpy(at, buffers[i].at, written(i));
    if (changes_state()) {
        memcpy(at, array.at, changed(code));
        at += changed(code);
    }
    return (size_t)(at - to);
}

/* The same once more over other bytes: the same answer, written in full. */
static void call_again(uint16_t code, unsigned char fill)
{
    static unsigned char before[1 << 20], after[1 << 20];
    size_t length = outcome(code, before);
    uint16_t now = call(fill);
    check(now);
    if (now != code || outcome(now, after) != length || memcmp(before, after, length) != 0) failed("answers the same question in two ways");
}

/* Once more with just enough room in each buffer, and with one element less. */
static void call_exact(void)
{
    size_t room[2] = { a.room[0], a.room[1] };
    for (size_t i = 0; i < 2 && function->buffers[i].width > 0; i++) a.room[i] = written(i) / function->buffers[i].width;
    call_again(0, 0x3c);
    for (size_t i = 0; i < 2 && function->buffers[i].width > 0; i++) {
        if (a.room[i] == 0) continue;
        a.room[i]--;
        if (call(0xc3) != 9) failed("does not miss an element of room");
        check(9);
        a.room[i]++;
        if (call(0xc3) != 0) failed("misses room");
    }
    a.room[0] = room[0];
    a.room[1] = room[1];
}

/* ---- all calls */

static void drive(unsigned long calls)
{
    unsigned long answered = 0, none = 0, refused[16] = { 0 };
    size_t most[2] = { function->buffers[0].most, function->buffers[1].most };
    for (unsigned long n = 0; n < calls; n++) {
        unsigned char fill = n % 2 ? 0xa5 : 0x5a;
        uint16_t code;
        draw(&a, function->letters, below(function->tame) == 0, most);
        code = call(fill);
        check(code);
        if (code != 0) refused[code]++;
        else if (is_found(code)) answered++;
        else none++;
        if (below(8) == 0) {
            call_again(code, (unsigned char)~fill);
            if (code == 0 && function->buffers[0].width > 0) call_exact();
        }
    }
    printf("%-28s %8lu calls, %lu with those made again; %lu answered", function->name, calls, made, answered);
    if (function->places[0] == 'o') printf(", %lu none", none);
    for (unsigned k = 1; k < 16; k++)
        if (refused[k] > 0) printf(", %lu refused with %u", refused[k], k);
    printf("\n");
    fflush(stdout);
}

static unsigned long setting(const char *name, unsigned long otherwise)
{
    const char *text = getenv(name);
    return text ? strtoul(text, NULL, 10) : otherwise;
}

/* Drives each broken function in a process of its own, which must fail. */
static int self_test(void)
{
    int missed = 0;
    for (size_t i = 0; i < sizeof broken / sizeof *broken; i++) {
        int status = 0;
        pid_t child = fork();
        if (child == 0) {
            function = &broken[i];
            drive(1000);
            _exit(0);
        }
        waitpid(child, &status, 0);
        if (WIFEXITED(status) && WEXITSTATUS(status) == 0) {
            printf("hostile: %s is not noticed\n", broken[i].name);
            missed++;
        }
    }
    printf("hostile: of %zu broken functions %d are not noticed\n", sizeof broken / sizeof *broken, missed);
    return missed > 0;
}

/* Its one argument: a function to drive; or --names, which lists them; or --self-test. */
int main(int count, char **words)
{
    const size_t all = sizeof functions / sizeof *functions;
    const char *asked = count == 2 ? words[1] : "";
    size_t i = 0;
    if (strcmp(asked, "--names") == 0) {
        for (; i < all; i++) puts(functions[i].name);
        return 0;
    }
    for (int number = 1; number < 32; number++)
        if (number == SIGSEGV || number == SIGBUS || number == SIGFPE || number == SIGILL || number == SIGABRT) signal(number, fault);
    for (size_t k = 0; k < sizeof places / sizeof *places; k++) reserve(&places[k], 1);
    for (size_t k = 0; k < 2; k++) reserve(&buffers[k], (size_t)1 << 19);
    reserve(&array, (size_t)1 << 14);
    while (i < all && strcmp(asked, functions[i].name) != 0) i++;
    prepare(setting("HOSTILE_SEED", 1) + i);
    if (strcmp(asked, "--self-test") == 0) {
        prepare_states();
        return self_test();
    }
    if (i == all) {
        fprintf(stderr, "hostile: no function of include/panel.h: %s\n", asked);
        return 2;
    }
    function = &functions[i];
    if (has_state()) prepare_states();
    drive(setting("HOSTILE_CALLS", 1000000));
    return 0;
}
