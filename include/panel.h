/*
 * The calendar engine for C and C++.
 *
 * Link target/staticlib/libpanel.a, which `scripts/build panel` writes (x86-64): of other code the engine calls memcpy and memset alone.
 * It has no heap, no state of its own and no threads, and each call ends.
 *
 * Every call answers 0 and writes what was asked for, or answers the number of a refusal and writes nothing; but 7 writes by how many days a date lies outside
 * the table, and 12 the number of a line, each to places of its own, which every other number leaves as they were, 0 too:
 *
 *    1  the year table breaks a rule             7  a Gregorian day before the first or after the last day of the table
 *    2  a festival rule breaks a rule            8  an instant out of range or no number; a tithi not 1 to 30
 *    3  no such Gregorian date in 1900 to 2149   9  a lent buffer is shorter than the answer, or a kept state than PANEL_KEPT
 *    4  the BS year is not in the table         10  a month step that leaves the table
 *    5  the BS month is not 1 to 12             11  a search not ended after 1,024 steps
 *    6  the BS day is 0 or past the month       12  a line of a rule file is out of form
 *                                               13  a question to a kept state that holds no row yet
 *
 * Each comment names the refusals that its call can meet, in the order in which they are tested.
 *
 * Pointers: each must be valid for what it points to, aligned, and not null, also where a length is 0. What a call writes must overlap nothing else that
 * is lent to the same call. A pointer to const may be shared. A length counts elements, not bytes. Of a buffer the elements past the answer stay.
 *
 * An instant (ut) is a Julian day of universal time, from 2400000.0 to 2510000.0. A day of terrestrial time (tt) is from 2399999.0 to 2510001.0, and
 * panel_tt_from_ut makes it of an instant. Minutes are of the clock in Nepal, 0 to 1,439.
 *
 * A year table is lent as its first BS year (1 to 3,000), the Gregorian date of its first day, and rows: for each year thirteen numbers, twelve month
 * lengths of 29 to 32 days and their sum. rows_len is 13 times the number of years, of which there are 1 to 128. Days lie in 1901 to 2099.
 *
 * Festival rules are lent as rules: for each eight numbers, kind, year, month, day, half, kala, name, holiday. Kind 1 is a BS date (day 1 to 32), 2 a
 * Gregorian date (day 1 to 31), 3 a tithi (day 1 to 15) of the half 0 waxing or 1 waning of a lunar month at a kala, 4 a date of one BS year (day 1 to 32)
 * that silences the computed rules of its name in that year. Months are 1 to 12, holiday is 0 or 1, names are free; year is 0 but of kind 4, half and kala are
 * 0 but of kind 3. rules_len is 8 times the number of rules: at most 64 of each of the kinds 1 to 3 and 128 of kind 4; no rule at all is good.
 * Kalas: 0 sunrise, 1 midday, 2 afternoon, 3 dusk, 4 the middle of the night (nishita), 5 the tithi's beginning.
 *
 * A kept state is an array of the caller's, PANEL_KEPT numbers or more, that panel_kept_start makes and every other panel_kept call takes: it holds a year
 * table, festival rules, and the festivals worked out for the one or two BS years of the last answered question, so that the next question on these years
 * is answered without working them out again; the answer is the same. A call that answers leaves in the array the state after it, and one that refuses leaves
 * every number of the array. What stands behind the first PANEL_KEPT numbers is never read or written. Its numbers are for these calls alone; a copy of the
 * first PANEL_KEPT of them is a kept state of its own.
 *
 * What C cannot tell apart and a caller must not mix up; a call that gets the wrong one may well answer:
 *
 *  - A UT day and a TT day: both are double, and each instant is in the range of tt too. panel_sun_longitude and panel_moon_longitude take tt; panel_delta_t
 *    takes a year; all other calls on a moment take ut. TT less UT is from -1,160 to 356 seconds in range and goes through zero: on 30 December 1901 both are
 *    the same number for some 16 minutes. So no test on a number tells which of the two it is.
 *  - A BS date and a Gregorian date: both are a year, a month and a day, and years of 1900 to 2149 can be either. Each comment says which is taken.
 *    panel_month_grid takes today as a Gregorian date and the month it shows as a BS year and month.
 *  - Year, month and day among themselves: always in this order. 5 June and 6 May are both dates.
 *  - A length and a size: a length counts elements, so sizeof a / sizeof *a and never sizeof a alone. Too large a length lets a call read or write past
 *    what is lent. So state_len is PANEL_KEPT and never sizeof state, which is twice that.
 *  - A count and a length: count and festival_count count festivals, of two numbers each, and cell_count counts cells, of twelve. Festival i, from 0, is at
 *    festivals[2 * i] and festivals[2 * i + 1]; a buffer for n of them has the length 2 * n. In panel_read_rules count counts rules, of eight numbers each, and
 *    in panel_kept_stored it counts years.
 *  - A day number and an instant: the number of panel_date_day_number is the day's noon; its 0h is the instant half a day before.
 *  - Radians and degrees: sine, cosine, tangent and the arcs are in radians, all else in degrees.
 *  - Minute 0 and none: 0 is midnight, 1,440 is none.
 *  - In panel_step_month, month is a byte: C cuts a larger number silently, and 257 comes as 1.
 *  - A kept state and any other array: no number in it says that panel_kept_start made it, or that nothing but these calls wrote to it since. On another
 *    array a call ends and reads and writes inside what is lent alone, but what it answers and leaves there is open.
 *
 * Of a float that is no number (NaN) sign and payload are not promised, in an answer or in a place that a call leaves.
 */
#ifndef PANEL_H
#define PANEL_H

#include <stddef.h>
#include <stdint.h>

#ifdef __cplusplus
extern "C" {
#endif

/* ---- Gregorian dates */

/* Whether three numbers are a date; if so, the same three. Refusal: 3. */
uint16_t panel_date_new(uint16_t year, uint16_t month, uint16_t day, uint16_t *date_year, uint16_t *date_month, uint16_t *date_day);

/* The Julian day number of a date's noon: 2,415,021 for 1900-01-01. Refusal: 3. */
uint16_t panel_date_day_number(uint16_t year, uint16_t month, uint16_t day, uint32_t *number);

/* The day of the week of a date, 0 for Sunday to 6 for Saturday. Refusal: 3. */
uint16_t panel_date_weekday(uint16_t year, uint16_t month, uint16_t day, uint32_t *weekday);

/* The day after a date. Refusal: 3, also for 2149-12-31. */
uint16_t panel_date_next(uint16_t year, uint16_t month, uint16_t day, uint16_t *next_year, uint16_t *next_month, uint16_t *next_day);

/* The date of a day number. Refusal: 3. */
uint16_t panel_date_from_day_number(uint32_t number, uint16_t *year, uint16_t *month, uint16_t *day);

/* The instant of a date at a fraction of the day, which may be any number: 0.0 is 0h. Refusals: 3, 8 (the sum is no instant). */
uint16_t panel_julian_day(uint16_t year, uint16_t month, uint16_t day, double fraction, double *ut);

/* The date in Nepal at an instant. Refusals: 8, 3. */
uint16_t panel_npt_date(double ut, uint16_t *year, uint16_t *month, uint16_t *day);

/* ---- Bikram Sambat dates, over a lent year table */

/* Whether a year table is accepted: 0 if it is. Every other call that takes a table tests it too. Refusal: 1. */
uint16_t panel_check_table(uint16_t first_year, uint16_t first_ad_year, uint16_t first_ad_month, uint16_t first_ad_day, const uint16_t *rows,
                           size_t rows_len);

/* The number of days of a month. Refusals: 1, 4, 5. */
uint16_t panel_bs_month_len(uint16_t first_year, uint16_t first_ad_year, uint16_t first_ad_month, uint16_t first_ad_day, const uint16_t *rows,
                            size_t rows_len, uint16_t year, uint16_t month, uint16_t *days);

/* Whether there is such a BS date: 0 if there is. Refusals: 1, 4, 5, 6. */
uint16_t panel_validate_bs_date(uint16_t first_year, uint16_t first_ad_year, uint16_t first_ad_month, uint16_t first_ad_day, const uint16_t *rows,
                                size_t rows_len, uint16_t year, uint16_t month, uint16_t day);

/* The Gregorian date of a BS date. Refusals: 1, 4, 5, 6. */
uint16_t panel_bs_to_ad(uint16_t first_year, uint16_t first_ad_year, uint16_t first_ad_month, uint16_t first_ad_day, const uint16_t *rows,
                        size_t rows_len, uint16_t year, uint16_t month, uint16_t day, uint16_t *ad_year, uint16_t *ad_month, uint16_t *ad_day);

/* The BS date of a Gregorian date. With 7, and only then, days_before gets how many days the date lies before the first day of the table and days_after 0, or
   days_before 0 and days_after how many days it lies after the last: one of the two is 1 or more. Refusals: 1, 3, 7. */
uint16_t panel_ad_to_bs(uint16_t first_year, uint16_t first_ad_year, uint16_t first_ad_month, uint16_t first_ad_day, const uint16_t *rows,
                        size_t rows_len, uint16_t year, uint16_t month, uint16_t day, uint16_t *bs_year, uint16_t *bs_month, uint16_t *bs_day,
                        uint32_t *days_before, uint32_t *days_after);

/* ---- Trigonometry, in radians, on every number; none of these refuses */

/* The sine of x, from -1 to 1; 0.0 past 100,000 radians either way or for no number. */
uint16_t panel_sine(double x, double *value);

/* The cosine of x, from -1 to 1; 0.0 past 100,000 radians either way or for no number. */
uint16_t panel_cosine(double x, double *value);

/* The tangent of x: sine over cosine; no number where both are 0.0. */
uint16_t panel_tangent(double x, double *value);

/* The angle whose sine is x; 0.0 past -1 to 1 or for no number. */
uint16_t panel_arcsine(double x, double *value);

/* The angle from 0 to pi whose cosine is x; 0.0 past -1 to 1 or for no number. */
uint16_t panel_arccosine(double x, double *value);

/* ---- Time, sun, moon and tithis. Angles are in degrees */

/* Terrestrial time less universal time in a year, such as 2026.5, in seconds. It refuses nothing. */
uint16_t panel_delta_t(double year, double *seconds);

/* The day of terrestrial time at an instant. Refusal: 8. */
uint16_t panel_tt_from_ut(double ut, double *tt);

/* The longitude of the sun on a day of terrestrial time. Refusal: 8. */
uint16_t panel_sun_longitude(double tt, double *degrees);

/* The longitude of the moon on a day of terrestrial time. Refusal: 8. */
uint16_t panel_moon_longitude(double tt, double *degrees);

/* The moon's elongation from the sun at an instant. Refusal: 8. */
uint16_t panel_elongation(double ut, double *degrees);

/* The tithi of an elongation, 1 to 30. It refuses nothing. */
uint16_t panel_tithi_of(double degrees, uint16_t *tithi);

/* The tithi that runs at an instant, 1 to 30. Refusal: 8. */
uint16_t panel_tithi_at(double ut, uint16_t *tithi);

/* Every instant from one on and before another at which a tithi (1 to 30) begins, at the front of starts; how many there are, and how many steps of 0.75
   days were walked. There are at most 1,024, which is proved. A tithi begins about every 29.5 days, so starts_len 14 should serve a year and 27 the longest
   window that is answered, of 768 days; this is not proved, and what is too short gets 9. Refusals: 8, 11, 9. */
uint16_t panel_tithi_starts_between(uint16_t tithi, double from, double to, double *starts, size_t starts_len, size_t *count, size_t *steps);

/* Where the tithi that runs at an instant ends. found gets 1; or 0 where it does not end in 2.5 days, and end stays. Refusal: 8, also where 2.5 days on
   are no instant. */
uint16_t panel_tithi_end(double ut, uint16_t *found, double *end);

/* ---- Sun times over Kathmandu, the clock, a date's reading */

/* Sunrise and sunset on a date. found gets 1; or 0 where there are none, and rise and set stay. Refusal: 3. */
uint16_t panel_sun_events(uint16_t year, uint16_t month, uint16_t day, uint16_t *found, double *rise, double *set);

/* Sunrise on a date. found gets 1; or 0 where there is none, and ut stays. Refusal: 3. */
uint16_t panel_sunrise(uint16_t year, uint16_t month, uint16_t day, uint16_t *found, double *ut);

/* Sunset on a date. found gets 1; or 0 where there is none, and ut stays. Refusal: 3. */
uint16_t panel_sunset(uint16_t year, uint16_t month, uint16_t day, uint16_t *found, double *ut);

/* The beginning and the end of nishita in the night that follows a date. found gets 1; or 0 where there is none, and from and to stay. Refusal: 3, also
   for 2149-12-31. */
uint16_t panel_nishita_window(uint16_t year, uint16_t month, uint16_t day, uint16_t *found, double *from, double *to);

/* The instant of a kala (0 to 5, as in a rule) on a date: of nishita the middle, of 5 sunrise. found gets 1; or 0 where there is none, and ut stays.
   Refusals: 2 (no such kala), 3, of nishita also for 2149-12-31. */
uint16_t panel_kala_instant(uint16_t year, uint16_t month, uint16_t day, uint16_t kala, uint16_t *found, double *ut);

/* The minute of the clock in Nepal at an instant. Refusal: 8. */
uint16_t panel_npt_clock(double ut, uint16_t *minutes);

/* The minutes of a fraction of the day, rounded, half upward, modulo 1,440. It refuses nothing. */
uint16_t panel_minutes_of(double fraction, uint16_t *minutes);

/* What a calendar prints under a date: the tithi that names the day, 1 to 30, and the minutes at which it ends, the sun rises and the sun sets; 1,440 for
   what does not happen on that date. Refusal: 3. */
uint16_t panel_reading(uint16_t year, uint16_t month, uint16_t day, uint16_t *tithi, uint16_t *end, uint16_t *sunrise, uint16_t *sunset);

/* ---- Festivals, over a lent year table and lent rules */

/* Whether rules are accepted: 0 if they are. Every other call that takes rules tests them too. Refusal: 2. */
uint16_t panel_check_rules(const uint16_t *rules, size_t rules_len);

/* The rules of a text file at the front of rules, eight numbers each; count gets how many rules there are. The text is eight lines a rule, in this order:
   kind=, year=, month=, day=, half=, kala=, name=, holiday=, each with a decimal number of at most 65,535 without leading zeros and a line feed, and nothing
   else; it may be empty and of any length, and needs no byte 0 behind it. With 12 line gets the number of the first line that is out of form, from 1, or of
   the line after the last where the text ends inside a rule; an answer and every other refusal leave it. rules_len 2,560 serves every file: more than 320
   rules are not accepted, which is proved. Refusals: 12, 2, 9. */
uint16_t panel_read_rules(const uint8_t *text, size_t text_len, uint16_t *rules, size_t rules_len, size_t *count, size_t *line);

/* The text file of rules at the front of text, as panel_read_rules reads it; bytes gets how many bytes it has, and no byte 0 is written behind them. A rule
   takes at most 91 bytes, so text_len 29,120 should serve all rules; this is argued and not proved, and what is too short gets 9. Refusals: 2, 9. */
uint16_t panel_write_rules(const uint16_t *rules, size_t rules_len, uint8_t *text, size_t text_len, size_t *bytes);

/* The festivals of a BS date at the front of festivals, two numbers each: name, holiday; count gets how many there are. festivals_len 768 serves every day:
   there are at most 384, which is proved. A Saturday is a holiday by itself, but no list has an entry for that: a Saturday's list may be empty.
   Refusals: 1, 2, 4, 5, 6, 9. */
uint16_t panel_festivals_on(uint16_t first_year, uint16_t first_ad_year, uint16_t first_ad_month, uint16_t first_ad_day, const uint16_t *rows,
                            size_t rows_len, const uint16_t *rules, size_t rules_len, uint16_t year, uint16_t month, uint16_t day, uint16_t *festivals,
                            size_t festivals_len, size_t *count);

/* The festivals of a Gregorian date, likewise; with 7 days_before and days_after as in panel_ad_to_bs. Refusals: 1, 2, 3, 7, 9. */
uint16_t panel_festivals_on_ad(uint16_t first_year, uint16_t first_ad_year, uint16_t first_ad_month, uint16_t first_ad_day, const uint16_t *rows,
                               size_t rows_len, const uint16_t *rules, size_t rules_len, uint16_t year, uint16_t month, uint16_t day, uint16_t *festivals,
                               size_t festivals_len, size_t *count, uint32_t *days_before, uint32_t *days_after);

/* Whether a BS date is a holiday: holiday gets 1 for yes, 0 for no, as panel_month_grid has it in the cell of that date: a Saturday, or a day with a festival
   in its list that is one. A Saturday is answered without working out any festival. Refusals: 1, 2, 4, 5, 6. */
uint16_t panel_is_holiday(uint16_t first_year, uint16_t first_ad_year, uint16_t first_ad_month, uint16_t first_ad_day, const uint16_t *rows,
                          size_t rows_len, const uint16_t *rules, size_t rules_len, uint16_t year, uint16_t month, uint16_t day, uint16_t *holiday);

/* ---- Months, over a lent year table and, for the cells, lent rules */

/* The month that is step months after a month, or before it where step is negative. Month 0 is the one before 1, 13 the one after 12, and so on to 255.
   Refusals: 1, 10. */
uint16_t panel_step_month(uint16_t first_year, uint16_t first_ad_year, uint16_t first_ad_month, uint16_t first_ad_day, const uint16_t *rows,
                          size_t rows_len, uint16_t year, uint8_t month, int32_t step, uint16_t *to_year, uint8_t *to_month);

/* A BS month as a calendar shows it, in whole weeks from Sunday: at the front of cells twelve numbers for each cell, BS day; Gregorian year, month, day;
   weekday (0 is Sunday); whether it is today; whether it is a holiday: a Saturday, or a day with a festival that is one; tithi; the minutes at which that
   ends, the sun rises and sets (1,440 for none); how many festivals. A cell before the first day or after the last is all 0. At the front of festivals two
   numbers for each festival, name, holiday, day after day. days gets the number of days, from and to the first and the last Gregorian date, and the counts
   say how many cells and how many festivals there are. cells_len 504 serves every month: it has at most 42 cells. festivals_len 24,576 serves every month:
   at most 12,288 festivals are proved, 384 on each of 32 days. No rule gives one month more than an entry for each lunar year that is asked, so 768 should
   serve; this is argued and not proved, and what is too short gets 9. today is a Gregorian date, of any month. Refusals: 1, 2, 3 (today), 4, 5, 9. */
uint16_t panel_month_grid(uint16_t first_year, uint16_t first_ad_year, uint16_t first_ad_month, uint16_t first_ad_day, const uint16_t *rows,
                          size_t rows_len, const uint16_t *rules, size_t rules_len, uint16_t today_year, uint16_t today_month, uint16_t today_day,
                          uint16_t year, uint16_t month, uint16_t *cells, size_t cells_len, uint16_t *festivals, size_t festivals_len, uint16_t *days,
                          uint16_t *from_year, uint16_t *from_month, uint16_t *from_day, uint16_t *to_year, uint16_t *to_month, uint16_t *to_day,
                          size_t *cell_count, size_t *festival_count);

/* ---- The kept state: every number of it is the caller's, and the calls keep nothing by themselves */

/* How many numbers of sixteen bits a kept state has: uint16_t state[PANEL_KEPT]; a shorter array gets 9. */
#define PANEL_KEPT 4488

/* A kept state with no row, no rules and no year worked out, for a table of this first BS year and this Gregorian date of its first day. It may start an array
   again. Refusals: 1 (the four numbers break a rule for tables), 9 (the array). */
uint16_t panel_kept_start(uint16_t first_year, uint16_t first_ad_year, uint16_t first_ad_month, uint16_t first_ad_day, uint16_t *state,
                          size_t state_len);

/* These rules in place of the state's own; no year is then worked out. Refusals: 9 (the array), 2. */
uint16_t panel_kept_take_rules(uint16_t *state, size_t state_len, const uint16_t *rules, size_t rules_len);

/* One year row more, the next BS year: thirteen numbers, row_len 13. The years that were worked out are worked out again with it. Refusals: 9 (the array),
   1 (not thirteen numbers, or the table breaks a rule with this row). */
uint16_t panel_kept_append_row(uint16_t *state, size_t state_len, const uint16_t *row, size_t row_len);

/* The state without the years that were worked out; no answer changes by that. Refusal: 9 (the array). */
uint16_t panel_kept_forget(uint16_t *state, size_t state_len);

/* Which BS years are worked out: count gets 0, 1 or 2, first the first of them and last the last, the same where there is one, and both 0 where there is none.
   Refusal: 9 (the array). */
uint16_t panel_kept_stored(const uint16_t *state, size_t state_len, uint16_t *count, uint16_t *first, uint16_t *last);

/* The festivals of a BS date as panel_festivals_on has them, by the table and the rules of the state. Refusals: 9 (the array), 13, 4, 5, 6, 9 (festivals). */
uint16_t panel_kept_festivals_on(uint16_t *state, size_t state_len, uint16_t year, uint16_t month, uint16_t day, uint16_t *festivals,
                                 size_t festivals_len, size_t *count);

/* The festivals of a Gregorian date as panel_festivals_on_ad has them, by the table and the rules of the state. Refusals: 9 (the array), 13, 3, 7,
   9 (festivals). */
uint16_t panel_kept_festivals_on_ad(uint16_t *state, size_t state_len, uint16_t year, uint16_t month, uint16_t day, uint16_t *festivals,
                                    size_t festivals_len, size_t *count, uint32_t *days_before, uint32_t *days_after);

/* A BS month as panel_month_grid has it, by the table and the rules of the state; today is a Gregorian date. Refusals: 9 (the array), 13, 3 (today), 4, 5,
   9 (cells or festivals). */
uint16_t panel_kept_month_grid(uint16_t *state, size_t state_len, uint16_t today_year, uint16_t today_month, uint16_t today_day, uint16_t year,
                               uint16_t month, uint16_t *cells, size_t cells_len, uint16_t *festivals, size_t festivals_len, uint16_t *days,
                               uint16_t *from_year, uint16_t *from_month, uint16_t *from_day, uint16_t *to_year, uint16_t *to_month, uint16_t *to_day,
                               size_t *cell_count, size_t *festival_count);

/* The Gregorian date of a BS date, by the table of the state. Refusals: 9 (the array), 13, 4, 5, 6. */
uint16_t panel_kept_bs_to_ad(const uint16_t *state, size_t state_len, uint16_t year, uint16_t month, uint16_t day, uint16_t *ad_year,
                             uint16_t *ad_month, uint16_t *ad_day);

/* The BS date of a Gregorian date, by the table of the state; with 7 days_before and days_after as in panel_ad_to_bs. Refusals: 9 (the array), 13, 3, 7. */
uint16_t panel_kept_ad_to_bs(const uint16_t *state, size_t state_len, uint16_t year, uint16_t month, uint16_t day, uint16_t *bs_year,
                             uint16_t *bs_month, uint16_t *bs_day, uint32_t *days_before, uint32_t *days_after);

#ifdef __cplusplus
}
#endif

#endif
