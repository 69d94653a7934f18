/* Arguments for one call: tame ones, which the call answers, or hostile ones. */
#ifndef ARGUMENTS_H
#define ARGUMENTS_H

#include <stddef.h>
#include <stdint.h>

/* Elements that are lent to be read, of 16 bits, or of 8 for a text. */
struct slice {
    const void *at;
    size_t len;
};

/* What is passed, each kind in the order of the parameters. */
struct arguments {
    uint32_t number[16];
    double real[4];
    int32_t step;
    struct slice slice[2];
    size_t room[2]; /* the elements of each lent buffer */
    struct slice state; /* the array of a kept state that the call may change */
    int is_made; /* whether the calls alone have made the array of a kept state */
};

/* Begins the random numbers, and makes the tables, rule lists and texts that are lent. */
void prepare(uint64_t seed);

/* Makes the kept states that are lent, by the calls of the library, and the year rows for them. */
void prepare_states(void);

/* A random number below another. */
uint64_t below(uint64_t end);

/* The bits of a random NaN: of either sign, quiet or signalling, with a payload. */
uint64_t nan_bits(void);

/* Arguments for parameters by their letters:
     ymd a Gregorian date   n a day number   k a tithi   q a kala
     T a year table         YMD a BS date in it   g a Gregorian date in it   R rules   x a rule file   b a month in a byte   s a step of months
     i an instant           e an instant whose next days are instants too   u an instant soon after the one before
     t a day of terrestrial time   r any number   B a lent buffer, with `most` elements where it is tame
     h first BS year and first Gregorian day of a table   K a kept state that the call may change   J one that it only reads (YMD and g are then of its table)
     w a year row */
void draw(struct arguments *to, const char *letters, int tame, const size_t *most);

/* Prints arguments to standard error. */
void show(const struct arguments *shown, const char *letters);

#endif
