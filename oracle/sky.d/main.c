/* See ../sky. Reads the lines of the tool sky and tells how far they are from the Swiss Ephemeris.
 *
 *   sky [days] [centre]      days: also each day whose tithi at sunrise is another; centre: the engine's definition of sunrise and sunset */
#include <math.h>
#include <stdio.h>
#include <stdlib.h>
#include <string.h>
#include <swephexp.h>

#define MODES 2
/* Seconds of a day, arc seconds of a degree. */
#define DAY 86400.0
#define DEGREE 3600.0

static double kathmandu[3] = {85.3240, 27.7172, 0.0};
static int list_days, by_centre;

static void stop(const char *why) {
    fprintf(stderr, "oracle/sky: %s\n", why);
    exit(1);
}

/* ---- the Swiss Ephemeris */

static double tt_of(double ut) {
    char said[AS_MAXCH];
    return ut + swe_deltat_ex(ut, SEFLG_MOSEPH, said);
}

/* A body's geocentric longitude: apparent, or with the flag SEFLG_NONUT without nutation. */
static double longitude(double tt, int body, int flag) {
    double x[6];
    char said[AS_MAXCH];
    if (swe_calc(tt, body, SEFLG_MOSEPH | flag, x, said) < 0) stop(said);
    return x[0];
}

/* An angle brought to -180 at least and 180 at most. */
static double turned(double angle) { return remainder(angle, 360.0); }

/* The moon's apparent longitude less the sun's, from 0 to 360. */
static double elongation(double ut) {
    double tt = tt_of(ut), angle = turned(longitude(tt, SE_MOON, 0) - longitude(tt, SE_SUN, 0));
    return angle < 0.0 ? angle + 360.0 : angle;
}

static int tithi_at(double ut) { return 1 + (int)(elongation(ut) / 12.0); }

/* The end of a tithi that is nearest to an instant. */
static double tithi_end(int tithi, double at) {
    for (int i = 0; i < 60; i++) {
        double past = turned(elongation(at) - 12.0 * tithi);
        if (fabs(past) < 1e-7) return at;
        at -= past / 12.19;
    }
    stop("the end of a tithi is not found");
    return 0.0;
}

/* The next sunrise or sunset: of the upper limb in air of 1,013.25 hPa and 15 degrees, or of the centre 0.833 degrees below the horizon. */
static double event(double from, int which) {
    double at;
    char said[AS_MAXCH];
    int how = by_centre ? which | SE_BIT_DISC_CENTER | SE_BIT_NO_REFRACTION : which;
    double horizon = by_centre ? -0.833 : 0.0;
    if (swe_rise_trans_true_hor(from, SE_SUN, NULL, SEFLG_MOSEPH, how, kathmandu, 1013.25, 15.0, horizon, &at, said) < 0) stop(said);
    return at;
}

/* ---- a day of the oracle */

struct reading {
    double rise, set, end;
    int tithi;
};

struct day {
    int year, month, day;
    struct reading by_mode[MODES];
    /* The TT day of mode 0's sunrise, the sun's true longitude then, the moon's. */
    double tt, sun, moon;
};

static int read_day(struct day *d) {
    if (scanf("%d %d %d", &d->year, &d->month, &d->day) != 3) return 0;
    for (int mode = 0; mode < MODES; mode++) {
        struct reading *r = &d->by_mode[mode];
        if (scanf("%lf %lf %d %lf", &r->rise, &r->set, &r->tithi, &r->end) != 4) stop("a day is cut off");
    }
    if (scanf("%lf %lf %lf", &d->tt, &d->sun, &d->moon) != 3) stop("a day is cut off");
    return 1;
}

/* ---- what is told */

struct spread {
    long count;
    double sum, least, most;
};

static void add(struct spread *s, double x) {
    if (s->count == 0 || x < s->least) s->least = x;
    if (s->count == 0 || x > s->most) s->most = x;
    s->sum += x;
    s->count++;
}

static void tell(const char *what, struct spread s, const char *unit) {
    printf("%s: %+.1f %s on average, from %+.1f to %+.1f\n", what, s.sum / s.count, unit, s.least, s.most);
}

static struct {
    long other_tithis;
    struct spread ends, rises, sets;
} told[MODES];
static struct spread suns, moons, steps;

static void hold_mode(struct day d, int mode, double rise, double set, int tithi, double end) {
    struct reading r = d.by_mode[mode];
    add(&told[mode].ends, (r.end - end) * DAY);
    add(&told[mode].rises, (r.rise - rise) * DAY);
    add(&told[mode].sets, (r.set - set) * DAY);
    if (r.tithi == tithi) return;
    told[mode].other_tithis++;
    if (list_days) printf("%d-%02d-%02d: tithi %d in mode %d, %d by the ephemeris\n", d.year, d.month, d.day, r.tithi, mode, tithi);
}

static void hold_day(struct day d) {
    double rise = event(d.by_mode[0].rise - 0.25, SE_CALC_RISE), set = event(d.by_mode[0].set - 0.25, SE_CALC_SET), end = 0.0;
    int tithi = tithi_at(rise);
    for (int mode = 0; mode < MODES; mode++) {
        struct reading r = d.by_mode[mode];
        if (mode == 0 || r.tithi != d.by_mode[mode - 1].tithi) end = tithi_end(r.tithi, r.end);
        hold_mode(d, mode, rise, set, tithi, end);
    }
    /* 0.00569 degrees are mode 1's aberration. */
    add(&suns, turned(d.sun - 0.00569 - longitude(d.tt, SE_SUN, SEFLG_NONUT)) * DEGREE);
    add(&moons, turned(d.moon - longitude(d.tt, SE_MOON, SEFLG_NONUT)) * DEGREE);
    add(&steps, (d.tt - tt_of(d.by_mode[0].rise)) * DAY);
}

int main(int words, char **word) {
    struct day d;
    char version[AS_MAXCH];
    for (int i = 1; i < words; i++) {
        if (strcmp(word[i], "days") == 0) list_days = 1;
        else if (strcmp(word[i], "centre") == 0) by_centre = 1;
        else stop("--days and --centre are known");
    }
    while (read_day(&d)) hold_day(d);
    printf("%ld days: oracle P less the Swiss Ephemeris %s, Moshier\n", suns.count, swe_version(version));
    for (int mode = 0; mode < MODES; mode++) {
        printf("mode %d: another tithi at sunrise on %ld days\n", mode, told[mode].other_tithis);
        tell("  the tithi's end", told[mode].ends, "s");
        tell("  sunrise", told[mode].rises, "s");
        tell("  sunset", told[mode].sets, "s");
    }
    tell("the sun's longitude with aberration, without nutation", suns, "arc seconds");
    tell("the moon's longitude without nutation", moons, "arc seconds");
    tell("TT less UT", steps, "s");
    return 0;
}
