//! Dates, day numbers, Julian days and Nepal dates.
use super::{BAD_DATES, Maker, NO_NUMBERS};
use crate::lines::bits_word;
use crate::random::neighbour;
use parameterised::gregorian::{Date, FIRST, LAST, date, month_length};
use parameterised::panchanga::NPT_OFFSET;

const YEARS: [u16; 24] = [
    1900, 1901, 1903, 1904, 1923, 1942, 1943, 1950, 1957, 1968, 1999, 2000, 2001, 2023, 2024, 2043,
    2096, 2099, 2100, 2101, 2104, 2147, 2148, 2149,
];

fn julian_day(maker: &mut Maker, date: Date, fraction: f64) {
    let Date { year, month, day } = date;
    maker.line(format_args!("jd {year} {month} {day} {}", bits_word(fraction)));
}

/// Meeus 7.a first, then document 01's examples.
fn examples(maker: &mut Maker) {
    julian_day(maker, date(1957, 10, 4), 0.81);
    julian_day(maker, date(2000, 2, 29), 0.0);
    maker.on("day", date(2000, 2, 29));
    maker.on("day", date(1900, 2, 29));
    maker.on("day", date(2150, 1, 1));
    maker.on("day", date(1900, 1, 1));
    maker.on("day", date(1950, 1, 1));
    maker.on("day", date(2149, 12, 31));
}

/// Around every month end of a spread of years, and both ends of the range.
fn month_ends(maker: &mut Maker) {
    for year in YEARS {
        for month in 1..=12 {
            let last = month_length(year, month);
            for day in [1, 2, last - 1, last, last + 1] {
                maker.on("day", date(year, month, day));
            }
        }
    }
    for year in [1898, 1899, 2150, 2151] {
        for (month, day) in [(1, 1), (1, 2), (2, 28), (2, 29), (3, 1), (12, 30), (12, 31)] {
            maker.on("day", date(year, month, day));
        }
    }
}

fn bad_dates(maker: &mut Maker) {
    for bad in BAD_DATES {
        maker.on("day", bad);
    }
    for year in [0, 1, 1899, 1900, 2149, 2150, 2156, 65535] {
        for month in [0, 1, 2, 12, 13, 257, 268, 65535] {
            for day in [0, 1, 29, 31, 32, 257, 287, 65535] {
                maker.on("day", date(year, month, day));
            }
        }
    }
    for _ in 0..300 {
        let (year, month, day) = (
            maker.random.whole(1895, 2155) as u16,
            maker.random.whole(0, 14) as u16,
            maker.random.whole(0, 33) as u16,
        );
        maker.on("day", date(year, month, day));
    }
}

fn day_numbers(maker: &mut Maker) {
    let mut numbers = vec![0, 1, 2400000, 2510000, 2147483647, 2147483648, 4294967295];
    for edge in [FIRST, LAST] {
        numbers.extend(edge - 3..=edge + 3);
        numbers.extend([edge + 65536, edge + (1 << 16) * 65000]);
    }
    for year in YEARS {
        let january = date(year, 1, 1).day_number().expect("a date");
        numbers.extend([january - 1, january, january + 58, january + 59, january + 60]);
    }
    for _ in 0..400 {
        numbers.push(maker.random.whole(FIRST, LAST));
    }
    for number in numbers {
        maker.line(format_args!("date {number}"));
    }
}

fn random_dates(maker: &mut Maker) {
    for _ in 0..400 {
        let date = maker.random_date();
        maker.on("day", date);
    }
}

fn julian_days(maker: &mut Maker) {
    let mut fractions = vec![
        0.0,
        -0.0,
        0.1,
        0.25,
        0.25 - NPT_OFFSET,
        0.5,
        0.75,
        0.81,
        1.0,
        neighbour(1.0, -1),
        5e-324,
        1e-300,
        -1e-9,
        1e-10,
        -0.5,
        2.5,
        -365.25,
        1e6,
        -1e6,
        1e308,
        f64::MAX,
        f64::INFINITY,
        f64::NEG_INFINITY,
    ];
    fractions.extend(NO_NUMBERS.map(f64::from_bits));
    let dates = [date(1900, 1, 1), date(1957, 10, 4), date(2000, 2, 29), date(2149, 12, 31)];
    for day in dates {
        for fraction in &fractions {
            julian_day(maker, day, *fraction);
        }
        // The sum at both ends of the instants.
        let midnight = day.midnight().expect("a date");
        for end in [2400000.0, 2510000.0] {
            for steps in -3..=3 {
                julian_day(maker, day, neighbour(end - midnight, steps));
            }
            julian_day(maker, day, end - midnight - 2e-10);
            julian_day(maker, day, end - midnight + 2e-10);
            julian_day(maker, day, end - midnight - 4e-10);
            julian_day(maker, day, end - midnight + 4e-10);
        }
    }
    for _ in 0..300 {
        let day = maker.random_date();
        let fraction = maker.random.between(-2.0, 2.0);
        julian_day(maker, day, fraction);
    }
    for bad in BAD_DATES {
        julian_day(maker, bad, 0.5);
        julian_day(maker, bad, f64::NAN);
    }
}

fn nepal_dates(maker: &mut Maker) {
    let mut numbers: Vec<i64> = (FIRST - 2..=FIRST + 2).chain(LAST - 1..=LAST + 3).collect();
    for year in YEARS {
        let january = date(year, 1, 1).day_number().expect("a date");
        numbers.extend([january, january + 59]);
    }
    for _ in 0..100 {
        numbers.push(maker.random.whole(FIRST, LAST));
    }
    for number in numbers {
        maker.around("npt", number as f64 - 0.5 - NPT_OFFSET, 3);
    }
    for _ in 0..200 {
        let instant = maker.random_instant();
        maker.at("npt", instant);
    }
    for end in [2400000.0, 2510000.0] {
        maker.around("npt", end, 3);
    }
    maker.odd_floats("npt");
    for x in [1.0, -1.0, 2451545.0, -2451545.0, 1e300, 5e-324] {
        maker.at("npt", x);
    }
}

fn out_of_form(maker: &mut Maker) {
    maker.out_of_form("day 2000 1 1");
    maker.out_of_form("npt 0x4142b42c80000000");
    for line in [
        "day",
        "day 2000 1",
        "day 02000 1 1",
        "day 2000 01 1",
        "day -2000 1 1",
        "day +2000 1 1",
        "day 65536 1 1",
        "day 2000 65536 1",
        "day 2000 1 65536",
        "day 2000 1 99999999999999999999999999",
        "day 2000 1 1.0",
        "day 2000-1-1",
        "day 2000 1 x",
        "date",
        "date 4294967296",
        "date -1",
        "date 00",
        "date 2451545.0",
        "jd 2000 1 1",
        "jd 2000 1 1 0.5",
        "jd 2000 1 1 0x3fe000000000000",
        "jd 2000 1 1 0x3fe00000000000000",
        "jd 2000 1 1 0x3FE0000000000000",
        "jd 2000 1 1 0X3fe0000000000000",
        "jd 2000 1 1 3fe0000000000000",
        "jd 2000 1 1 -0x3fe0000000000000",
        "npt nan",
        "npt 0x",
        "npt 0x4142b42c8000000g",
    ] {
        maker.line(line);
    }
}

pub fn sample(maker: &mut Maker) {
    examples(maker);
    month_ends(maker);
    bad_dates(maker);
    random_dates(maker);
    day_numbers(maker);
    julian_days(maker);
    nepal_dates(maker);
    out_of_form(maker);
}
