//! The sets at full scale, which `oracle/run` sends to the port and to both oracles.
use super::festivals::{self, Almanac};
use super::{Maker, conversion, grid, holidays, panchanga};
use crate::lines::bits_word;
use crate::random::neighbour;
use crate::tables::{Months, Place, nepal_rules, owner_table, random_table, stress_rules};
use ::parameterised::gregorian::{Date, FIRST, LAST};
use ::parameterised::mode::Mode;
use ::parameterised::panchanga::NPT_OFFSET;

/// All dates: day number, weekday, next, Julian days, sun events, a kala, nishita and reading.
pub fn dates(maker: &mut Maker) {
    for number in FIRST..=LAST {
        let date = Date::from_day_number(number).expect("a day number in range");
        let Date { year, month, day } = date;
        maker.on("day", date);
        maker.line(format_args!("date {number}"));
        for fraction in [0.0, 0.25 - NPT_OFFSET, maker.random.between(-2.0, 2.0)] {
            maker.line(format_args!("jd {year} {month} {day} {}", bits_word(fraction)));
        }
        maker.on("events", date);
        maker.line(format_args!("kala {year} {month} {day} {}", number % 6));
        maker.on("nishita", date);
        maker.on("read", date);
    }
}

/// All questions on an instant but a search.
fn of_instant(maker: &mut Maker, instant: f64) {
    let year = 2000.0 + (instant - 2451545.0) / 365.25;
    maker.at("deltat", year);
    for tag in ["tt", "sun", "moon", "elong", "tithi", "clock", "npt"] {
        maker.at(tag, instant);
    }
}

/// Random instants, all local midnights and some tithi boundaries to three places either way.
pub fn instants(maker: &mut Maker) {
    for _ in 0..200_000 {
        let instant = maker.random_instant();
        of_instant(maker, instant);
    }
    for number in FIRST - 1..=LAST + 2 {
        let midnight = number as f64 - 0.5 - NPT_OFFSET;
        maker.around("npt", midnight, 3);
        maker.around("clock", midnight, 1);
    }
    for i in 0..6_000 {
        let start = panchanga::some_start(maker, Mode::True, i % 30 + 1);
        maker.around("tithi", start, 3);
        maker.around("elong", start, 3);
        maker.at("end", start);
    }
    for _ in 0..20_000 {
        let instant = maker.random.between(2400000.0, 2509997.5);
        maker.at("end", instant);
    }
    for joint in panchanga::JOINTS {
        for steps in -50..=50 {
            of_instant(maker, neighbour(2451545.0 + (joint - 2000.0) * 365.25, steps));
        }
    }
}

/// A million angles, and arcs.
pub fn angles(maker: &mut Maker) {
    for _ in 0..1_000_000 {
        let size = maker.random.one_of(&[1.0, 10.0, 1000.0, 63100.0, 100000.0]);
        let x = maker.random.between(-size, size);
        maker.at("sin", x);
        maker.at("cos", x);
    }
    for _ in 0..250_000 {
        let size = maker.random.one_of(&[1.0, 1.0, 0.5, 0.01]);
        let x = maker.random.between(-size, size);
        maker.at("asin", x);
        maker.at("acos", x);
        maker.at("tan", x);
    }
}

/// A year for all thirty tithis in 25 years, and every refusal.
pub fn searches(maker: &mut Maker) {
    for year in 0..25 {
        for tithi in 1..=30 {
            let from = 2415020.5 + year as f64 * 3652.5 + maker.random.unit();
            panchanga::search(maker, tithi, from, from + 365.25, 14);
        }
    }
    for _ in 0..20 {
        panchanga::searches(maker);
    }
    panchanga::search_refusals(maker);
}

/// Every day, every y/m/d around every month's end and days outside of 40 tables; broken and damaged
/// tables.
pub fn conversions(maker: &mut Maker) {
    for table in conversion::full_tables(maker) {
        conversion::whole_table(maker, &table);
    }
    for table in conversion::broken_tables(maker) {
        conversion::asked(maker, &table);
    }
    for _ in 0..300 {
        let table = conversion::damaged_table(maker);
        conversion::asked(maker, &table);
    }
}

/// A million month steps.
pub fn steps(maker: &mut Maker) {
    for round in 0..10 {
        let table = match round {
            0 => owner_table(),
            _ => {
                let years = maker.random.whole(1, 128) as usize;
                random_table(&mut maker.random, years, Months::Any, Place::Anywhere)
            }
        };
        maker.table(&table);
        for _ in 0..100_000 {
            grid::random_step(maker, &table);
        }
    }
}

/// A random table of few years with a random rule list.
fn random_almanac(maker: &mut Maker, rules: usize) -> Almanac {
    let months =
        maker.random.one_of(&[Months::Real, Months::Any, Months::All(29), Months::All(32)]);
    let place = maker.random.one_of(&[Place::First, Place::Last, Place::Anywhere]);
    let years = maker.random.whole(1, 4) as usize;
    let table = random_table(&mut maker.random, years, months, place);
    let rules = festivals::random_rules(maker, &table, rules);
    Almanac::new(table, rules)
}

/// Every month of the owner's table with two rule lists, and 360 months of random tables.
pub fn grids(maker: &mut Maker) {
    for rules in [nepal_rules(), stress_rules()] {
        grid::whole_table(maker, owner_table(), rules);
    }
    for _ in 0..60 {
        let mut almanac = random_almanac(maker, 12);
        festivals::lend(maker, &almanac);
        for _ in 0..6 {
            let (year, month) = (almanac.random_year(maker), maker.random.whole(1, 12) as u16);
            grid::month(maker, &mut almanac, year, month);
        }
    }
}

/// Every day's list of the owner's table with both rule lists: each day by its BS date with one list
/// and by its Gregorian date with the other; and whether each day is a holiday, with both.
pub fn days(maker: &mut Maker) {
    for (rules, by_bs) in [(nepal_rules(), true), (stress_rules(), false)] {
        let mut almanac = Almanac::new(owner_table(), rules);
        festivals::lend(maker, &almanac);
        festivals::every_day(maker, &mut almanac, by_bs);
    }
    holidays::every_day(maker);
}

/// 2,400 day lists over random tables, days outside each, and every rule list at the edge of the
/// paper's lines.
pub fn lists(maker: &mut Maker) {
    for _ in 0..80 {
        let mut almanac = random_almanac(maker, 12);
        festivals::lend(maker, &almanac);
        festivals::random_days(maker, &mut almanac, 30);
        festivals::days_outside(maker, &almanac.table);
    }
    for rules in festivals::edge_rules() {
        maker.rules(&rules);
        maker.line("checkrules");
    }
}

const TAGS: [&str; 53] = [
    "check", "checkrules", "bs", "ad", "len", "valid", "step", "day", "date", "jd", "npt", "deltat", "tt",
    "sun", "moon", "elong", "tithi", "tithiof", "end", "starts", "events", "rise", "set", "kala", "nishita",
    "clock", "minutes", "read", "listbs", "listad", "grid", "sin", "cos", "asin", "acos", "tan", "table",
    "cells", "rules", "rule", "text", "octets", "readrules", "writerules", "holiday", "start", "take", "append",
    "askbs", "askad", "askgrid", "forget", "stored",
];

/// Words that no line takes, or few do.
const ODD_WORDS: [&str; 10] =
    ["01", "-0", "+1", "x", "", "4294967295", "4294967296", "0x41", "0X4142b42c80000000", "1.0"];

fn some_word(maker: &mut Maker) -> String {
    match maker.random.below(9) {
        0 | 1 => maker.random.whole(0, 40).to_string(),
        2 | 3 => maker.random.whole(1900, 2150).to_string(),
        4 => maker.random.whole(-70_000, 70_000).to_string(),
        5 => maker.random.one_of(&["0", "1", "65535", "65536"]).into(),
        6 => bits_word(maker.random_instant()),
        7 => bits_word(f64::from_bits(maker.random.bits())),
        _ => maker.random.one_of(&ODD_WORDS).into(),
    }
}

/// 60,000 lines of a tag and words of every kind, most of them out of form.
pub fn words(maker: &mut Maker) {
    for i in 0..60_000 {
        if i % 500 == 0 {
            maker.table(&owner_table());
            maker.rules(&nepal_rules());
        }
        let tag = maker.random.one_of(&TAGS);
        let count = maker.random.one_of(&[0, 1, 1, 2, 3, 3, 3, 4, 4, 4, 5, 7, 8, 13, 14, 16]);
        let words: String = (0..count).map(|_| format!(" {}", some_word(maker))).collect();
        maker.line(format_args!("{tag}{words}"));
    }
}
