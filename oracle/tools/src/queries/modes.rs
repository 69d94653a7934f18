//! The mode of the sun: every question that follows it, by mode 1 where it answers otherwise than mode 0
//! and anywhere else, and by what is no mode.
use super::festivals::{Almanac, lend, random_days, random_rules};
use super::kept::{ask_ad, ask_bs, exact_month, hold, stored, take, walk};
use super::panchanga::{of_date, search, search_refusals, searches, some_start};
use super::{BAD_DATES, Maker, grid};
use crate::tables::{Months, Place, nepal_rules, owner_table, random_table, stress_rules};
use parameterised::conversion::{BsDate, Table, bs_to_ad};
use parameterised::convert::own_table;
use parameterised::gregorian::{Date, FIRST, LAST, date};
use parameterised::mode::{MODES, Mode};
use parameterised::panchanga::{self as panchanga, Tt, Ut};

/// Numbers that are no mode; some are one in their lowest byte.
const NO_MODES: [u16; 5] = [2, 255, 256, 257, 65535];

/// Days of the owner's table whose tithi at sunrise is another in mode 1.
const OTHER_TITHIS: [Date; 22] = [
    date(1947, 4, 23),
    date(1949, 7, 22),
    date(1953, 1, 19),
    date(1958, 1, 13),
    date(1965, 1, 21),
    date(1966, 8, 13),
    date(1976, 6, 6),
    date(1977, 12, 15),
    date(1982, 9, 29),
    date(1991, 4, 22),
    date(1997, 10, 6),
    date(2006, 10, 20),
    date(2011, 11, 20),
    date(2015, 9, 4),
    date(2016, 3, 29),
    date(2019, 8, 2),
    date(2022, 6, 5),
    date(2029, 1, 20),
    date(2033, 10, 11),
    date(2034, 5, 19),
    date(2036, 1, 10),
    date(2041, 6, 1),
];

/// A buffer's length that holds the list of each of these days.
const ROOM: usize = 24;

fn bs(year: u16, month: u16, day: u16) -> BsDate {
    BsDate { year, month, day }
}

/// Rule lists, each with the first days of the owner's table whose list is another in mode 1; by the last
/// list the day and the one behind it are holidays in one mode alone.
fn other_lists() -> [(Vec<u16>, Vec<BsDate>); 3] {
    let days = [bs(2034, 8, 29), bs(2063, 7, 3)];
    let marked = [[3, 0, 8, 5, 0, 0, 44, 1], [3, 0, 6, 14, 1, 0, 38, 1]];
    [
        (nepal_rules(), days.to_vec()),
        (stress_rules(), vec![bs(2005, 1, 18), bs(2096, 1, 26)]),
        (marked.concat(), days.to_vec()),
    ]
}

fn mode(maker: &mut Maker, number: u16) {
    maker.line(format_args!("mode {number}"));
}

/// The same lines by each mode.
fn by_each(maker: &mut Maker, mut ask: impl FnMut(&mut Maker)) {
    for known in MODES {
        mode(maker, known.number());
        ask(maker);
    }
}

/// A day that reads otherwise in mode 1.
fn read(maker: &mut Maker) {
    maker.on("read", OTHER_TITHIS[0]);
}

/// Mode 0 before the first line; each line holds to the next one in form, whatever else is lent.
fn lent(maker: &mut Maker) {
    read(maker);
    mode(maker, 1);
    read(maker);
    maker.table(&own_table());
    maker.rules(&[]);
    maker.text(b"mode 0\n");
    read(maker);
    maker.out_of_form("mode 0");
    for line in ["mode", "mode 00", "mode -0", "mode -1", "mode 65536", "mode x", "modes 0", "0"] {
        maker.line(line);
        read(maker);
    }
    for number in NO_MODES {
        mode(maker, number);
        read(maker);
    }
    mode(maker, 0);
    read(maker);
}

/// Around a start of each tithi by either mode, and between the two.
fn boundaries(maker: &mut Maker, tithi: u16) {
    let later = some_start(maker, Mode::True, tithi);
    let window = (Ut(later - 0.1), Ut(later + 0.1));
    let found = panchanga::first_start(Mode::Apparent, tithi, window.0, window.1);
    let Ut(earlier) = found.expect("a search").expect("the same start");
    by_each(maker, |maker| {
        for start in [earlier, later] {
            maker.around("tithi", start, 3);
            maker.around("elong", start, 1);
            maker.at("end", start);
            search(maker, tithi, start - 0.75, start, 1);
            search(maker, tithi, start, start + 1.5, 1);
        }
        for tag in ["tithi", "elong", "end"] {
            maker.at(tag, (earlier + later) / 2.0);
        }
        search(maker, tithi, earlier - 0.5, later + 0.5, 1);
    });
}

/// Random instants, the ends of the range and what is no instant.
fn instants(maker: &mut Maker, count: usize) {
    for _ in 0..count {
        let instant = maker.random.between(2400000.0, 2509997.5);
        by_each(maker, |maker| {
            for tag in ["elong", "tithi", "end"] {
                maker.at(tag, instant);
            }
        });
    }
    for tag in ["elong", "tithi", "end"] {
        maker.around(tag, 2400000.0, 2);
        maker.around(tag, 2510000.0, 2);
        maker.around(tag, 2509997.5, 2);
        maker.odd_floats(tag);
    }
}

/// The UT day of a year on which the sun's true longitude is 0, to some seconds.
fn equinox(year: u16) -> f64 {
    let first = date(year, 3, 15).midnight().expect("a date");
    let (mut before, mut after) = (first, first + 10.0);
    for _ in 0..30 {
        let middle = (before + after) / 2.0;
        match panchanga::sun_longitude(Tt(middle)).expect("a longitude") > 180.0 {
            true => before = middle,
            false => after = middle,
        }
    }
    let jd_year = 2000.0 + (after - 2451545.0) / 365.25;
    after - panchanga::delta_t(jd_year) / 86400.0
}

/// Longitudes that are above 0 before the correction and below it after, and their neighbours; the sun
/// events of the days around.
fn equinoxes(maker: &mut Maker, years: impl Iterator<Item = u16>) {
    for year in years {
        let at = equinox(year);
        mode(maker, 1);
        for step in -3..=11 {
            maker.at("elong", at + step as f64 * 0.0008);
        }
        for day in 19..=22 {
            maker.on("events", date(year, 3, day));
        }
    }
}

/// The questions on a date, by each mode.
fn of_dates(maker: &mut Maker, dates: &[Date]) {
    by_each(maker, |maker| {
        for date in dates {
            of_date(maker, *date);
            maker.on("read", *date);
        }
    });
}

fn some_dates(maker: &mut Maker, count: usize) {
    let mut dates = vec![date(1900, 1, 1), date(2149, 12, 30), date(2149, 12, 31)];
    dates.extend((0..count).map(|_| maker.random_date()));
    of_dates(maker, &dates);
    for bad in BAD_DATES {
        of_date(maker, bad);
        maker.on("read", bad);
    }
}

/// What is no mode comes before every refusal of the sky's questions, and where no sun is asked.
fn refused_sky(maker: &mut Maker) {
    for number in NO_MODES {
        mode(maker, number);
        for tag in ["elong", "tithi", "end"] {
            for x in [2451545.0, 2509999.0, 1.0, f64::NAN, f64::INFINITY] {
                maker.at(tag, x);
            }
        }
        for date in [date(2000, 1, 1), date(2149, 12, 31), date(1900, 2, 29), date(0, 0, 0)] {
            of_date(maker, date);
            maker.on("read", date);
        }
    }
    mode(maker, 2);
    search_refusals(maker);
}

/// Questions that take no mode, by each mode and by what is none.
fn without_mode(maker: &mut Maker) {
    maker.table(&own_table());
    maker.rules(&[]);
    for number in [0, 1, 2, 65535] {
        mode(maker, number);
        for tag in ["sun", "moon", "tithiof", "clock", "minutes", "deltat", "tt", "npt", "sin"] {
            maker.at(tag, 2451545.25);
        }
        for line in ["check", "checkrules", "len 100 2", "step 100 12 1", "writerules 1", "text"] {
            maker.line(line);
        }
        maker.line("readrules 1");
        maker.on_bs("bs", bs(100, 2, 29));
        maker.on_bs("valid", bs(100, 2, 32));
        for date in [date(1950, 3, 1), date(1952, 1, 2), date(1900, 2, 29)] {
            maker.on("ad", date);
            maker.on("day", date);
        }
    }
}

/// 1 and 2 before what is no mode, every other number behind it; a Saturday too.
fn refused_lists(maker: &mut Maker) {
    let mut broken = own_table();
    broken.rows[25] += 1;
    for table in [broken, own_table()] {
        maker.table(&table);
        for rules in [vec![9; 8], vec![1; 7], vec![1, 0, 1, 6, 0, 0, 9, 1]] {
            maker.rules(&rules);
            for number in [0, 1, 2, 257, 65535] {
                mode(maker, number);
                for (year, month, day) in
                    [(100, 1, 6), (100, 1, 7), (99, 1, 1), (100, 13, 1), (100, 1, 0)]
                {
                    maker.line(format_args!("holiday {year} {month} {day}"));
                    maker.line(format_args!("listbs {year} {month} {day} 2"));
                    maker.line(format_args!("listbs {year} {month} {day} 0"));
                }
                for ad in ["1950 1 6", "1952 1 2", "1949 12 31", "1900 2 29"] {
                    maker.line(format_args!("listad {ad} 3"));
                    maker.line(format_args!("grid {ad} 100 2 420 0"));
                    maker.line(format_args!("grid {ad} 99 13 1 1"));
                    maker.line(format_args!("grid {ad} 100 13 1 1"));
                }
            }
        }
    }
}

/// The lists of days and of the two behind them, and whether they are holidays.
fn three_days(maker: &mut Maker, table: &Table, first: BsDate) {
    for day in first.day..=first.day + 2 {
        let day = BsDate { day, ..first };
        if let Ok(Date { year, month, day: ad }) = bs_to_ad(table, day) {
            maker.line(format_args!("listbs {} {} {} {ROOM}", day.year, day.month, day.day));
            maker.line(format_args!("listad {year} {month} {ad} {ROOM}"));
            maker.on_bs("holiday", day);
        }
    }
}

/// Lists, holidays and months of the owner's table where mode 1 has another list.
fn owners(maker: &mut Maker) {
    for (rules, days) in other_lists() {
        lend(maker, &Almanac::new(owner_table(), rules.clone()));
        for known in MODES {
            mode(maker, known.number());
            let mut almanac = Almanac::by(known, owner_table(), rules.clone());
            for day in &days {
                three_days(maker, &almanac.table, *day);
                grid::month(maker, &mut almanac, day.year, day.month);
            }
        }
    }
}

/// Days and months of small random tables.
fn random_tables(maker: &mut Maker, tables: usize, days: usize) {
    for _ in 0..tables {
        let months = maker.random.one_of(&[Months::Real, Months::Any, Months::All(29)]);
        let place = maker.random.one_of(&[Place::First, Place::Last, Place::Anywhere]);
        let table = random_table(&mut maker.random, 2, months, place);
        let rules = random_rules(maker, &table, 8);
        let mut almanac = Almanac::by(Mode::Apparent, table, rules);
        lend(maker, &almanac);
        mode(maker, 1);
        random_days(maker, &mut almanac, days);
        let (year, month) = (almanac.random_year(maker), maker.random.whole(1, 12) as u16);
        grid::month(maker, &mut almanac, year, month);
    }
}

/// A state that holds the rows of the owner's table up to the days where the lists are others.
fn hold_to(maker: &mut Maker, rules: &[u16], last: BsDate) {
    let mut table = owner_table();
    table.rows.truncate(13 * (last.year - table.first_year + 2) as usize);
    hold(maker, &table);
    take(maker, rules);
}

/// A start tests 1, then 14; a refused one leaves no state.
fn starts(maker: &mut Maker) {
    for number in [0, 1, 2, 256, 257, 65535] {
        mode(maker, number);
        for first in ["2000 1943 4 14", "0 1943 4 14", "3001 1943 4 14", "2000 1900 12 31"] {
            maker.line(format_args!("start {first}"));
            stored(maker);
            ask_bs(maker, bs(2000, 1, 1), 1);
        }
        maker.line("start 2000 1943 4 14");
        // What is lent later does not matter to the state.
        mode(maker, 2);
        for line in ["append 31", "take", "forget", "stored", "askbs 0 0 0 1"] {
            maker.line(line);
        }
    }
}

/// A state answers by the mode of its start, whatever mode is lent then; the other mode's state in its
/// place does not serve the years that the first had stored.
fn states(maker: &mut Maker) {
    for (rules, days) in other_lists() {
        for known in [Mode::Apparent, Mode::True, Mode::Apparent] {
            mode(maker, known.number());
            let mut almanac = Almanac::by(known, owner_table(), rules.clone());
            hold_to(maker, &rules, days[1]);
            for (number, day) in [1, 0, 2, 1].into_iter().zip(days.iter().cycle()) {
                mode(maker, number);
                ask_bs(maker, *day, ROOM);
                let ad = bs_to_ad(&almanac.table, *day).expect("a day of the table");
                ask_ad(maker, ad.next().expect("the next day"), ROOM);
                exact_month(maker, &mut almanac, day.year, day.month);
                stored(maker);
            }
            maker.line("forget");
            ask_bs(maker, days[0], ROOM);
        }
    }
}

fn walks(maker: &mut Maker, count: usize) {
    for _ in 0..count {
        mode(maker, 1);
        walk(maker, 40);
    }
}

/// The mode is 0 again behind the set.
fn back(maker: &mut Maker) {
    mode(maker, 0);
    read(maker);
}

pub fn sample(maker: &mut Maker) {
    lent(maker);
    for tithi in [1, 2, 7, 15, 16, 29, 30] {
        boundaries(maker, tithi);
    }
    instants(maker, 60);
    searches(maker);
    equinoxes(maker, (1900..=2140).step_by(40));
    of_dates(maker, &OTHER_TITHIS);
    some_dates(maker, 20);
    refused_sky(maker);
    without_mode(maker);
    refused_lists(maker);
    owners(maker);
    random_tables(maker, 4, 12);
    starts(maker);
    states(maker);
    walks(maker, 2);
    back(maker);
}

/// Every month of the owner's table by mode 1, with both rule lists.
fn whole_table(maker: &mut Maker) {
    mode(maker, 1);
    for rules in [nepal_rules(), stress_rules()] {
        grid::whole_table(maker, owner_table(), rules);
    }
}

/// The sample; all dates, 20,000 instants, 1,000 starts and all equinoxes by mode 1; the owner's table
/// month by month; random tables and states.
pub fn full(maker: &mut Maker) {
    sample(maker);
    mode(maker, 1);
    for number in FIRST..=LAST {
        let date = Date::from_day_number(number).expect("a day number in range");
        for tag in ["events", "nishita", "read"] {
            maker.on(tag, date);
        }
    }
    instants(maker, 20_000);
    for i in 0..1_000 {
        boundaries(maker, i % 30 + 1);
    }
    equinoxes(maker, 1900..=2149);
    whole_table(maker);
    random_tables(maker, 60, 30);
    walks(maker, 60);
    back(maker);
}
