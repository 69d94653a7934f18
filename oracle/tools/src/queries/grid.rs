//! Month grids and month steps.
use super::festivals::{Almanac, CROWDED, crowded_rules};
use super::{BAD_DATES, Maker};
use crate::tables::{Months, Place, nepal_rules, owner_table, random_table, stress_rules};
use parameterised::conversion::{Table, bs_to_ad};
use parameterised::convert::own_table;
use parameterised::gregorian::{Date, date};

/// Asks a grid with buffers of these lengths.
fn grid(maker: &mut Maker, today: Date, year: u16, month: u16, cells: usize, festivals: usize) {
    let Date { year: y, month: m, day: d } = today;
    maker.line(format_args!("grid {y} {m} {d} {year} {month} {cells} {festivals}"));
}

/// How many numbers a month's cells and its festivals are.
pub fn lengths(almanac: &mut Almanac, year: u16, month: u16) -> (usize, usize) {
    let days = almanac.month(year, month);
    let first = bs_to_ad(&almanac.table, days[0]).expect("a day of the table");
    let blanks = first.weekday().expect("a date") as usize;
    let cells = (blanks + days.len()).next_multiple_of(7) * 12;
    let festivals: usize = days.into_iter().map(|day| almanac.count(day)).sum();
    (cells, 2 * festivals)
}

/// A date of the month, mostly.
pub fn some_today(maker: &mut Maker, almanac: &Almanac, year: u16, month: u16) -> Date {
    let days = almanac.month(year, month);
    match maker.random.below(6) {
        0 => maker.random_date(),
        1 => almanac.table.first_day,
        _ => {
            let day = days[maker.random.below(days.len())];
            bs_to_ad(&almanac.table, day).expect("a day of the table")
        }
    }
}

/// One month into buffers that are exactly long enough or a little longer.
pub fn month(maker: &mut Maker, almanac: &mut Almanac, year: u16, month: u16) {
    let (cells, festivals) = lengths(almanac, year, month);
    let today = some_today(maker, almanac, year, month);
    let more = maker.random.one_of(&[(0, 0), (0, 0), (3, 0), (0, 5), (12, 1)]);
    grid(maker, today, year, month, cells + more.0, festivals + more.1);
}

/// One month into buffers of which one or both are too short.
fn short(maker: &mut Maker, almanac: &mut Almanac, year: u16, month: u16) {
    let (cells, festivals) = lengths(almanac, year, month);
    let today = some_today(maker, almanac, year, month);
    grid(maker, today, year, month, cells - 1, festivals);
    grid(maker, today, year, month, 0, festivals + 2);
    if festivals > 0 {
        grid(maker, today, year, month, cells, festivals - 1);
        grid(maker, today, year, month, cells + 2, 0);
    }
}

fn lend(maker: &mut Maker, almanac: &Almanac) {
    maker.table(&almanac.table);
    maker.rules(&almanac.rules);
}

/// The owner's table: all months of three years, the first and the last months.
fn owners(maker: &mut Maker) {
    let mut almanac = Almanac::new(owner_table(), nepal_rules());
    lend(maker, &almanac);
    for year in [2058, 2077, 2081] {
        for number in 1..=12 {
            month(maker, &mut almanac, year, number);
        }
    }
    for (year, number) in [(2000, 1), (2000, 2), (2000, 3), (2099, 1), (2099, 11), (2099, 12)] {
        month(maker, &mut almanac, year, number);
    }
    short(maker, &mut almanac, 2081, 7);
    short(maker, &mut almanac, 2000, 1);
    let mut almanac = Almanac::new(owner_table(), stress_rules());
    lend(maker, &almanac);
    for (year, number) in [(2000, 1), (2041, 10), (2047, 7), (2062, 12), (2063, 1), (2099, 12)] {
        month(maker, &mut almanac, year, number);
    }
    short(maker, &mut almanac, 2050, 11);
}

/// A day with as many entries as can be, and a holiday mark that goes with a removed neighbour.
fn crowded(maker: &mut Maker) {
    let (bs, ad, computed) = CROWDED;
    let mut almanac = Almanac::new(owner_table(), crowded_rules(bs, ad, computed, false));
    lend(maker, &almanac);
    month(maker, &mut almanac, bs.year, bs.month);
    short(maker, &mut almanac, bs.year, bs.month);
    for holidays in [[0, 1], [1, 0]] {
        let rules = holidays.map(|holiday| [1, 0, 1, 1, 0, 0, 9, holiday]);
        let mut almanac = Almanac::new(owner_table(), rules.concat());
        lend(maker, &almanac);
        month(maker, &mut almanac, 2080, 1);
    }
}

/// Document 01's own table, whose month 100/2 has 35 cells.
fn own(maker: &mut Maker) {
    let mut almanac = Almanac::new(own_table(), Vec::new());
    lend(maker, &almanac);
    grid(maker, date(1950, 2, 14), 100, 2, 420, 0);
    grid(maker, date(1950, 2, 14), 100, 2, 432, 2);
    for number in 1..=12 {
        month(maker, &mut almanac, 101, number);
    }
    short(maker, &mut almanac, 100, 2);
}

/// Months of 29 to 32 days that begin on any weekday, at both bounds of the days.
fn random_tables(maker: &mut Maker) {
    let shapes = [
        (1, Months::All(29), Place::First),
        (1, Months::All(32), Place::Last),
        (2, Months::Any, Place::First),
        (2, Months::Any, Place::Last),
        (3, Months::All(30), Place::Anywhere),
    ];
    for (years, months, place) in shapes {
        let table = random_table(&mut maker.random, years, months, place);
        let rules = [
            [3, 0, 12, 15, 1, 4, 1, 1],
            [3, 0, 1, 1, 0, 5, 2, 0],
            [3, 0, 6, 10, 0, 2, 3, 1],
            [1, 0, 2, 29, 0, 0, 4, 0],
            [2, 0, 12, 31, 0, 0, 5, 1],
        ];
        let mut almanac = Almanac::new(table, rules.concat());
        lend(maker, &almanac);
        let (first, last) = (almanac.table.first_year, almanac.table.last_year());
        for number in [1, 2, 3, 5, 6, 8] {
            month(maker, &mut almanac, first, number);
        }
        for number in [4, 7, 9, 10, 11, 12] {
            month(maker, &mut almanac, last, number);
        }
    }
}

/// Every refusal in its order: 1, 2, 3 for today, 4, 5, 9.
fn refusals(maker: &mut Maker) {
    let (table, today, bad) = (own_table(), date(1950, 2, 14), date(2150, 1, 1));
    maker.table(&table);
    maker.rules(&[]);
    for bad in BAD_DATES {
        grid(maker, bad, 99, 13, 2, 1);
    }
    for today in [date(1900, 1, 1), date(2149, 12, 31)] {
        grid(maker, today, 101, 12, 504, 0);
    }
    for (year, month) in [(99, 13), (102, 0), (0, 1), (65535, 1), (100, 0), (101, 13), (100, 257)] {
        grid(maker, today, year, month, 2, 1);
    }
    maker.rules(&[9; 8]);
    grid(maker, bad, 99, 13, 2, 1);
    grid(maker, today, 100, 1, 504, 1);
    let mut broken = table;
    broken.rows[3] = 33;
    maker.table(&broken);
    grid(maker, bad, 99, 13, 2, 1);
    maker.rules(&[]);
    grid(maker, today, 100, 1, 504, 1);
}

fn step(maker: &mut Maker, year: u16, month: u8, delta: i32) {
    maker.line(format_args!("step {year} {month} {delta}"));
}

/// A random step, near the table's edges more often than not.
pub fn random_step(maker: &mut Maker, table: &Table) {
    let (first, last) = (table.first_year as i64, table.last_year() as i64);
    let year = match maker.random.below(4) {
        0 => maker.random.whole(0, 65535),
        _ => maker.random.whole((first - 3).max(0), last + 3),
    };
    let month = match maker.random.below(4) {
        0 => maker.random.whole(0, 255),
        _ => maker.random.whole(0, 13),
    };
    let delta = match maker.random.below(5) {
        0 => maker.random.whole(i32::MIN as i64, i32::MAX as i64),
        1 => maker.random.whole(-30, 30),
        2 => (first - year) * 12 + maker.random.whole(-15, 15),
        3 => (last - year) * 12 + maker.random.whole(-15, 15),
        _ => maker.random.whole(-70000, 70000),
    };
    step(maker, year as u16, month as u8, delta as i32);
}

fn steps(maker: &mut Maker) {
    maker.table(&own_table());
    step(maker, 100, 12, 1);
    step(maker, 100, 1, -1);
    let extremes =
        [i32::MIN, i32::MIN + 1, -1200, -13, -12, -1, 0, 1, 11, 12, 13, 24, i32::MAX - 1, i32::MAX];
    for year in [0, 1, 99, 100, 101, 102, 65535] {
        for month in [0, 1, 2, 12, 13, 128, 255] {
            for delta in extremes {
                step(maker, year, month, delta);
            }
        }
    }
    for (years, months, first) in
        [(1, Months::Any, 1), (128, Months::Real, 3000), (7, Months::Any, 2999)]
    {
        let mut table = random_table(&mut maker.random, years, months, Place::Anywhere);
        table.first_year = first;
        maker.table(&table);
        for _ in 0..500 {
            random_step(maker, &table);
        }
    }
    let mut broken = own_table();
    broken.rows[12] = 364;
    maker.table(&broken);
    step(maker, 100, 12, 1);
    step(maker, 100, 1, -1);
    step(maker, 65535, 255, i32::MAX);
}

fn out_of_form(maker: &mut Maker) {
    maker.table(&own_table());
    maker.out_of_form("step 100 1 1");
    maker.out_of_form("grid 1950 2 14 100 13 5 5");
    for line in [
        "step 100 1",
        "step 100 256 0",
        "step 65536 1 0",
        "step -1 1 0",
        "step 100 -1 0",
        "step 100 1 2147483648",
        "step 100 1 -2147483649",
        "step 100 1 +1",
        "step 100 1 --1",
        "step 100 1 -",
        "step 100 1 -01",
        "step 100 01 1",
        "grid 1950 2 14 100 13 5",
        "grid 1950 2 14 100 13 5 -5",
        "grid 1950 2 65536 100 13 5 5",
    ] {
        maker.line(line);
    }
}

pub fn sample(maker: &mut Maker) {
    own(maker);
    owners(maker);
    crowded(maker);
    random_tables(maker);
    refusals(maker);
    steps(maker);
    out_of_form(maker);
}

/// Every month of a table.
pub fn whole_table(maker: &mut Maker, table: Table, rules: Vec<u16>) {
    let mut almanac = Almanac::new(table, rules);
    lend(maker, &almanac);
    for year in almanac.table.first_year..=almanac.table.last_year() {
        for number in 1..=12 {
            month(maker, &mut almanac, year, number);
        }
    }
}
