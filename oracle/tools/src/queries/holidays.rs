//! Whether days are holidays.
use super::Maker;
use super::festivals::{Almanac, CROWDED, lend, random_rules};
use crate::tables::{Months, Place, nepal_rules, owner_table, random_table, stress_rules};
use parameterised::conversion::{BsDate, Table};
use parameterised::convert::own_table;

fn holiday(maker: &mut Maker, year: u16, month: u16, day: u16) {
    maker.line(format_args!("holiday {year} {month} {day}"));
}

/// Every day of some months of a year.
fn months(maker: &mut Maker, almanac: &Almanac, year: u16, months: &[u16]) {
    for day in months.iter().flat_map(|month| almanac.month(year, *month)) {
        maker.on_bs("holiday", day);
    }
}

/// Every day of some years of the owner's table, with both rule lists.
pub fn owners(maker: &mut Maker, years: &[u16]) {
    for rules in [nepal_rules(), stress_rules()] {
        let almanac = Almanac::new(owner_table(), rules);
        lend(maker, &almanac);
        for year in years {
            months(maker, &almanac, *year, &[1, 2, 3, 4, 5, 6, 7, 8, 9, 10, 11, 12]);
        }
    }
}

/// Lends rules over the owner's table.
fn over_owners(maker: &mut Maker, rules: &[[u16; 8]]) {
    maker.rules(&rules.concat());
    maker.line("checkrules");
}

/// A rule of a kind that falls on the crowded day, a Tuesday.
fn meeting(kind: u16, name: u16, mark: u16) -> [u16; 8] {
    let (bs, ad, [month, tithi, half, kala]) = CROWDED;
    match kind {
        1 => [1, 0, bs.month, bs.day, 0, 0, name, mark],
        2 => [2, 0, ad.month, ad.day, 0, 0, name, mark],
        3 => [3, 0, month, tithi, half, kala, name, mark],
        _ => [4, bs.year, bs.month, bs.day, 0, 0, name, mark],
    }
}

/// Two rules that meet on a day, of any two kinds, names equal or not, each marked or not; and three
/// of one kind: a mark may go with a removed neighbour.
fn neighbours(maker: &mut Maker) {
    let BsDate { year, month, day } = CROWDED.0;
    maker.table(&owner_table());
    for first in 1..=4 {
        for second in first..=4 {
            for choice in 0..8 {
                let rules = [
                    meeting(first, 9, choice & 1),
                    meeting(second, 9 + (choice >> 2), choice >> 1 & 1),
                ];
                over_owners(maker, &rules);
                holiday(maker, year, month, day);
                holiday(maker, year, month, day + 1);
            }
        }
    }
    for choice in 0..32 {
        let bit = |at: u16| choice >> at & 1;
        over_owners(
            maker,
            &[
                meeting(1, 9, bit(0)),
                meeting(1, 9 + bit(3), bit(1)),
                meeting(1, 9 + bit(4), bit(2)),
            ],
        );
        holiday(maker, year, month, day);
    }
    // Four days later is a Saturday.
    for marks in [[0, 0], [0, 1], [1, 0]] {
        over_owners(maker, &marks.map(|mark| [1, 0, month, day + 4, 0, 0, 9, mark]));
        for days in 3..=5 {
            holiday(maker, year, month, day + days);
        }
    }
}

/// Computed rules that a given date of the day's own year silences, of another year does not; the last
/// three days are of the lunar year before.
fn silenced(maker: &mut Maker) {
    let BsDate { year, month, day } = CROWDED.0;
    maker.table(&owner_table());
    for (given, name) in [(year, 9), (year - 1, 9), (year + 1, 9), (0, 9), (year, 8)] {
        for rest in [(1, 1, 0), (12, 32, 1)] {
            over_owners(maker, &[meeting(3, 9, 1), [4, given, rest.0, rest.1, 0, 0, name, rest.2]]);
            holiday(maker, year, month, day);
        }
    }
    for given in [2077, 2078, 2079] {
        over_owners(maker, &[[3, 0, 12, 9, 0, 1, 52, 1], [4, given, 6, 32, 0, 0, 52, 0]]);
        for day in 7..=9 {
            holiday(maker, 2078, 1, day);
        }
    }
}

/// Entries of the lunar year before, in the first months of a table's years, which are short: every
/// tithi of the last lunar month's second half, marked.
fn year_before(maker: &mut Maker) {
    let rules: Vec<[u16; 8]> = (1..=15).map(|tithi| [3, 0, 12, tithi, 1, 5, tithi, 1]).collect();
    let table = random_table(&mut maker.random, 2, Months::All(29), Place::Anywhere);
    let almanac = Almanac::new(table, rules.concat());
    lend(maker, &almanac);
    for year in [almanac.table.first_year, almanac.table.last_year()] {
        months(maker, &almanac, year, &[1, 2, 3]);
    }
}

/// Without a rule, Saturdays alone: document 01's own table, whose first day is a Sunday.
fn saturdays(maker: &mut Maker) {
    let almanac = Almanac::new(own_table(), Vec::new());
    lend(maker, &almanac);
    months(maker, &almanac, 100, &[1, 12]);
    months(maker, &almanac, 101, &[1, 12]);
}

/// Each refusal alone and with every later one, and what is good, a Saturday too, behind 1 and 2.
fn refusals(maker: &mut Maker) {
    let mut broken = own_table();
    broken.rows[25] += 1;
    for table in [broken, own_table()] {
        maker.table(&table);
        for rules in [vec![9; 8], vec![1; 7], Vec::new()] {
            maker.rules(&rules);
            for (year, month, day) in [
                (100, 1, 6),
                (100, 1, 7),
                (99, 1, 1),
                (102, 1, 7),
                (99, 1, 40),
                (99, 13, 1),
                (102, 13, 40),
                (0, 0, 0),
                (65535, 1, 1),
                (100, 0, 1),
                (101, 13, 7),
                (100, 13, 40),
                (100, 257, 7),
                (101, 65535, 0),
                (100, 1, 0),
                (100, 1, 32),
                (100, 12, 31),
                (101, 12, 31),
                (101, 12, 32),
                (100, 1, 263),
                (100, 1, 65535),
            ] {
                holiday(maker, year, month, day);
            }
        }
    }
}

/// Days of a small random table with few random rules: its first, its last, and any.
fn random_days(maker: &mut Maker, count: usize) {
    let months = maker.random.one_of(&[Months::Real, Months::Any, Months::All(32)]);
    let place = maker.random.one_of(&[Place::First, Place::Last, Place::Anywhere]);
    let years = maker.random.whole(1, 4) as usize;
    let table = random_table(&mut maker.random, years, months, place);
    let rules = random_rules(maker, &table, 24);
    let almanac = Almanac::new(table, rules);
    lend(maker, &almanac);
    let Table { first_year, ref rows, .. } = almanac.table;
    holiday(maker, first_year, 1, 1);
    holiday(maker, almanac.table.last_year(), 12, rows[rows.len() - 2]);
    for _ in 0..count {
        let day = almanac.random_day(maker);
        maker.on_bs("holiday", day);
    }
}

fn out_of_form(maker: &mut Maker) {
    maker.table(&own_table());
    maker.rules(&[]);
    maker.out_of_form("holiday 100 1 7");
    for line in [
        "holiday",
        "holiday 100 1",
        "holiday 100 1 07",
        "holiday 100 1 -7",
        "holiday 100 1 65536",
        "holiday 100-1-7",
        "holida 100 1 7",
        "holidayy 100 1 7",
        "isholiday 100 1 7",
    ] {
        maker.line(line);
    }
    holiday(maker, 100, 1, 7);
}

/// Two years of the owner's table with both lists; then what a hurried answer would get wrong.
pub fn sample(maker: &mut Maker) {
    owners(maker, &[2047, 2079]);
    neighbours(maker);
    silenced(maker);
    year_before(maker);
    saturdays(maker);
    refusals(maker);
    for _ in 0..10 {
        random_days(maker, 20);
    }
    out_of_form(maker);
}

/// The sample; every day of a dozen years of the owner's table with both rule lists; 2,400 days of
/// random tables.
pub fn full(maker: &mut Maker) {
    sample(maker);
    owners(maker, &[2000, 2001, 2020, 2039, 2058, 2059, 2064, 2077, 2078, 2080, 2082, 2099]);
    for _ in 0..60 {
        random_days(maker, 40);
    }
}

/// Every day of the owner's table with both rule lists.
pub fn every_day(maker: &mut Maker) {
    let table = owner_table();
    let years: Vec<u16> = (table.first_year..=table.last_year()).collect();
    owners(maker, &years);
}
