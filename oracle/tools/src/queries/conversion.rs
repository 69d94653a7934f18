//! Conversions over lent tables, good and broken.
use super::{BAD_DATES, Maker};
use crate::tables::{self, Months, Place, owner_table, random_row, random_rows, random_table};
use parameterised::conversion::{BsDate, Table};
use parameterised::convert::own_table;
use parameterised::gregorian::{Date, FIRST, LAST, date};

fn bs(year: u16, month: u16, day: u16) -> BsDate {
    BsDate { year, month, day }
}

/// The examples of document 01 on its own table.
fn examples(maker: &mut Maker) {
    maker.table(&own_table());
    maker.line("check");
    let dates = [
        bs(100, 1, 1),
        bs(100, 2, 29),
        bs(100, 4, 1),
        bs(100, 12, 30),
        bs(101, 1, 1),
        bs(101, 12, 31),
        bs(100, 12, 31),
        bs(100, 13, 40),
        bs(102, 13, 1),
    ];
    for day in dates {
        maker.on_bs("bs", day);
    }
    maker.on("ad", date(1952, 1, 2));
    maker.on("ad", date(1949, 12, 31));
    let mut short = own_table();
    short.rows[12] = 364;
    maker.table(&short);
    maker.line("check");
    maker.on_bs("bs", bs(100, 1, 1));
}

/// The accepted tables of the sample.
fn good_tables(maker: &mut Maker) -> Vec<Table> {
    let shapes = [
        (1, Months::Any, Place::First),
        (1, Months::All(29), Place::Last),
        (1, Months::All(32), Place::Anywhere),
        (2, Months::Any, Place::Anywhere),
        (3, Months::Real, Place::Last),
        (12, Months::Any, Place::First),
        (25, Months::Real, Place::Anywhere),
        (60, Months::Any, Place::Last),
        (127, Months::Real, Place::First),
        (128, Months::Any, Place::First),
        (128, Months::Any, Place::Last),
        (128, Months::All(29), Place::Anywhere),
        (128, Months::All(32), Place::Last),
        (128, Months::Real, Place::Anywhere),
    ];
    let mut tables = vec![owner_table(), own_table()];
    for (years, months, place) in shapes {
        tables.push(random_table(&mut maker.random, years, months, place));
    }
    tables[2].first_year = 1;
    tables[3].first_year = 3000;
    tables[11].first_year = 1;
    tables[12].first_year = 3000;
    tables
}

/// Tables that break one line of the paper each.
pub fn broken_tables(maker: &mut Maker) -> Vec<Table> {
    let good = |maker: &mut Maker| random_table(&mut maker.random, 6, Months::Any, Place::Anywhere);
    let mut tables = Vec::new();
    let mut broken = |maker: &mut Maker, change: &dyn Fn(&mut Table)| {
        let mut table = good(maker);
        change(&mut table);
        tables.push(table);
    };

    // A sum that is not the months', in the first row, the last row, and by a whole 65,536.
    broken(maker, &|table| table.rows[12] += 1);
    broken(maker, &|table| table.rows[12] -= 1);
    broken(maker, &|table| table.rows[5 * 13 + 12] -= 1);
    broken(maker, &|table| {
        table.rows[0] -= 29;
        table.rows[1] = table.rows[1].wrapping_sub(32);
        table.rows[12] = table.rows[..12].iter().fold(0, |sum: u16, n| sum.wrapping_add(*n));
    });
    // A month of 28, of 33, of 0 and of 65,535 days, with a sum that is right.
    let months = [(0, 28), (11, 33), (13 * 3 + 7, 28), (13 * 5 + 11, 33), (4, 0), (6, 65535)];
    for (at, length) in months {
        broken(maker, &|table| {
            let sum = at / 13 * 13 + 12;
            table.rows[sum] = table.rows[sum].wrapping_add(length).wrapping_sub(table.rows[at]);
            table.rows[at] = length;
        });
    }
    // The first year.
    for year in [0, 3001, 65535] {
        broken(maker, &|table| table.first_year = year);
    }
    // The number of rows and of cells.
    broken(maker, &|table| table.rows.clear());
    for cells in [1, 12, 14, 25, 77] {
        broken(maker, &|table| table.rows.truncate(cells));
    }
    broken(maker, &|table| table.rows.push(31));
    broken(maker, &|table| {
        table.first_day = date(1901, 1, 1);
        table.rows = [[29; 12].as_slice(), &[348]].concat().repeat(129);
    });
    // The first day.
    for day in [
        date(1950, 2, 29),
        date(1950, 13, 1),
        date(1950, 257, 1),
        date(1950, 1, 0),
        date(1950, 1, 257),
        date(0, 0, 0),
        date(65535, 1, 1),
        date(1900, 12, 31),
        date(1900, 1, 1),
        date(1899, 12, 31),
        date(2099, 12, 31),
        date(2149, 12, 31),
        date(2150, 1, 1),
    ] {
        broken(maker, &|table| table.first_day = day);
    }
    // The last day is 2100-01-01.
    for years in [1, 128] {
        let mut table = random_table(&mut maker.random, years, Months::Any, Place::Last);
        table.first_day = table.first_day.next().expect("the next day");
        tables.push(table);
    }
    tables
}

/// Questions on a table, whether it is accepted or not.
fn any_table(maker: &mut Maker, table: &Table) {
    let (year, ad) = (table.first_year, table.first_day);
    maker.line("check");
    maker.on_bs("bs", bs(year, 1, 1));
    maker.on("ad", ad);
    maker.line(format_args!("len {year} 1"));
    maker.on_bs("valid", bs(year, 1, 1));
    maker.on("ad", date(1900, 2, 29));
    maker.on_bs("bs", bs(65535, 13, 40));
}

/// The Gregorian date so many days after a table's first.
fn day_of(table: &Table, days: i64) -> Option<Date> {
    Date::from_day_number(table.first_day.day_number().ok()? + days).ok()
}

/// A table's days.
fn total(table: &Table) -> i64 {
    table.rows.chunks(13).map(|row| row[12] as i64).sum()
}

/// How far outside a table dates are asked: a day inside, the first or the last itself, then outside.
const DISTANCES: [i64; 14] =
    [-1, 0, 1, 2, 3, 31, 366, 10_000, 32_767, 32_768, 65_534, 65_535, 65_536, 65_537];

/// The dates so far before a table's first day and after its last, and the ends of all dates.
pub fn outside(table: &Table) -> Vec<Date> {
    let last = total(table) - 1;
    let near =
        DISTANCES.into_iter().flat_map(|days| [day_of(table, -days), day_of(table, last + days)]);
    let ends = [FIRST, FIRST + 1, LAST - 1, LAST].map(|number| Date::from_day_number(number).ok());
    near.chain(ends).flatten().collect()
}

/// The shortest and the longest year at both bounds of the days.
pub fn far_tables(maker: &mut Maker) -> Vec<Table> {
    let mut tables = Vec::new();
    for place in [Place::First, Place::Last] {
        for length in [29, 32] {
            tables.push(random_table(&mut maker.random, 1, Months::All(length), place));
        }
    }
    tables
}

/// A table of so many years with the shorter ones that it begins with.
pub fn growing(maker: &mut Maker, years: usize) -> Vec<Table> {
    let whole = random_table(&mut maker.random, years, Months::Any, Place::Anywhere);
    (1..=years)
        .map(|rows| Table { rows: whole.rows[..13 * rows].to_vec(), ..whole.clone() })
        .collect()
}

/// How far outside: over tables at the bounds, over one that grows, and behind 3 and 1.
fn distances(maker: &mut Maker) {
    for table in far_tables(maker) {
        maker.table(&table);
        for ad in outside(&table).into_iter().chain(BAD_DATES) {
            maker.on("ad", ad);
        }
    }
    let tables = growing(maker, 6);
    for table in &tables {
        maker.table(table);
        for ad in outside(table).into_iter().chain(outside(&tables[5])) {
            maker.on("ad", ad);
        }
    }
    let mut broken = own_table();
    broken.rows[25] -= 1;
    maker.table(&broken);
    for ad in outside(&own_table()).into_iter().chain(BAD_DATES) {
        maker.on("ad", ad);
    }
}

/// The numbers on both sides of each refusal.
fn refusals(maker: &mut Maker, table: &Table) {
    let last = table.last_year();
    for year in [0, table.first_year - 1, last + 1, table.first_year + 128, 65535] {
        maker.on_bs("bs", bs(year, 1, 1));
        maker.on_bs("valid", bs(year, 13, 0));
        maker.line(format_args!("len {year} 12"));
    }
    for month in [0, 13, 14, 256, 257, 268, 65535] {
        maker.on_bs("bs", bs(last, month, 1));
        maker.on_bs("valid", bs(last, month, 0));
        maker.line(format_args!("len {last} {month}"));
    }
    for day in [0, 33, 40, 255, 256, 257, 65535] {
        maker.on_bs("bs", bs(last, 12, day));
        maker.on_bs("valid", bs(table.first_year, 1, day));
    }
    let total = total(table);
    for days in [-400, -2, -1, 0, 1, total - 2, total - 1, total, total + 1, total + 365] {
        if let Some(ad) = day_of(table, days) {
            maker.on("ad", ad);
        }
    }
    maker.on("ad", date(1900, 1, 1));
    maker.on("ad", date(2149, 12, 31));
    let bad = maker.random.one_of(&BAD_DATES);
    maker.on("ad", bad);
}

/// Around every month's end in some of a table's years.
fn boundaries(maker: &mut Maker, table: &Table, years: usize) {
    let rows = table.rows.len() / 13;
    let mut chosen = vec![0, rows - 1];
    for _ in 2..years {
        chosen.push(maker.random.below(rows));
    }
    chosen.dedup();
    for row in chosen {
        let before: i64 = table.rows.chunks(13).take(row).map(|row| row[12] as i64).sum();
        let year = table.first_year + row as u16;
        let mut start = before;
        for month in 1..=12 {
            let length = table.rows[13 * row + month as usize - 1];
            for day in [0, 1, length - 1, length, length + 1] {
                maker.on_bs("bs", bs(year, month, day));
            }
            maker.on_bs("valid", bs(year, month, length));
            maker.on_bs("valid", bs(year, month, length + 1));
            maker.line(format_args!("len {year} {month}"));
            for days in [start - 1, start, start + length as i64 - 1] {
                if let Some(ad) = day_of(table, days) {
                    maker.on("ad", ad);
                }
            }
            start += length as i64;
        }
    }
}

fn random_days(maker: &mut Maker, table: &Table, count: usize) {
    for _ in 0..count {
        let year = maker.random.whole(table.first_year as i64, table.last_year() as i64) as u16;
        let (month, day) = (maker.random.whole(1, 12) as u16, maker.random.whole(1, 33) as u16);
        maker.on_bs("bs", bs(year, month, day));
        let number = match maker.random.below(4) {
            0 => maker.random.whole(FIRST, LAST),
            _ => {
                let first = table.first_day.day_number().expect("a date");
                first + maker.random.whole(0, table.rows.len() as i64 / 13 * 366)
            }
        };
        if let Ok(ad) = Date::from_day_number(number) {
            maker.on("ad", ad);
        }
    }
}

fn out_of_form(maker: &mut Maker) {
    maker.table(&own_table());
    maker.out_of_form("bs 100 1 1");
    maker.out_of_form("len 100 1");
    for line in [
        "check 1",
        "bs 100 1",
        "bs 100 1 01",
        "bs 100 1 65536",
        "bs -100 1 1",
        "ad 1950 1",
        "ad 1950-01-01",
        "len 100",
        "len 100 1 1",
        "valid 100 1",
        "valid 100 1 1 1",
        "table 100 1950 1",
        "table 100 1950 1 1 1",
        "table 65536 1950 1 1",
        "cells",
        "cells 31 31 32 31 31 31 30 29 30 29 30 30 365 31",
        "cells 31 31 x",
        "cells 31 31 65536",
        "cells 31  31",
    ] {
        maker.line(line);
    }
    // The table is lent anew before it is asked again.
    maker.table(&own_table());
    maker.line("check");
    maker.on_bs("bs", bs(101, 12, 31));
}

/// Cells may come in any portions.
fn portions(maker: &mut Maker) {
    let row = random_row(&mut maker.random, Months::Any);
    maker.line("table 2080 2023 4 14");
    maker.line("check");
    for cell in row {
        maker.line(format_args!("cells {cell}"));
        maker.line("check");
    }
    maker.on_bs("bs", bs(2080, 12, 29));
    maker.line("table 2080 2023 4 14");
    maker.on_bs("bs", bs(2080, 12, 29));
}

pub fn sample(maker: &mut Maker) {
    examples(maker);
    for table in good_tables(maker) {
        maker.table(&table);
        any_table(maker, &table);
        refusals(maker, &table);
        boundaries(maker, &table, 3);
        random_days(maker, &table, 30);
    }
    for table in broken_tables(maker) {
        maker.table(&table);
        any_table(maker, &table);
    }
    portions(maker);
    out_of_form(maker);
    distances(maker);
}

/// Every day, every y/m/d around every month's end, and days outside to the ends of all dates.
pub fn whole_table(maker: &mut Maker, table: &Table) {
    maker.table(table);
    any_table(maker, table);
    refusals(maker, table);
    for days in -3..total(table) + 3 {
        if let Some(ad) = day_of(table, days) {
            maker.on("ad", ad);
        }
    }
    for ad in outside(table) {
        maker.on("ad", ad);
    }
    for number in (FIRST..=LAST).step_by(37) {
        maker.on("ad", Date::from_day_number(number).expect("a day number in range"));
    }
    for year in table.first_year..=table.last_year() {
        for month in 0..=13 {
            maker.line(format_args!("len {year} {month}"));
            for day in [0, 1, 2, 28, 29, 30, 31, 32, 33] {
                maker.on_bs("bs", bs(year, month, day));
            }
        }
    }
}

/// Tables for the full scale: the owner's, document 01's, and random ones at every place.
pub fn full_tables(maker: &mut Maker) -> Vec<Table> {
    let mut tables = good_tables(maker);
    for months in [Months::Any, Months::Real] {
        for place in [Place::First, Place::Last, Place::Anywhere, Place::Anywhere] {
            for years in [1, 7, 128] {
                tables.push(random_table(&mut maker.random, years, months, place));
            }
        }
    }
    tables
}

/// A table with one cell altered at random: most are refused.
pub fn damaged_table(maker: &mut Maker) -> Table {
    let rows = random_rows(&mut maker.random, 40, Months::Any);
    let first_day = tables::first_day(&mut maker.random, &rows, Place::Anywhere);
    let mut table = Table { first_year: 2000, first_day, rows };
    let at = maker.random.below(table.rows.len());
    table.rows[at] = table.rows[at].wrapping_add(maker.random.whole(-2, 2) as u16);
    table
}

/// Questions on a table that may be refused.
pub fn asked(maker: &mut Maker, table: &Table) {
    maker.table(table);
    any_table(maker, table);
}
