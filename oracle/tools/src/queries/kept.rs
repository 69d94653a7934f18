//! The kept state: sequences of operations.
use super::conversion::outside;
use super::festivals::{Almanac, edge_rules, random_rules, some_length};
use super::grid::{lengths, some_today};
use super::{BAD_DATES, Maker};
use crate::tables::{
    Months, Place, first_day, nepal_rules, owner_table, random_row, random_rows, random_table,
    stress_rules,
};
use parameterised::conversion::{BsDate, Table, bs_to_ad};
use parameterised::convert::own_table;
use parameterised::festivals::check_rules;
use parameterised::gregorian::{Date, date};

/// A month of 29 days at most holds every tithi's list.
const ROOM: usize = 768;

fn bs(year: u16, month: u16, day: u16) -> BsDate {
    BsDate { year, month, day }
}

// ---- the operations

fn start(maker: &mut Maker, first_year: u16, first_day: Date) {
    maker.on(&format!("start {first_year}"), first_day);
}

fn append(maker: &mut Maker, row: &[u16]) {
    maker.numbers("append", row);
}

/// A state that holds a table, its rows appended one at a time.
pub fn hold(maker: &mut Maker, table: &Table) {
    start(maker, table.first_year, table.first_day);
    for row in table.rows.chunks(13) {
        append(maker, row);
    }
}

pub fn take(maker: &mut Maker, rules: &[u16]) {
    maker.rules(rules);
    maker.line("take");
}

pub fn stored(maker: &mut Maker) {
    maker.line("stored");
}

pub fn ask_bs(maker: &mut Maker, bs: BsDate, length: usize) {
    maker.line(format_args!("askbs {} {} {} {length}", bs.year, bs.month, bs.day));
}

pub fn ask_ad(maker: &mut Maker, ad: Date, length: usize) {
    maker.line(format_args!("askad {} {} {} {length}", ad.year, ad.month, ad.day));
}

fn ask_grid(maker: &mut Maker, today: Date, month: (u16, u16), cells: usize, festivals: usize) {
    let (Date { year: y, month: m, day: d }, (year, month)) = (today, month);
    maker.line(format_args!("askgrid {y} {m} {d} {year} {month} {cells} {festivals}"));
}

/// A day of the table by either of its dates, into a buffer of a length.
fn ask_day(maker: &mut Maker, almanac: &Almanac, day: BsDate, length: usize) {
    if maker.random.below(2) == 0 {
        ask_bs(maker, day, length);
    } else {
        ask_ad(maker, ad_of(&almanac.table, day), length);
    }
}

/// A day with a buffer that is mostly long enough.
fn some_day(maker: &mut Maker, almanac: &mut Almanac, day: BsDate) {
    let exact = 2 * almanac.count(day);
    let length = some_length(maker, exact);
    ask_day(maker, almanac, day, length);
}

/// A month with buffers that are exactly long enough.
pub fn exact_month(maker: &mut Maker, almanac: &mut Almanac, year: u16, month: u16) {
    let (cells, festivals) = lengths(almanac, year, month);
    let today = some_today(maker, almanac, year, month);
    ask_grid(maker, today, (year, month), cells, festivals);
}

/// A month with buffers of which now and then one is too short.
fn some_month(maker: &mut Maker, almanac: &mut Almanac, year: u16, month: u16) {
    let (cells, festivals) = lengths(almanac, year, month);
    let today = some_today(maker, almanac, year, month);
    let less = maker.random.one_of(&[(0, 0), (0, 0), (0, 0), (0, 0), (1, 0), (0, 1), (12, 2)]);
    let lengths = (cells - less.0, festivals.saturating_sub(less.1));
    ask_grid(maker, today, (year, month), lengths.0, lengths.1);
}

fn ad_of(table: &Table, day: BsDate) -> Date {
    bs_to_ad(table, day).expect("a day of the table")
}

/// The day after a table's last.
fn after_last(table: &Table) -> Date {
    let days: i64 = table.rows.chunks(13).map(|row| row[12] as i64).sum();
    let first = table.first_day.day_number().expect("a date");
    Date::from_day_number(first + days).expect("a date")
}

// ---- rules and rows

fn rule(kind: u16, year: u16, month: u16, day: u16, half: u16, kala: u16, name: u16) -> [u16; 8] {
    [kind, year, month, day, half, kala, name, name % 2]
}

/// The tithis of the last lunar month's second half, which fall into the year after where the months
/// are short; with a rule of each other kind.
fn late_rules(tithis: &[u16]) -> Vec<u16> {
    let late = tithis.iter().map(|tithi| rule(3, 0, 12, *tithi, 1, 5, *tithi));
    let others = [rule(1, 0, 1, 5, 0, 0, 70), rule(2, 0, 5, 1, 0, 0, 71)];
    late.chain(others).flatten().collect()
}

/// Computed rules of lunar months all over the year, and one rule for each of the first two months.
fn spread_rules() -> Vec<u16> {
    [
        rule(3, 0, 12, 1, 1, 5, 31),
        rule(3, 0, 11, 15, 1, 0, 32),
        rule(3, 0, 1, 5, 0, 1, 33),
        rule(3, 0, 2, 10, 0, 5, 34),
        rule(3, 0, 5, 15, 0, 3, 35),
        rule(3, 0, 8, 2, 1, 2, 36),
        rule(1, 0, 1, 20, 0, 0, 37),
        rule(1, 0, 4, 20, 0, 0, 38),
    ]
    .concat()
}

/// Random rules: none, none computed, late ones, or any.
fn some_rules(maker: &mut Maker, table: &Table) -> Vec<u16> {
    match maker.random.below(6) {
        0 => Vec::new(),
        1 => [rule(1, 0, 2, 3, 0, 0, 1), rule(2, 0, 4, 14, 0, 0, 1)].concat(),
        2 => late_rules(&[1, 8, 15]),
        _ => {
            let count = maker.random.whole(3, 12) as usize;
            random_rules(maker, table, count)
        }
    }
}

/// Rules that break one line of the paper.
fn broken_rules(maker: &mut Maker) -> Vec<u16> {
    let broken: Vec<_> =
        edge_rules().into_iter().filter(|rules| check_rules(rules).is_err()).collect();
    broken[maker.random.below(broken.len())].clone()
}

/// What is no year row: its sum is not the months', a month is out of bounds, or it has other than
/// thirteen numbers.
fn broken_rows(row: [u16; 13]) -> Vec<Vec<u16>> {
    let with = |changes: &[(usize, u16)]| {
        let mut row = row.to_vec();
        changes.iter().for_each(|(at, number)| row[*at] = *number);
        row
    };
    let sum = row[12];
    let mut rows = vec![
        with(&[(12, sum + 1)]),
        with(&[(12, sum - 1)]),
        with(&[(12, 0)]),
        with(&[(12, 65535)]),
        with(&[(0, 28), (12, sum + 28 - row[0])]),
        with(&[(11, 33), (12, sum + 33 - row[11])]),
        with(&[(6, 0), (12, sum - row[6])]),
        with(&[(5, 65535), (12, sum.wrapping_add(65535).wrapping_sub(row[5]))]),
        with(&[(0, 28), (12, sum)]),
        vec![0; 13],
        vec![65535; 13],
    ];
    let long = row.repeat(100);
    let counts = [0, 1, 2, 8, 11, 12, 14, 15, 16, 17, 18, 25, 26, 27, 39, 100, 1300];
    rows.extend(counts.map(|count| long[..count].to_vec()));
    rows
}

fn real_row(maker: &mut Maker) -> [u16; 13] {
    random_row(&mut maker.random, Months::Real)
}

// ---- what must be seen

/// Every question to the state, in form and to be answered by a state of document 01's own table.
const QUESTIONS: [&str; 7] = [
    "take",
    "append 31 31 32 31 31 31 30 29 30 29 30 30 365",
    "askbs 100 1 1 2",
    "askad 1950 1 1 2",
    "askgrid 1950 2 14 100 2 504 2",
    "forget",
    "stored",
];

fn all_questions(maker: &mut Maker) {
    for question in QUESTIONS {
        maker.line(question);
    }
}

/// Without a state each question is out of form: before the first start and after a refused one,
/// whatever table is lent.
fn without(maker: &mut Maker) {
    maker.table(&own_table());
    maker.rules(&[]);
    all_questions(maker);
    hold(maker, &own_table());
    all_questions(maker);
    start(maker, 3001, date(1950, 1, 1));
    all_questions(maker);
    start(maker, 100, date(1950, 1, 1));
    // A start that is out of form leaves the state.
    maker.line("start 100 1950 1");
    maker.line("start 100 1950 1 1 1");
    all_questions(maker);
}

/// The bounds of a first year and of a first day.
fn starts(maker: &mut Maker) {
    let good = date(1950, 1, 1);
    for year in [0, 1, 2, 2081, 2999, 3000, 3001, 3128, 65535] {
        start(maker, year, good);
        stored(maker);
    }
    for day in [
        date(1901, 1, 1),
        date(1900, 12, 31),
        date(1900, 1, 1),
        date(2099, 12, 31),
        date(2100, 1, 1),
        date(2149, 12, 31),
        date(2000, 2, 29),
        date(2099, 2, 29),
    ]
    .into_iter()
    .chain(BAD_DATES)
    {
        start(maker, 2081, day);
        stored(maker);
    }
    start(maker, 0, date(2100, 1, 1));
    stored(maker);
}

/// Before a row is held: 13 before every other number of an ask, from nothing else.
fn no_row(maker: &mut Maker) {
    start(maker, 100, date(1950, 1, 1));
    for round in 0..3 {
        for (year, month, day) in [(100, 1, 1), (99, 1, 1), (100, 13, 1), (100, 1, 0), (0, 0, 0)] {
            ask_bs(maker, bs(year, month, day), 2);
            ask_bs(maker, bs(year, month, day), 0);
        }
        for ad in [date(1950, 1, 1), date(1949, 12, 31), date(1900, 2, 29), date(2150, 1, 1)] {
            ask_ad(maker, ad, 2);
            ask_ad(maker, ad, 0);
        }
        for today in [date(1950, 1, 1), date(1900, 2, 29)] {
            for month in [(100, 1), (99, 1), (100, 13), (65535, 0)] {
                ask_grid(maker, today, month, 3, 1);
            }
        }
        stored(maker);
        match round {
            0 => take(maker, &late_rules(&[3])),
            _ => {
                take(maker, &[9; 8]);
                maker.line("forget");
                append(maker, &[31; 13]);
                append(maker, &[]);
            }
        }
    }
    append(maker, &own_table().rows[..13]);
    ask_bs(maker, bs(100, 1, 5), 2);
    stored(maker);
}

/// Rows that are refused change nothing, and a good one is taken between them.
fn refused_rows(maker: &mut Maker) {
    let row = real_row(maker);
    let table = Table { first_year: 2080, first_day: date(2023, 4, 14), rows: row.to_vec() };
    start(maker, table.first_year, table.first_day);
    for broken in broken_rows(row) {
        append(maker, &broken);
        ask_ad(maker, table.first_day, 0);
    }
    append(maker, &row);
    ask_bs(maker, bs(2080, 1, 1), 0);
    for broken in broken_rows(row) {
        append(maker, &broken);
        ask_ad(maker, after_last(&table), 1);
    }
    stored(maker);
}

/// A table from nothing to 128 rows, and the row that is one too many; the day after the last is asked
/// at each, and becomes a day of the table.
fn growing(maker: &mut Maker, months: Months, first_year: u16) {
    let rows = random_rows(&mut maker.random, 129, months);
    let mut table = Table { first_year, first_day: date(1901, 1, 1), rows: Vec::new() };
    start(maker, table.first_year, table.first_day);
    for (at, row) in rows.chunks(13).enumerate() {
        let next = after_last(&table);
        ask_ad(maker, next, 2);
        append(maker, row);
        table.rows.extend(row);
        if at % 43 == 0 || at == 127 {
            ask_ad(maker, next, 2);
            stored(maker);
        }
    }
    let last = table.first_year + 127;
    ask_bs(maker, bs(last, 12, 29), 0);
    ask_bs(maker, bs(last + 1, 1, 1), 0);
    stored(maker);
}

/// The last day of all: a row that ends on 2099-12-31 is taken, one that ends the day after is not.
fn last_days(maker: &mut Maker) {
    for (months, years) in [(Months::All(29), 1), (Months::All(32), 1), (Months::Real, 3)] {
        let rows = random_rows(&mut maker.random, years, months);
        let first = first_day(&mut maker.random, &rows, Place::Last);
        for first in [first, first.next().expect("the next day")] {
            let table = Table { first_year: 2090, first_day: first, rows: rows.clone() };
            hold(maker, &table);
            append(maker, &rows[..13]);
            ask_ad(maker, date(2099, 12, 31), 1);
            ask_ad(maker, date(2100, 1, 1), 1);
            stored(maker);
        }
    }
    start(maker, 1, date(2099, 12, 31));
    for months in [Months::All(29), Months::All(32)] {
        let row = random_row(&mut maker.random, months);
        append(maker, &row);
    }
    stored(maker);
}

/// Every way from one store to another: days of three years in an order in which each store that there
/// can be is met before each day that draws one year or two. A second day is answered from the store.
fn stores(maker: &mut Maker, table: &Table, rules: &[u16]) {
    let mut almanac = Almanac::new(table.clone(), rules.to_vec());
    hold(maker, table);
    take(maker, rules);
    let first = table.first_year;
    let draws = (first..first + 3).flat_map(|year| [(year, 1..=2), (year, 3..=12)]);
    let listed: Vec<Vec<BsDate>> =
        draws.map(|(year, months)| almanac.listed_days(year, months)).collect();
    let mut walk: Vec<usize> = Vec::new();
    for from in 0..listed.len() {
        for to in 0..listed.len() {
            walk.extend([from, to]);
        }
    }
    walk.dedup();
    for at in walk {
        for _ in 0..2 {
            let day = maker.random.one_of(&listed[at]);
            let length = 2 * almanac.count(day);
            ask_day(maker, &almanac, day, length);
        }
        stored(maker);
    }
    maker.line("forget");
    stored(maker);
}

/// A row more: what is stored stays stored and gains what falls into the added year; every day that
/// could be asked before is answered as before.
fn appended(maker: &mut Maker, rows: usize, rules: &[u16]) {
    let whole = random_table(&mut maker.random, rows, Months::All(29), Place::Anywhere);
    let mut table = Table { rows: Vec::new(), ..whole.clone() };
    start(maker, table.first_year, table.first_day);
    take(maker, rules);
    for (at, row) in whole.rows.chunks(13).enumerate() {
        append(maker, row);
        stored(maker);
        table.rows.extend(row);
        let year = table.first_year + at as u16;
        let mut almanac = Almanac::new(table.clone(), rules.to_vec());
        // The first months show what the append has added to the store of the year before.
        for day in almanac.month(year, 1) {
            let length = 2 * almanac.count(day);
            if length > 0 || day.day % 9 == 0 {
                ask_day(maker, &almanac, day, length);
            }
        }
        exact_month(maker, &mut almanac, year, 2);
        stored(maker);
        ask_bs(maker, bs(year, 12, 29), 2 * almanac.count(bs(year, 12, 29)));
        ask_ad(maker, after_last(&table), 2);
        stored(maker);
        // With two years in the store, and with none, every other time.
        match at % 3 {
            0 => {}
            1 => ask_bs(maker, bs(year, 1, 1), ROOM),
            _ => maker.line("forget"),
        }
    }
}

/// Other rules in the middle: the day is answered by the rules that were taken last, whatever is lent.
fn changed_rules(maker: &mut Maker, table: &Table) {
    let day = bs(table.first_year + 1, 2, 1);
    hold(maker, table);
    let lists = [
        late_rules(&[1, 15]),
        late_rules(&[15, 1]),
        [rule(1, 0, 2, 1, 0, 0, 5), rule(1, 0, 2, 1, 0, 0, 6)].concat(),
        Vec::new(),
        [rule(3, 0, 1, 1, 0, 5, 40), rule(4, day.year, 1, 9, 0, 0, 40)].concat(),
        vec![9; 8],
        vec![1; 7],
        late_rules(&[15]),
    ];
    for rules in lists {
        take(maker, &rules);
        stored(maker);
        for day in [day, bs(day.year, 1, 20), bs(day.year, 2, 2)] {
            ask_bs(maker, day, 6);
        }
        stored(maker);
    }
    // Rules that are lent and not taken, and a table: the state has its own.
    maker.rules(&rule(1, 0, 2, 1, 0, 0, 99));
    maker.table(&own_table());
    ask_bs(maker, day, 6);
    maker.line(format_args!("listbs 100 2 1 6"));
    stored(maker);
    maker.line("rule 1");
    maker.line("take");
    stored(maker);
    ask_bs(maker, day, 6);
    maker.line("rules");
    maker.line("take");
    stored(maker);
    ask_bs(maker, day, 6);
}

/// A state anew in the place of another with the same years: nothing of the old one is served.
fn anew(maker: &mut Maker) {
    let rules = late_rules(&[2, 9]);
    for shift in 0..3 {
        let first_day = Date::from_day_number(2_450_000 + 10 * shift).expect("a date");
        let rows = random_rows(&mut maker.random, 2, Months::All(29));
        let table = Table { first_year: 2052, first_day, rows };
        let mut almanac = Almanac::new(table.clone(), rules.clone());
        start(maker, table.first_year, table.first_day);
        stored(maker);
        take(maker, &rules);
        for row in table.rows.chunks(13) {
            append(maker, row);
        }
        for day in almanac.month(2053, 1).into_iter().step_by(5) {
            let length = 2 * almanac.count(day);
            ask_day(maker, &almanac, day, length);
        }
        stored(maker);
    }
}

/// Each refusal alone and with every later one, and that each leaves the store as it was.
fn refusals(maker: &mut Maker) {
    let table = own_table();
    let rules = [rule(1, 0, 2, 1, 0, 0, 5), rule(1, 0, 2, 2, 0, 0, 6)].concat();
    hold(maker, &table);
    take(maker, &rules);
    for before in [None, Some(bs(101, 1, 1)), Some(bs(100, 7, 1))] {
        if let Some(day) = before {
            ask_bs(maker, day, 0);
        }
        stored(maker);
        for (year, month, day) in [
            (99, 1, 1),
            (102, 1, 1),
            (99, 13, 40),
            (99, 1, 40),
            (0, 2, 1),
            (65535, 2, 1),
            (100, 0, 1),
            (101, 13, 1),
            (100, 13, 40),
            (100, 257, 1),
            (100, 2, 0),
            (100, 2, 32),
            (101, 12, 32),
            (100, 2, 257),
        ] {
            ask_bs(maker, bs(year, month, day), 2);
            ask_bs(maker, bs(year, month, day), 1);
        }
        // A list that does not fit by one, by two.
        ask_bs(maker, bs(101, 2, 1), 1);
        ask_bs(maker, bs(100, 2, 1), 0);
        stored(maker);
        for ad in BAD_DATES.into_iter().chain(outside(&table)) {
            ask_ad(maker, ad, 0);
        }
        ask_ad(maker, ad_of(&table, bs(101, 2, 1)), 1);
        ask_ad(maker, date(2150, 1, 1), 1);
        stored(maker);
        let (today, bad) = (date(1950, 2, 14), date(2023, 2, 29));
        for (today, month) in [
            (bad, (99, 13)),
            (bad, (99, 1)),
            (bad, (100, 13)),
            (bad, (100, 2)),
            (today, (99, 13)),
            (today, (102, 1)),
            (today, (0, 0)),
            (today, (65535, 12)),
            (today, (100, 0)),
            (today, (101, 13)),
            (today, (100, 258)),
        ] {
            ask_grid(maker, today, month, 504, 4);
            ask_grid(maker, today, month, 0, 0);
        }
        // Cells or festivals that do not fit by one; 100/2 has 35 cells and two festivals.
        for (cells, festivals) in [(419, 4), (420, 3), (419, 3), (0, 0), (504, 0)] {
            ask_grid(maker, today, (100, 2), cells, festivals);
        }
        stored(maker);
        take(maker, &[9; 8]);
        append(maker, &table.rows);
        append(maker, &[]);
        stored(maker);
    }
    ask_grid(maker, date(1950, 2, 14), (100, 2), 420, 4);
    stored(maker);
    ask_bs(maker, bs(100, 2, 1), 2);
    ask_ad(maker, ad_of(&table, bs(100, 2, 2)), 2);
    stored(maker);
}

/// A year's months in their order and back, days between them; then a row more and the same again.
fn months(maker: &mut Maker, table: &Table, rules: &[u16], numbers: &[u16]) {
    let mut almanac = Almanac::new(table.clone(), rules.to_vec());
    let year = table.last_year();
    hold(maker, table);
    take(maker, rules);
    let mut row = table.rows.clone();
    row.drain(..table.rows.len() - 13);
    for _ in 0..2 {
        for month in numbers {
            exact_month(maker, &mut almanac, year, *month);
            stored(maker);
            let days = almanac.month(year, *month);
            for day in days.into_iter().step_by(11) {
                some_day(maker, &mut almanac, day);
            }
        }
        stored(maker);
        append(maker, &row);
        stored(maker);
        almanac.table.rows.extend(&row);
        almanac = Almanac::new(almanac.table, almanac.rules);
    }
}

/// Lines out of form, which change nothing: a store stands before and behind them.
fn out_of_form(maker: &mut Maker) {
    maker.rules(&[]);
    hold(maker, &own_table());
    ask_bs(maker, bs(101, 1, 1), 0);
    for good in ["start 100 1950 1 1", "append 31", "askbs 100 1 1 2", "stored", "take"] {
        maker.out_of_form(good);
    }
    for line in [
        "start",
        "start 100",
        "start 65536 1950 1 1",
        "start 100 1950 1 -1",
        "start 100 1950-01-01",
        "starts 100 1950 1 1",
        "restart 100 1950 1 1",
        "take 1",
        "takes",
        "take rules",
        "append x",
        "append -1",
        "append 01",
        "append 65536",
        "append 31,31",
        "append 31 31 32 31 31 31 30 29 30 29 30 30 365 65536",
        "append 31 31 32 31 31 31 30 29 30 29 30 30 -365",
        "askbs 100 1 1",
        "askbs 100 1 1 -2",
        "askbs 100 1 1 2 2",
        "askbs 100 1 65536 2",
        "askad 1950 1 1",
        "askad 1950 1 1 65536",
        "askad 1950-1-1 2",
        "askgrid 1950 2 14 100 2 504",
        "askgrid 1950 2 14 100 2 504 2 2",
        "askgrid 1950 2 14 100 2 504 -2",
        "forget 100",
        "forgets",
        "stored 100",
        "store",
        "ask 100 1 1 2",
    ] {
        maker.line(line);
    }
    // More words than any other line has.
    let nines = " 9".repeat(20);
    for after in [" 65536", " 0x4028000000000000", " -9", " 09", " x", " ", "  9"] {
        maker.line(format_args!("append{nines}{after}"));
    }
    for before in ["append 65536", "append 0x4028000000000000", "append -9", "cells", "rule"] {
        maker.line(format_args!("{before}{nines}"));
    }
    for tag in ["table", "start", "askbs", "askgrid", "grid", "bs", "take", "stored", "forget"] {
        maker.line(format_args!("{tag}{nines}"));
    }
    stored(maker);
    ask_ad(maker, after_last(&own_table()), 1);
}

// ---- random sequences

/// One operation after another over a random table, most of them accepted; days that were asked are
/// asked again after each row.
pub fn walk(maker: &mut Maker, steps: usize) {
    let months =
        maker.random.one_of(&[Months::Real, Months::Any, Months::All(29), Months::All(32)]);
    let place = maker.random.one_of(&[Place::First, Place::Last, Place::Anywhere]);
    let whole = random_table(&mut maker.random, 6, months, place);
    let mut almanac = Almanac::new(Table { rows: Vec::new(), ..whole.clone() }, Vec::new());
    let mut asked = Vec::new();
    start(maker, whole.first_year, whole.first_day);
    for _ in 0..steps {
        match maker.random.below(20) {
            0 | 1 => {
                let at = almanac.table.rows.len();
                let row = match whole.rows.get(at..at + 13) {
                    Some(row) => row.to_vec(),
                    None => random_row(&mut maker.random, months).to_vec(),
                };
                append(maker, &row);
                stored(maker);
                let mut table = almanac.table.clone();
                table.rows.extend(row);
                if table.check().is_ok() {
                    almanac = Almanac::new(table, almanac.rules);
                }
                for day in &asked {
                    some_day(maker, &mut almanac, *day);
                }
                asked.clear();
            }
            2 => {
                let rows = broken_rows(random_row(&mut maker.random, months));
                let row = &rows[maker.random.below(rows.len())];
                append(maker, row);
            }
            3 => {
                let rules = some_rules(maker, &whole);
                take(maker, &rules);
                almanac = Almanac::new(almanac.table, rules);
            }
            4 => {
                let rules = broken_rules(maker);
                take(maker, &rules);
            }
            5 => maker.line("forget"),
            6 | 7 => stored(maker),
            8 => some_refusal(maker, &almanac.table),
            _ if almanac.table.rows.is_empty() => some_refusal(maker, &whole),
            9 | 10 => {
                let (year, month) = (almanac.random_year(maker), maker.random.whole(1, 12) as u16);
                some_month(maker, &mut almanac, year, month);
            }
            at => {
                let mut day = almanac.random_day(maker);
                // The first two months draw from two years: every third day is of them.
                if at % 3 == 0 {
                    day = bs(day.year, maker.random.whole(1, 2) as u16, day.day.min(29));
                }
                some_day(maker, &mut almanac, day);
                asked.push(day);
            }
        }
    }
    stored(maker);
}

/// A question on a day or a month that may well be refused.
fn some_refusal(maker: &mut Maker, table: &Table) {
    let year = maker.random.whole(table.first_year as i64 - 1, table.first_year as i64 + 7) as u16;
    let month = maker.random.one_of(&[0, 1, 2, 3, 12, 13, 257]);
    let day = maker.random.one_of(&[0, 1, 29, 32, 33, 257]);
    let length = maker.random.below(3);
    match maker.random.below(4) {
        0 => ask_bs(maker, bs(year, month, day), length),
        1 => {
            let today = maker.random.one_of(&[date(1900, 2, 29), date(2026, 1, 1)]);
            ask_grid(maker, today, (year, month), 168 * length, length);
        }
        2 => {
            let bad = maker.random.one_of(&BAD_DATES);
            ask_ad(maker, bad, length);
        }
        _ => {
            let days = outside(table);
            let ad = maker.random.one_of(&days);
            ask_ad(maker, ad, length);
        }
    }
}

/// What must be seen, over few lunar years and few rules.
pub fn sample(maker: &mut Maker) {
    without(maker);
    starts(maker);
    no_row(maker);
    refused_rows(maker);
    growing(maker, Months::All(29), 3000);
    last_days(maker);
    let table = random_table(&mut maker.random, 4, Months::All(29), Place::Anywhere);
    stores(maker, &table, &spread_rules());
    appended(maker, 5, &late_rules(&[1, 6, 15]));
    changed_rules(maker, &table);
    anew(maker);
    refusals(maker);
    months(maker, &table, &late_rules(&[4, 11]), &[1, 2, 3, 12, 2]);
    let mut owners = owner_table();
    owners.rows.truncate(13 * 82);
    months(maker, &owners, &nepal_rules(), &[1, 2, 7]);
    for _ in 0..4 {
        walk(maker, 40);
    }
    out_of_form(maker);
}

/// Every day and every month of the owner's table from a state with each rule list.
fn owners(maker: &mut Maker) {
    for (rules, by_bs) in [(nepal_rules(), true), (stress_rules(), false)] {
        let mut almanac = Almanac::new(owner_table(), rules);
        hold(maker, &almanac.table);
        take(maker, &almanac.rules);
        for year in almanac.table.first_year..=almanac.table.last_year() {
            for month in 1..=12 {
                exact_month(maker, &mut almanac, year, month);
                for day in almanac.month(year, month) {
                    let length = 2 * almanac.count(day);
                    match by_bs {
                        true => ask_bs(maker, day, length),
                        false => ask_ad(maker, ad_of(&almanac.table, day), length),
                    }
                }
            }
            stored(maker);
        }
    }
}

/// The owner's table row by row: the last year is in the store at each append.
fn owners_growing(maker: &mut Maker) {
    let whole = owner_table();
    let mut rules = nepal_rules();
    rules.extend([rule(3, 0, 12, 14, 1, 0, 901), rule(3, 0, 12, 15, 1, 5, 902)].concat());
    start(maker, whole.first_year, whole.first_day);
    take(maker, &rules);
    for years in 1..=whole.rows.len() / 13 {
        let mut table = whole.clone();
        table.rows.truncate(13 * years);
        append(maker, &table.rows[13 * (years - 1)..]);
        stored(maker);
        let mut almanac = Almanac::new(table, rules.clone());
        let year = almanac.table.last_year();
        for month in [1, 12] {
            for day in almanac.month(year, month).into_iter().step_by(2) {
                some_day(maker, &mut almanac, day);
            }
        }
    }
}

/// The sample; the owner's table day by day and row by row; stores and rows of random tables; 300
/// random sequences of 60 operations.
pub fn full(maker: &mut Maker) {
    sample(maker);
    owners(maker);
    owners_growing(maker);
    for months in [Months::Any, Months::Real] {
        growing(maker, months, 1);
    }
    for months in [Months::Any, Months::Real, Months::All(32)] {
        let table = random_table(&mut maker.random, 3, months, Place::Anywhere);
        let mut rules = random_rules(maker, &table, 12);
        rules.extend(spread_rules());
        stores(maker, &table, &rules);
        changed_rules(maker, &table);
    }
    for _ in 0..10 {
        appended(maker, 4, &late_rules(&[1, 2, 3, 5, 8, 13, 15]));
    }
    for _ in 0..300 {
        walk(maker, 60);
    }
}
