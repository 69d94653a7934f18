//! Year tables and rule lists to ask about.
use crate::random::Random;
use parameterised::conversion::Table;
use parameterised::gregorian::{Date, date};
use parameterised::rulefile;
use untouched_nepal::{BS_REFERENCE, BS_START_YEAR, BsDate, bs_to_ad};

/// The table of the Rust untouched.
pub fn owner_table() -> Table {
    let first = bs_to_ad(BsDate { year: BS_START_YEAR, month: 1, day: 1 }).expect("its first day");
    Table {
        first_year: BS_START_YEAR,
        first_day: crate::untouched::date_of(first),
        rows: BS_REFERENCE.iter().flatten().copied().collect(),
    }
}

/// The table of a table file; `#` starts a comment.
pub fn table_of(text: &str) -> Table {
    let bodies = text.lines().filter_map(|line| line.split('#').next());
    let words = bodies.flat_map(str::split_whitespace);
    let all: Vec<u16> = words.map(|word| word.parse().expect("a number")).collect();
    Table { first_year: all[0], first_day: date(all[1], all[2], all[3]), rows: all[4..].to_vec() }
}

/// The numbers of a rule file in form.
pub fn rules_of(text: &[u8]) -> Vec<u16> {
    rulefile::numbers(text).expect("a rule file in form")
}

/// oracle/rules/nepal.rules.
pub fn nepal_rules() -> Vec<u16> {
    rules_of(include_bytes!("../../rules/nepal.rules"))
}

/// The table of `ask`'s sample.
pub fn ask_table() -> Table {
    table_of(include_str!("../../../crates/ask/data/table"))
}

/// The rules of `ask`'s sample.
pub fn ask_rules() -> Vec<u16> {
    rules_of(include_bytes!("../../../crates/ask/data/rules"))
}

/// oracle/rules/stress.rules: as many rules of each kind as are accepted, few names.
pub fn stress_rules() -> Vec<u16> {
    rules_of(include_bytes!("../../rules/stress.rules"))
}

/// How the months of a random table are drawn.
#[derive(Debug, Clone, Copy, PartialEq, Eq)]
pub enum Months {
    /// Any lengths from 29 to 32.
    Any,
    /// Lengths as the owner's table has them, so that the solar year is kept.
    Real,
    /// All of this length.
    All(u16),
}

/// One row: twelve lengths and their sum.
pub fn random_row(random: &mut Random, months: Months) -> [u16; 13] {
    let mut row = [0; 13];
    let real = random.below(BS_REFERENCE.len());
    for (i, place) in row[..12].iter_mut().enumerate() {
        *place = match months {
            Months::Any => random.whole(29, 32) as u16,
            Months::Real => BS_REFERENCE[real][i],
            Months::All(length) => length,
        };
    }
    row[12] = row[..12].iter().sum();
    row
}

pub fn random_rows(random: &mut Random, years: usize, months: Months) -> Vec<u16> {
    (0..years).flat_map(|_| random_row(random, months)).collect()
}

fn days(rows: &[u16]) -> i64 {
    rows.chunks(13).map(|row| row[12] as i64).sum()
}

/// Where a random table stands in the accepted span of days.
#[derive(Debug, Clone, Copy, PartialEq, Eq)]
pub enum Place {
    /// The first day is 1901-01-01.
    First,
    /// The last day is 2099-12-31.
    Last,
    Anywhere,
}

/// The first day that puts rows at a place.
pub fn first_day(random: &mut Random, rows: &[u16], place: Place) -> Date {
    let number = |date: Date| date.day_number().expect("a date");
    let (earliest, latest) =
        (number(date(1901, 1, 1)), number(date(2099, 12, 31)) - days(rows) + 1);
    let first = match place {
        Place::First => earliest,
        Place::Last => latest,
        Place::Anywhere => random.whole(earliest, latest),
    };
    Date::from_day_number(first).expect("the rows fit")
}

/// An accepted table.
pub fn random_table(random: &mut Random, years: usize, months: Months, place: Place) -> Table {
    let rows = random_rows(random, years, months);
    let first_day = first_day(random, &rows, place);
    let first_year = match random.below(4) {
        0 => random.one_of(&[1, 2, 2999, 3000]),
        _ => random.whole(1, 3000) as u16,
    };
    Table { first_year, first_day, rows }
}
