//! Questions to a kept state. A second day and a second month are of a BS year that the state has stored since an earlier question.
use crate::{dates_of_table, fold, nepal_rules, of_bs, of_date, port, untouched, Dice, Report};
use parameterised::conversion::{self, BsDate, Table};
use parameterised::gregorian::Date;
use parameterised::grid::Month;
use parameterised::kept::Kept;
use parameterised::Answer;
use std::cell::RefCell;

/// The years of the table whose days are asked: the first of them, how far they are apart, how many.
const FIRST: u16 = 10;
const APART: u16 = 20;
const YEARS: u16 = 4;

/// So many days of each of the months 3 to 12 of these years: the days of a year all draw computed rules from that year alone.
fn days_of_months(dice: &mut Dice, table: &Table, each: usize) -> Vec<BsDate> {
    let years = (0..YEARS).map(|i| table.first_year + FIRST + APART * i);
    let months = years.flat_map(|year| (3..=12).map(move |month| (year, month)));
    let all = months.flat_map(|month| std::iter::repeat(month).take(each));
    all.map(|(year, month)| BsDate { year, month, day: dice.below(29) as u16 + 1 }).collect()
}

/// A state of the parameterised Rust with a table and rules, nothing stored.
fn of_rust(table: &Table, rules: &[u16]) -> Kept {
    let mut state = Kept::start(table.first_year, table.first_day, 0).expect("a start");
    state.take_rules(rules).expect("rules");
    table.rows.chunks(13).for_each(|row| state.append_row(row).expect("a row"));
    state
}

/// For each of the years a state of the port and one of the parameterised Rust, so that each keeps its year.
struct States {
    port: RefCell<Vec<port::State>>,
    rust: RefCell<Vec<Kept>>,
    first_year: u16,
}

impl States {
    fn of(table: &Table, rules: &[u16]) -> States {
        States {
            port: RefCell::new((0..YEARS).map(|_| port::State::of(table, rules).expect("a state")).collect()),
            rust: RefCell::new((0..YEARS).map(|_| of_rust(table, rules)).collect()),
            first_year: table.first_year,
        }
    }

    /// Which of the states keeps a day's year.
    fn at(&self, bs: BsDate) -> usize {
        ((bs.year - self.first_year - FIRST) / APART) as usize
    }

    fn ask_port<T>(&self, bs: BsDate, ask: impl FnOnce(&mut port::State) -> T) -> T {
        ask(&mut self.port.borrow_mut()[self.at(bs)])
    }

    fn ask_rust<T>(&self, bs: BsDate, ask: impl FnOnce(&mut Kept) -> T) -> T {
        ask(&mut self.rust.borrow_mut()[self.at(bs)])
    }
}

pub fn conversions(report: &mut Report, dice: &mut Dice, table: &Table) {
    let dates = dates_of_table(dice, table);
    let (state, rust) = (port::State::of(table, &[]).expect("a state"), of_rust(table, &[]));
    report.kept(
        "BS to Gregorian",
        dates.len(),
        Box::new(|i| of_date(state.bs_to_ad(dates[i]).expect("a date"))),
        Box::new(|i| of_date(port::bs_to_ad(table, dates[i]).expect("a date"))),
        Box::new(|i| of_date(rust.bs_to_ad(dates[i]).expect("a date"))),
        Box::new(|i| untouched::bs_to_ad(dates[i])),
    );
    let ads: Vec<Date> = dates.iter().map(|&bs| conversion::bs_to_ad(table, bs).expect("a date")).collect();
    report.kept(
        "Gregorian to BS",
        ads.len(),
        Box::new(|i| of_bs(state.ad_to_bs(ads[i]).expect("a date"))),
        Box::new(|i| of_bs(port::ad_to_bs(table, ads[i]).expect("a date"))),
        Box::new(|i| of_bs(rust.ad_to_bs(ads[i]).expect("a date"))),
        Box::new(|i| untouched::ad_to_bs(ads[i])),
    );
}

/// A number made of a list that is asked for.
fn listed(out: &RefCell<[u16; 768]>, ask: impl FnOnce(&mut [u16]) -> Answer<usize>) -> u64 {
    let out = &mut *out.borrow_mut();
    let count = ask(out).expect("a list");
    let numbers: Vec<u64> = out[..2 * count].iter().map(|&n| n.into()).collect();
    fold(&numbers) ^ count as u64
}

pub fn days(report: &mut Report, dice: &mut Dice, table: &Table) {
    let rules = nepal_rules();
    let days = days_of_months(dice, table, 4);
    let states = States::of(table, &rules);
    let out = RefCell::new([0; 768]);
    report.kept(
        "a second day",
        days.len(),
        Box::new(|i| listed(&out, |out| states.ask_port(days[i], |state| state.festivals_on(days[i], out)))),
        Box::new(|i| listed(&out, |out| port::festivals_on(table, &rules, days[i], out))),
        Box::new(|i| listed(&out, |out| states.ask_rust(days[i], |state| state.ask_bs(days[i], out)))),
        Box::new(|i| untouched::festivals_on(days[i])),
    );
}

/// The two buffers of a month.
type Buffers = RefCell<([u16; 504], [u16; 768])>;

/// A number made of a month that is asked for.
fn shown(out: &Buffers, ask: impl FnOnce(&mut [u16], &mut [u16]) -> Answer<Month>) -> u64 {
    let (cells, festivals) = &mut *out.borrow_mut();
    let month = ask(cells, festivals).expect("a month");
    let written = cells[..12 * month.cells].iter().chain(&festivals[..2 * month.festivals]);
    let numbers: Vec<u64> = written.map(|&n| n.into()).collect();
    fold(&numbers) ^ fold(&[month.days.into(), of_date(month.first), of_date(month.last)])
}

pub fn months(report: &mut Report, dice: &mut Dice, table: &Table) {
    let rules = nepal_rules();
    let days = days_of_months(dice, table, 1);
    let states = States::of(table, &rules);
    let today = Date { year: 2026, month: 1, day: 1 };
    let out: Buffers = RefCell::new(([0; 504], [0; 768]));
    report.kept(
        "a second month",
        days.len(),
        Box::new(|i| {
            let BsDate { year, month, .. } = days[i];
            shown(&out, |cells, festivals| {
                states.ask_port(days[i], |state| state.month_grid(today, year, month, cells, festivals))
            })
        }),
        Box::new(|i| {
            let BsDate { year, month, .. } = days[i];
            shown(&out, |cells, festivals| port::month_grid(table, &rules, today, year, month, cells, festivals))
        }),
        Box::new(|i| {
            let BsDate { year, month, .. } = days[i];
            shown(&out, |cells, festivals| {
                states.ask_rust(days[i], |state| state.ask_month(today, (year, month), [cells, festivals]))
            })
        }),
        Box::new(|i| untouched::month_grid(days[i], today)),
    );
}
