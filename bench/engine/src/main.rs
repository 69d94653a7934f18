//! See `../run`. Prints a table: the time of a question to the port, to the parameterised Rust and to the Rust untouched, and the ratios; and one of
//! questions to a kept state.
mod kept;
mod port;
mod timing;
mod untouched;

use parameterised::conversion::{self, BsDate, Table};
use parameterised::festivals;
use parameterised::gregorian::Date;
use parameterised::grid;
use parameterised::mode::Mode;
use parameterised::panchanga::{self, Ut};
use parameterised::rulefile;
use parameterised::trig;
use parameterised::Answer;
use std::cell::RefCell;
use timing::{Ask, Timed};

const ROUNDS: usize = 41;
const COLD_ROUNDS: usize = 9;

/// Marsaglia's xorshift, from a fixed seed: each run has the same inputs.
struct Dice(u64);

impl Dice {
    fn bits(&mut self) -> u64 {
        self.0 ^= self.0 << 13;
        self.0 ^= self.0 >> 7;
        self.0 ^= self.0 << 17;
        self.0
    }
    fn below(&mut self, end: usize) -> usize {
        (self.bits() >> 11) as usize % end
    }
    fn real(&mut self, from: f64, to: f64) -> f64 {
        from + (to - from) * ((self.bits() >> 11) as f64 / (1u64 << 53) as f64)
    }
}

/// The numbers of a file, without its comments.
fn numbers_in(text: &str) -> Vec<u16> {
    text.lines()
        .flat_map(|line| line.split('#').next().unwrap_or("").split_whitespace())
        .map(|word| word.parse().expect("a number"))
        .collect()
}

/// The owner's table, which the Rust untouched has built in.
fn owner_table() -> Table {
    let numbers = numbers_in(include_str!("../../../data/owner.table"));
    Table {
        first_year: numbers[0],
        first_day: Date { year: numbers[1], month: numbers[2], day: numbers[3] },
        rows: numbers[4..].to_vec(),
    }
}

/// The list of rules that the Rust untouched was built with.
fn nepal_rules() -> Vec<u16> {
    rulefile::numbers(include_bytes!("../../../oracle/rules/nepal.rules")).expect("a rule file in form")
}

fn of_date(date: Date) -> u64 {
    (date.year as u64) << 32 | (date.month as u64) << 16 | date.day as u64
}

fn of_bs(bs: BsDate) -> u64 {
    of_date(Date { year: bs.year, month: bs.month, day: bs.day })
}

/// Numbers folded into one.
fn fold(numbers: &[u64]) -> u64 {
    numbers.iter().fold(0, |all, number| all.rotate_left(13) ^ number)
}

/// A time in a unit that suits it.
fn shown(seconds: f64) -> String {
    match seconds {
        s if s < 1e-6 => format!("{:.1} ns", s * 1e9),
        s if s < 1e-3 => format!("{:.2} µs", s * 1e6),
        s => format!("{:.2} ms", s * 1e3),
    }
}

struct Report {
    good: bool,
}

impl Report {
    fn row(&mut self, name: &str, rust: Timed, untouched: Option<Timed>) {
        let untouched = untouched.map_or("| ".to_string(), beside);
        println!("| {name} | {} | {} | {untouched} |", shown(rust.port), beside(rust));
    }

    /// Whether port and parameterised Rust, or the port asked in two ways, answer alike.
    fn alike(&mut self, name: &str, inputs: usize, port: &mut Ask, rust: &mut Ask) {
        let differing = (0..inputs).filter(|&i| port(i) != rust(i)).count();
        if differing > 0 {
            println!("| {name}: {differing} of {inputs} answers differ | | | | | |");
            self.good = false;
        }
    }

    /// Times a question over inputs, after it has seen that port and parameterised Rust answer alike.
    fn compared(&mut self, name: &str, inputs: usize, mut port: Ask, mut rust: Ask, untouched: Option<Ask>) {
        self.alike(name, inputs, &mut port, &mut rust);
        let timed = timing::rounds(ROUNDS, inputs, &mut port, &mut rust);
        let untouched = untouched.map(|mut ask| timing::rounds(ROUNDS, inputs, &mut port, &mut ask));
        self.row(name, timed, untouched);
    }

    /// The same for what the Rust untouched keeps from call to call: each of its inputs is asked once, and each must be of another year.
    fn cold(&mut self, name: &str, inputs: usize, mut port: Ask, mut rust: Ask, untouched: Option<Ask>) {
        self.alike(name, inputs, &mut port, &mut rust);
        let timed = timing::rounds(COLD_ROUNDS, inputs, &mut port, &mut rust);
        let untouched = untouched.map(|mut ask| timing::once(inputs, &mut port, &mut ask));
        self.row(name, timed, untouched);
    }

    /// A question to a kept state, beside the same question to the port without one, to a state of the parameterised Rust and to the Rust untouched, which
    /// keeps what it has worked out by itself. Each input was asked before it is timed.
    fn kept(&mut self, name: &str, inputs: usize, mut port: Ask, mut lent: Ask, mut rust: Ask, mut untouched: Ask) {
        self.alike(name, inputs, &mut port, &mut rust);
        self.alike(name, inputs, &mut port, &mut lent);
        let lent = timing::rounds(COLD_ROUNDS, inputs, &mut port, &mut lent);
        let rust = timing::rounds(ROUNDS, inputs, &mut port, &mut rust);
        for i in 0..inputs {
            untouched(i);
        }
        let untouched = timing::rounds(ROUNDS, inputs, &mut port, &mut untouched);
        let [lent, rust_column, untouched] = [lent, rust, untouched].map(beside);
        println!("| {name} | {} | {lent} | {rust_column} | {untouched} |", shown(rust.port));
    }
}

/// A time, and the ratio of the port's to it.
fn beside(timed: Timed) -> String {
    let places = if timed.ratio < 0.1 { 4 } else { 2 };
    format!("{} | {:.places$}", shown(timed.rust), timed.ratio)
}

fn sines(report: &mut Report, dice: &mut Dice) {
    let xs: Vec<f64> = (0..100_000).map(|_| dice.real(-60_000.0, 60_000.0)).collect();
    report.compared(
        "sine",
        xs.len(),
        Box::new(|i| port::sine(xs[i]).to_bits()),
        Box::new(|i| trig::sin(xs[i]).to_bits()),
        Some(Box::new(|i| untouched::sine(xs[i]))),
    );
}

/// Dates of all years of a table.
fn dates_of_table(dice: &mut Dice, table: &Table) -> Vec<BsDate> {
    let years = table.rows.len() / 13;
    (0..4_000)
        .map(|_| BsDate {
            year: table.first_year + dice.below(years) as u16,
            month: dice.below(12) as u16 + 1,
            day: dice.below(29) as u16 + 1,
        })
        .collect()
}

fn conversions(report: &mut Report, dice: &mut Dice, table: &Table) {
    let dates = dates_of_table(dice, table);
    report.compared(
        "BS to Gregorian",
        dates.len(),
        Box::new(|i| of_date(port::bs_to_ad(table, dates[i]).expect("a date"))),
        Box::new(|i| of_date(conversion::bs_to_ad(table, dates[i]).expect("a date"))),
        Some(Box::new(|i| untouched::bs_to_ad(dates[i]))),
    );
    let ads: Vec<Date> = dates.iter().map(|&bs| conversion::bs_to_ad(table, bs).expect("a date")).collect();
    report.compared(
        "Gregorian to BS",
        ads.len(),
        Box::new(|i| of_bs(port::ad_to_bs(table, ads[i]).expect("a date"))),
        Box::new(|i| of_bs(conversion::ad_to_bs(table, ads[i]).expect("a date"))),
        Some(Box::new(|i| untouched::ad_to_bs(ads[i]))),
    );
}

fn elongations(report: &mut Report, dice: &mut Dice) {
    let instants: Vec<f64> = (0..4_000).map(|_| dice.real(2430000.0, 2470000.0)).collect();
    report.compared(
        "elongation",
        instants.len(),
        Box::new(|i| port::elongation(instants[i]).expect("an instant").to_bits()),
        Box::new(|i| panchanga::elongation(Mode::True, Ut(instants[i])).expect("an instant").to_bits()),
        Some(Box::new(|i| untouched::elongation(instants[i]))),
    );
}

fn readings(report: &mut Report, dice: &mut Dice) {
    let dates: Vec<Date> =
        (0..100).map(|_| Date::from_day_number(2430000 + dice.below(40000) as i64).expect("a date")).collect();
    let numbers = |reading: [u16; 4]| fold(&reading.map(u64::from));
    report.compared(
        "reading",
        dates.len(),
        Box::new(|i| numbers(port::reading(dates[i]).expect("a date"))),
        Box::new(|i| {
            let reading = panchanga::reading(Mode::True, dates[i]).expect("a date");
            numbers([reading.tithi, reading.end, reading.sunrise, reading.sunset])
        }),
        Some(Box::new(|i| untouched::reading(dates[i]))),
    );
}

fn searches(report: &mut Report, dice: &mut Dice) {
    let years: Vec<(u16, f64)> =
        (0..12).map(|_| (dice.below(30) as u16 + 1, dice.real(2430000.0, 2470000.0))).collect();
    let out = RefCell::new([0.0; 40]);
    let starts = |count: usize, steps: usize| {
        let bits: Vec<u64> = out.borrow()[..count].iter().map(|start: &f64| start.to_bits()).collect();
        fold(&bits) ^ steps as u64
    };
    report.compared(
        "a year's search",
        years.len(),
        Box::new(|i| {
            let (tithi, from) = years[i];
            let found = port::tithi_starts_between(tithi, from, from + 365.25, &mut *out.borrow_mut());
            let (count, steps) = found.expect("a search");
            starts(count, steps)
        }),
        Box::new(|i| {
            let (tithi, from) = years[i];
            let (from, to) = (Ut(from), Ut(from + 365.25));
            let found = panchanga::tithi_starts_between(Mode::True, tithi, from, to, &mut *out.borrow_mut());
            let (count, steps) = found.expect("a search");
            starts(count, steps.into())
        }),
        Some(Box::new(|i| {
            let (tithi, from) = years[i];
            untouched::tithi_starts(tithi, from, from + 365.25)
        })),
    );
}

/// Days of the months 3 to 12, which need one lunar year, each of another BS year: every second year of the table from `from` on.
fn days_of_years(dice: &mut Dice, table: &Table, from: u16) -> Vec<BsDate> {
    (0..40)
        .map(|i| BsDate {
            year: table.first_year + from + 2 * i,
            month: dice.below(10) as u16 + 3,
            day: dice.below(29) as u16 + 1,
        })
        .collect()
}

type List = fn(&Table, &[u16], BsDate, &mut [u16]) -> Answer<usize>;
type Grid = fn(&Table, &[u16], Date, u16, u16, &mut [u16], &mut [u16]) -> Answer<grid::Month>;

fn day_lists(report: &mut Report, dice: &mut Dice, table: &Table) {
    let rules = nepal_rules();
    let days = days_of_years(dice, table, 0);
    let out = RefCell::new([0u16; 768]);
    let asked = |bs: BsDate, list: List| list(table, &rules, bs, &mut *out.borrow_mut()).expect("a list");
    let entries = |count: usize| {
        let numbers: Vec<u64> = out.borrow()[..2 * count].iter().map(|&n| n.into()).collect();
        fold(&numbers) ^ count as u64
    };
    let computed = festivals::records(&rules).filter(|rule| rule.kind == 3).count();
    report.cold(
        &format!("cold day list, {computed} computed rules"),
        days.len(),
        Box::new(|i| entries(asked(days[i], port::festivals_on))),
        Box::new(|i| entries(asked(days[i], |table, rules, bs, out| festivals::day_list_bs(table, rules, 0, bs, out)))),
        Some(Box::new(|i| untouched::festivals_on(days[i]))),
    );
}

fn month_grids(report: &mut Report, dice: &mut Dice, table: &Table) {
    let rules = nepal_rules();
    let days = days_of_years(dice, table, 1);
    let today = Date { year: 2026, month: 1, day: 1 };
    let out = RefCell::new(([0u16; 504], [0u16; 768]));
    let asked = |bs: BsDate, grid: Grid| {
        let (cells, festivals) = &mut *out.borrow_mut();
        grid(table, &rules, today, bs.year, bs.month, cells, festivals).expect("a month")
    };
    let shown = |month: grid::Month| {
        let (cells, festivals) = *out.borrow();
        let written = cells[..12 * month.cells].iter().chain(&festivals[..2 * month.festivals]);
        let numbers: Vec<u64> = written.map(|&n| n.into()).collect();
        fold(&numbers) ^ fold(&[month.days.into(), of_date(month.first), of_date(month.last)])
    };
    report.cold(
        "cold month grid, the same rules",
        days.len(),
        Box::new(|i| shown(asked(days[i], port::month_grid))),
        Box::new(|i| shown(asked(days[i], |table, rules, today, y, m, cells, names| grid::month_grid(table, rules, 0, today, y, m, cells, names)))),
        Some(Box::new(|i| untouched::month_grid(days[i], today))),
    );
}

/// Whether it is a holiday: on Saturdays, with what that needs below it, the date's conversion and the rules' acceptance; and on other days.
fn holidays(report: &mut Report, dice: &mut Dice, table: &Table) {
    let rules = nepal_rules();
    let is_saturday = |bs: &BsDate| conversion::bs_to_ad(table, *bs).and_then(|ad| ad.weekday()) == Ok(6);
    let (saturdays, others): (Vec<BsDate>, Vec<BsDate>) =
        (0..40).flat_map(|_| days_of_years(dice, table, 0)).partition(is_saturday);
    report.compared(
        "holiday on a Saturday",
        saturdays.len(),
        Box::new(|i| port::is_holiday(table, &rules, saturdays[i]).expect("a day").into()),
        Box::new(|i| festivals::is_holiday(table, &rules, 0, saturdays[i]).expect("a day").into()),
        None,
    );
    report.compared(
        "the same dates converted, the rules accepted",
        saturdays.len(),
        Box::new(|i| {
            port::check_rules(&rules).expect("rules");
            of_date(port::bs_to_ad(table, saturdays[i]).expect("a date"))
        }),
        Box::new(|i| {
            festivals::check_rules(&rules).expect("rules");
            of_date(conversion::bs_to_ad(table, saturdays[i]).expect("a date"))
        }),
        None,
    );
    report.cold(
        "holiday on another day, the same rules",
        40,
        Box::new(|i| port::is_holiday(table, &rules, others[i]).expect("a day").into()),
        Box::new(|i| festivals::is_holiday(table, &rules, 0, others[i]).expect("a day").into()),
        None,
    );
}

fn main() {
    let mut dice = Dice(88172645463325252);
    let mut report = Report { good: true };
    let table = owner_table();
    println!("| question | port | parameterised Rust | ratio | Rust untouched | ratio |");
    println!("|---|---|---|---|---|---|");
    sines(&mut report, &mut dice);
    conversions(&mut report, &mut dice, &table);
    elongations(&mut report, &mut dice);
    readings(&mut report, &mut dice);
    searches(&mut report, &mut dice);
    day_lists(&mut report, &mut dice, &table);
    month_grids(&mut report, &mut dice, &table);
    holidays(&mut report, &mut dice, &table);
    println!();
    println!("| question to a kept state | port | the port without a state | ratio | parameterised Rust | ratio | Rust untouched | ratio |");
    println!("|---|---|---|---|---|---|---|---|");
    kept::conversions(&mut report, &mut dice, &table);
    kept::days(&mut report, &mut dice, &table);
    kept::months(&mut report, &mut dice, &table);
    std::process::exit(!report.good as i32);
}
