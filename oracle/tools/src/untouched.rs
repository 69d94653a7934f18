//! The Rust untouched (oracle U) in the line language, wherever it can be asked: within document
//! 01's ranges, over its own table and, for lists and grids, over a rule list it was built with.
use crate::answers::{FILL, bs_words, date_words, state_line, with_buffer};
use crate::lines::{Grid, Lent, Operation, Query, float_word};
use crate::tables;
use chrono::{Datelike, Duration, NaiveDate};
use parameterised::conversion::{BsDate, Table};
use parameterised::gregorian::Date;
use parameterised::kept::Kept;
use parameterised::mode::Mode;
use untouched_nepal as rust;
use untouched_nepal::panchanga::{self, Kala};

/// A word that the Rust does not tell.
pub const UNTOLD: &str = "*";

pub fn date_of(date: NaiveDate) -> Date {
    Date { year: date.year() as u16, month: date.month() as u16, day: date.day() as u16 }
}

/// A date of document 01 as chrono's.
fn naive(date: Date) -> Option<NaiveDate> {
    date.check().ok()?;
    NaiveDate::from_ymd_opt(date.year as i32, date.month as u32, date.day as u32)
}

/// The Rust keeps months and days in a byte.
fn narrow(bs: BsDate) -> Option<rust::BsDate> {
    let (month, day) = (bs.month.try_into().ok()?, bs.day.try_into().ok()?);
    Some(rust::BsDate { year: bs.year, month, day })
}

fn wide(bs: rust::BsDate) -> BsDate {
    BsDate { year: bs.year, month: bs.month as u16, day: bs.day as u16 }
}

/// The refusal number that an error stands for; the Rust does not tell how far outside a date is.
fn refusal(error: rust::NcalError) -> String {
    match error {
        rust::NcalError::InvalidYearRange { .. } => "4".into(),
        rust::NcalError::InvalidMonth => "5".into(),
        rust::NcalError::InvalidDay => "6".into(),
        rust::NcalError::UnsupportedAdDate => format!("7 {UNTOLD}"),
        _ => "an error of the command line".into(),
    }
}

fn told(answer: Result<String, rust::NcalError>) -> String {
    answer.map_or_else(refusal, |values| format!("0 {values}"))
}

fn instant(x: f64) -> Option<f64> {
    (2400000.0..=2510000.0).contains(&x).then_some(x)
}

fn tt_day(x: f64) -> Option<f64> {
    (2399999.0..=2510001.0).contains(&x).then_some(x)
}

fn float(x: f64) -> Option<String> {
    Some(format!("0 {}", float_word(x)))
}

fn event(at: Option<f64>) -> Option<String> {
    Some(at.map_or("0 none".into(), |at| format!("0 {}", float_word(at))))
}

fn pair(pair: Option<(f64, f64)>) -> Option<String> {
    let words = |(a, b)| format!("0 {} {}", float_word(a), float_word(b));
    Some(pair.map_or("0 none".into(), words))
}

fn date_line(date: NaiveDate) -> Option<String> {
    let date = date_of(date);
    date.check().ok()?;
    Some(format!("0 {}", date_words(date)))
}

fn day_line(date: NaiveDate) -> Option<String> {
    let number = panchanga::julian_day(date, 0.5);
    let next = date_line(date.succ_opt()?).map_or("none".into(), |line| line[2..].to_string());
    Some(format!("0 {number} {} {next}", date.weekday().num_days_from_sunday()))
}

const KALAS: [Kala; 6] =
    [Kala::Udaya, Kala::Madhyanna, Kala::Aparahna, Kala::Pradosh, Kala::Nishita, Kala::Begins];

/// Minutes of "HH:MM", 1440 for none.
fn minutes(clock: &Option<String>) -> u16 {
    let number = |text: &str| text.parse::<u16>().expect("HH:MM");
    clock.as_ref().map_or(1440, |clock| number(&clock[..2]) * 60 + number(&clock[3..]))
}

fn starts_line(tithi: u16, from: f64, to: f64, length: u16) -> Option<String> {
    let is_search = (1..=30).contains(&tithi) && to - from <= 768.0;
    instant(from).and(instant(to)).filter(|_| is_search)?;
    let starts = panchanga::tithi_starts_between(tithi as u8, from, to);
    if starts.len() > length as usize {
        return None;
    }
    let answer = format!("0 {} {UNTOLD}", starts.len());
    let rest = vec![FILL as f64; length as usize - starts.len()];
    Some(with_buffer(answer, starts.into_iter().chain(rest).map(float_word)))
}

/// Numbers as they stand in a buffer of a length, or nothing where they do not fit.
fn in_buffer(answer: String, mut numbers: Vec<u16>, length: u16) -> Option<String> {
    if numbers.len() > length as usize {
        return None;
    }
    numbers.resize(length as usize, FILL);
    Some(with_buffer(answer, numbers.into_iter().map(|number| number.to_string())))
}

/// The Rust over one of its rule lists: its lists and grids as numbers.
macro_rules! lists {
    ($module:ident, $rust:ident) => {
        mod $module {
            use super::{date_of, minutes};
            use chrono::{Datelike, NaiveDate};
            use parameterised::gregorian::Date;
            use $rust::festivals::Festival;
            use $rust::{BsDate, festivals, grid};

            fn entries(list: &[Festival]) -> impl Iterator<Item = u16> + '_ {
                let number = |name: &str| name.parse::<u16>().expect("numbers serve as names");
                list.iter().flat_map(move |entry| [number(&entry.en), entry.holiday as u16])
            }

            pub fn list(year: u16, month: u8, day: u8, ad: NaiveDate) -> Vec<u16> {
                entries(&festivals::festivals_on(BsDate { year, month, day }, ad)).collect()
            }

            fn cell(cell: &grid::DayCell) -> [u16; 12] {
                let reading = &cell.panchanga;
                [
                    cell.bs_day as u16,
                    cell.ad.year() as u16,
                    cell.ad.month() as u16,
                    cell.ad_day as u16,
                    cell.weekday as u16,
                    cell.is_today as u16,
                    cell.is_holiday as u16,
                    reading.tithi as u16,
                    minutes(&reading.tithi_ends),
                    minutes(&reading.sunrise),
                    minutes(&reading.sunset),
                    cell.festivals.len() as u16,
                ]
            }

            /// Days, first and last date, cells and festivals.
            pub type Month = (u16, Date, Date, Vec<u16>, Vec<u16>);

            pub fn month(year: u16, month: u8, today: NaiveDate) -> Option<Month> {
                let month = grid::month_grid(year, month, today).ok()?;
                let padded = month.weeks.iter().flatten();
                let cells = padded.flat_map(|day| day.as_ref().map_or([0; 12], cell)).collect();
                let days = month.weeks.iter().flatten().flatten();
                let names = days.flat_map(|day| entries(&day.festivals)).collect();
                let (first, last) = (date_of(month.start_ad), date_of(month.end_ad));
                Some((month.days as u16, first, last, cells, names))
            }
        }
    };
}
lists!(nepal, untouched_nepal);
lists!(stress, untouched_stress);

/// Whether a question follows the mode that is lent: the Rust has mode 0 alone.
fn follows_mode(query: &Query) -> bool {
    matches!(
        query,
        Query::Elongation(_)
            | Query::Tithi(_)
            | Query::Starts(..)
            | Query::End(_)
            | Query::Events(_)
            | Query::Rise(_)
            | Query::Set(_)
            | Query::Kala(..)
            | Query::Nishita(_)
            | Query::Read(_)
            | Query::ListBs(..)
            | Query::ListAd(..)
            | Query::Holiday(_)
            | Query::Grid(_)
    )
}

/// Answers as the Rust untouched does.
pub struct Untouched {
    table: Table,
    nepal: Vec<u16>,
    stress: Vec<u16>,
}

impl Default for Untouched {
    fn default() -> Self {
        Untouched {
            table: tables::owner_table(),
            nepal: tables::nepal_rules(),
            stress: tables::stress_rules(),
        }
    }
}

impl Untouched {
    fn list(&self, rules: &[u16], bs: BsDate, ad: NaiveDate) -> Option<Vec<u16>> {
        let bs = narrow(bs)?;
        let list = match rules {
            rules if rules == self.nepal => nepal::list,
            rules if rules == self.stress => stress::list,
            _ => return None,
        };
        Some(list(bs.year, bs.month, bs.day, ad))
    }

    fn list_line(&self, rules: &[u16], bs: BsDate, ad: NaiveDate, length: u16) -> Option<String> {
        let list = self.list(rules, bs, ad)?;
        in_buffer(format!("0 {}", list.len() / 2), list, length)
    }

    fn month(
        &self,
        rules: &[u16],
        year: u16,
        month: u16,
        today: NaiveDate,
    ) -> Option<nepal::Month> {
        let month = month.try_into().ok()?;
        match rules {
            rules if rules == self.nepal => nepal::month(year, month, today),
            rules if rules == self.stress => stress::month(year, month, today),
            _ => None,
        }
    }

    /// The holiday field of a day's cell in its month's grid.
    fn holiday_line(&self, rules: &[u16], bs: BsDate) -> Option<String> {
        let today = rust::bs_to_ad(narrow(bs)?).ok()?;
        let (_, _, _, cells, _) = self.month(rules, bs.year, bs.month, today)?;
        let cell = cells.chunks(12).find(|cell| cell[0] == bs.day)?;
        Some(format!("0 {}", cell[6]))
    }

    fn grid_line(&self, rules: &[u16], asked: Grid) -> Option<String> {
        let Grid { today, year, month, cells, festivals } = asked;
        let (days, first, last, in_cells, names) = self.month(rules, year, month, naive(today)?)?;
        let counts = format!("{} {}", in_cells.len() / 12, names.len() / 2);
        let answer = format!("0 {days} {} {} {counts}", date_words(first), date_words(last));
        in_buffer(in_buffer(answer, in_cells, cells)?, names, festivals)
    }

    /// Questions about a table, which must be the Rust's own, and rules.
    fn of_table(&self, table: &Table, rules: &[u16], query: Query) -> Option<String> {
        if *table != self.table {
            return None;
        }
        match query {
            Query::Bs(bs) => {
                Some(told(rust::bs_to_ad(narrow(bs)?).map(|ad| date_words(date_of(ad)))))
            }
            Query::Ad(ad) => Some(told(rust::ad_to_bs(naive(ad)?).map(|bs| bs_words(wide(bs))))),
            Query::Len(year, month) => {
                let length = rust::bs_month_len(year, month.try_into().ok()?);
                Some(told(length.map(|days| days.to_string())))
            }
            Query::Valid(bs) => {
                let valid = rust::validate_bs_date(narrow(bs)?);
                Some(valid.map_or_else(refusal, |()| "0".into()))
            }
            Query::Step(year, month, delta) => {
                (year as i32 * 12 + month as i32 - 1).checked_add(delta)?;
                let step = rust::grid::step_month(year, month, delta);
                Some(step.map_or("10".into(), |(year, month)| format!("0 {year} {month}")))
            }
            Query::ListBs(bs, length) => {
                self.list_line(rules, bs, rust::bs_to_ad(narrow(bs)?).ok()?, length)
            }
            Query::ListAd(ad, length) => {
                let bs = wide(rust::ad_to_bs(naive(ad)?).ok()?);
                self.list_line(rules, bs, naive(ad)?, length)
            }
            Query::Holiday(bs) => self.holiday_line(rules, bs),
            Query::Grid(asked) => self.grid_line(rules, asked),
            _ => None,
        }
    }

    /// Questions to the state: a day and a month are asked over the table and the rules that it holds.
    fn of_state(&self, lent: &mut Lent, operation: Operation) -> Option<String> {
        let state = lent.state.as_mut()?;
        let plain = match operation {
            Operation::AskBs(bs, length) => Query::ListBs(bs, length),
            Operation::AskAd(ad, length) => Query::ListAd(ad, length),
            Operation::AskGrid(asked) => Query::Grid(asked),
            of_store => {
                state_line(state, &lent.rules, of_store);
                return None;
            }
        };
        if state.mode != Mode::True {
            return None;
        }
        self.of_table(&state.table, &state.rules, plain)
    }

    /// The answer, or nothing where the Rust has none or document 01 has another.
    pub fn answer(&self, lent: &mut Lent, query: Query) -> Option<String> {
        if lent.mode != 0 && follows_mode(&query) {
            return None;
        }
        match query {
            Query::Start(first_year, first_day) => {
                lent.state = Kept::start(first_year, first_day, lent.mode).ok();
                None
            }
            Query::State(operation) => self.of_state(lent, operation),
            Query::Day(date) => day_line(naive(date)?),
            Query::JulianDay(date, fraction) => {
                float(instant(panchanga::julian_day(naive(date)?, fraction))?)
            }
            Query::DeltaT(year) => float(panchanga::delta_t(year)),
            Query::Sun(tt) => float(panchanga::sun_longitude(tt_day(tt)?)),
            Query::Moon(tt) => float(panchanga::moon_longitude(tt_day(tt)?)),
            Query::Elongation(ut) => float(panchanga::elongation(instant(ut)?)),
            Query::Tithi(ut) => Some(format!("0 {}", panchanga::tithi_at(instant(ut)?))),
            Query::Starts(tithi, from, to, length) => starts_line(tithi, from, to, length),
            Query::End(ut) => {
                event(panchanga::tithi_end(instant(ut).and(instant(ut + 2.5)).and(Some(ut))?))
            }
            Query::Events(date) => pair(panchanga::sun_events(naive(date)?)),
            Query::Rise(date) => event(panchanga::sunrise(naive(date)?)),
            Query::Set(date) => event(panchanga::sunset(naive(date)?)),
            Query::Kala(date, kala) => {
                let date = naive(date)?;
                if KALAS[kala as usize] == Kala::Nishita {
                    naive(date_of(date + Duration::days(1)))?;
                }
                event(panchanga::kala_instant(date, KALAS[kala as usize]))
            }
            Query::Nishita(date) => {
                let date = naive(date)?;
                naive(date_of(date + Duration::days(1)))?;
                pair(panchanga::nishita_window(date))
            }
            Query::NptDate(ut) => date_line(panchanga::npt_date(instant(ut)?)?),
            Query::Read(date) => {
                let reading = panchanga::Reading::for_date(naive(date)?);
                let clocks = [&reading.tithi_ends, &reading.sunrise, &reading.sunset];
                let [end, rise, set] = clocks.map(minutes);
                Some(format!("0 {} {end} {rise} {set}", reading.tithi))
            }
            of_table => self.of_table(&lent.table, &lent.rules, of_table),
        }
    }
}
