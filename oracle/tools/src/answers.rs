//! Oracle P's answers in the line language.
use crate::lines::{Grid, Lent, Operation, Query, float_word, hex_word};
use parameterised::conversion::{self, BsDate};
use parameterised::gregorian::Date;
use parameterised::grid::Month;
use parameterised::kept::Kept;
use parameterised::mode::Mode;
use parameterised::panchanga::{self, KALAS, Tt, Ut};
use parameterised::{Answer, Refusal, festivals, grid, rulefile, trig};

/// What every element of a buffer is before the call.
pub const FILL: u16 = 7;

/// The refusal number and what it carries, or `0` and the values.
fn told<R: Into<Refusal>>(answer: Result<String, R>) -> String {
    match answer.map_err(Into::into) {
        Ok(values) if values.is_empty() => "0".into(),
        Ok(values) => format!("0 {values}"),
        Err(Refusal::Outside(days)) => format!("7 {days}"),
        Err(Refusal::OutOfForm(line)) => format!("12 {line}"),
        Err(Refusal::Bare(number)) => number.to_string(),
    }
}

pub fn date_words(date: Date) -> String {
    format!("{} {} {}", date.year, date.month, date.day)
}

pub fn bs_words(bs: BsDate) -> String {
    format!("{} {} {}", bs.year, bs.month, bs.day)
}

/// An answer, then every element of a buffer.
pub fn with_buffer(answer: String, words: impl Iterator<Item = String>) -> String {
    words.fold(answer + " |", |line, word| line + " " + &word)
}

fn instant_word(instant: Option<Ut>) -> String {
    instant.map_or("none".into(), |at| float_word(at.0))
}

fn pair_words(pair: Option<(Ut, Ut)>) -> String {
    pair.map_or("none".into(), |(a, b)| format!("{} {}", float_word(a.0), float_word(b.0)))
}

fn day_words(date: Date) -> Answer<String> {
    let next = date.next().map_or("none".into(), date_words);
    Ok(format!("{} {} {next}", date.day_number()?, date.weekday()?))
}

fn reading_words(mode: Mode, date: Date) -> Answer<String> {
    let r = panchanga::reading(mode, date)?;
    Ok(format!("{} {} {} {}", r.tithi, r.end, r.sunrise, r.sunset))
}

fn starts_line(mode: Answer<Mode>, tithi: u16, (from, to): (f64, f64), length: u16) -> String {
    let mut buffer = vec![FILL as f64; length as usize];
    let answer = mode.and_then(|mode| {
        panchanga::tithi_starts_between(mode, tithi, Ut(from), Ut(to), &mut buffer)
    });
    let answer = told(answer.map(|(count, steps)| format!("{count} {steps}")));
    with_buffer(answer, buffer.into_iter().map(float_word))
}

/// A call that fills a buffer and answers a count.
fn count_line<R: Into<Refusal>>(
    length: u16,
    list: impl FnOnce(&mut [u16]) -> Result<usize, R>,
) -> String {
    let mut buffer = vec![FILL; length as usize];
    let answer = told(list(&mut buffer).map(|count| count.to_string()));
    with_buffer(answer, buffer.into_iter().map(|word| word.to_string()))
}

fn write_rules_line(rules: &[u16], length: u16) -> String {
    let mut buffer = vec![FILL as u8; length as usize];
    let answer = told(rulefile::write_rules(rules, &mut buffer).map(|count| count.to_string()));
    let word = (!buffer.is_empty()).then(|| hex_word(&buffer));
    with_buffer(answer, word.into_iter())
}

/// A call that shows a month in its two buffers.
fn grid_line(asked: Grid, month: impl FnOnce([&mut [u16]; 2]) -> Answer<Month>) -> String {
    let mut cells = vec![FILL; asked.cells as usize];
    let mut names = vec![FILL; asked.festivals as usize];
    let answer = told(month([&mut cells, &mut names]).map(|m| {
        let (first, last) = (date_words(m.first), date_words(m.last));
        format!("{} {first} {last} {} {}", m.days, m.cells, m.festivals)
    }));
    let answer = with_buffer(answer, cells.into_iter().map(|word| word.to_string()));
    with_buffer(answer, names.into_iter().map(|word| word.to_string()))
}

/// The answer of a state, which may be another after it; `rules` are those that are lent.
pub fn state_line(state: &mut Kept, rules: &[u16], operation: Operation) -> String {
    told(match operation {
        Operation::Take => state.take_rules(rules).map(|()| String::new()),
        Operation::Append(row) => state.append_row(&row).map(|()| String::new()),
        Operation::AskBs(bs, length) => return count_line(length, |out| state.ask_bs(bs, out)),
        Operation::AskAd(ad, length) => return count_line(length, |out| state.ask_ad(ad, out)),
        Operation::AskGrid(asked) => {
            let month = (asked.year, asked.month);
            return grid_line(asked, |buffers| state.ask_month(asked.today, month, buffers));
        }
        Operation::Forget => {
            state.forget();
            Answer::Ok(String::new())
        }
        Operation::Stored => {
            let years: Vec<String> = state.stored_years().iter().map(u16::to_string).collect();
            Ok(years.join(" "))
        }
    })
}

/// A state anew, in place of the one there is; none where it is refused.
fn start_line(lent: &mut Lent, first_year: u16, first_day: Date) -> String {
    let started = Kept::start(first_year, first_day, lent.mode);
    let answer = told(started.as_ref().map(|_| String::new()).map_err(|number| *number));
    lent.state = started.ok();
    answer
}

/// The answers that follow the mode but those with a buffer.
fn sky_words(mode: Mode, query: Query) -> Answer<String> {
    match query {
        Query::Elongation(ut) => panchanga::elongation(mode, Ut(ut)).map(float_word),
        Query::Tithi(ut) => panchanga::tithi_at(mode, Ut(ut)).map(|tithi| tithi.to_string()),
        Query::End(ut) => panchanga::tithi_end(mode, Ut(ut)).map(instant_word),
        Query::Events(date) => panchanga::sun_events(mode, date).map(pair_words),
        Query::Rise(date) => panchanga::sunrise(mode, date).map(instant_word),
        Query::Set(date) => panchanga::sunset(mode, date).map(instant_word),
        Query::Kala(date, kala) => {
            panchanga::kala_instant(mode, date, KALAS[kala as usize]).map(instant_word)
        }
        Query::Nishita(date) => panchanga::nishita_window(mode, date).map(pair_words),
        Query::Read(date) => reading_words(mode, date),
        _ => unreachable!("no question on the sky"),
    }
}

pub fn answer(lent: &mut Lent, query: Query) -> String {
    let (table, rules, mode) = (&lent.table, &lent.rules, lent.mode);
    told(match query {
        Query::Check => table.check().map(|()| String::new()),
        Query::CheckRules => festivals::check_rules(rules).map(|()| String::new()),
        Query::Bs(bs) => conversion::bs_to_ad(table, bs).map(date_words),
        Query::Ad(ad) => return told(conversion::ad_to_bs(table, ad).map(bs_words)),
        Query::Holiday(bs) => {
            festivals::is_holiday(table, rules, mode, bs).map(|yes| (yes as u16).to_string())
        }
        Query::Len(year, month) => {
            conversion::bs_month_len(table, year, month).map(|days| days.to_string())
        }
        Query::Valid(bs) => conversion::validate_bs_date(table, bs).map(|()| String::new()),
        Query::Step(year, month, delta) => {
            grid::step_month(table, year, month, delta).map(|(y, m)| format!("{y} {m}"))
        }
        Query::Day(date) => day_words(date),
        Query::DateOf(number) => Date::from_day_number(number as i64).map(date_words),
        Query::JulianDay(date, fraction) => {
            panchanga::julian_day(date, fraction).map(|at| float_word(at.0))
        }
        Query::DeltaT(year) => Ok(float_word(panchanga::delta_t(year))),
        Query::Tt(ut) => panchanga::tt_from_ut(Ut(ut)).map(|tt| float_word(tt.0)),
        Query::Sun(tt) => panchanga::sun_longitude(Tt(tt)).map(float_word),
        Query::Moon(tt) => panchanga::moon_longitude(Tt(tt)).map(float_word),
        Query::TithiOf(elongation) => Ok(panchanga::tithi_of(elongation).to_string()),
        Query::NptDate(ut) => panchanga::npt_date(Ut(ut)).map(date_words),
        Query::Clock(ut) => panchanga::npt_clock(Ut(ut)).map(|minute| minute.to_string()),
        Query::Minutes(fraction) => Ok(panchanga::minutes_of(fraction).to_string()),
        Query::Sin(x) => Ok(float_word(trig::sin(x))),
        Query::Cos(x) => Ok(float_word(trig::cos(x))),
        Query::Asin(x) => Ok(float_word(trig::asin(x))),
        Query::Acos(x) => Ok(float_word(trig::acos(x))),
        Query::Tan(x) => Ok(float_word(trig::tan(x))),
        Query::ReadRules(length) => {
            return count_line(length, |out| rulefile::read_rules(&lent.text, out));
        }
        Query::WriteRules(length) => return write_rules_line(rules, length),
        Query::Starts(tithi, from, to, length) => {
            return starts_line(Mode::of(mode), tithi, (from, to), length);
        }
        Query::ListBs(bs, length) => {
            return count_line(length, |out| festivals::day_list_bs(table, rules, mode, bs, out));
        }
        Query::ListAd(ad, length) => {
            return count_line(length, |out| festivals::day_list_ad(table, rules, mode, ad, out));
        }
        Query::Grid(asked) => {
            let Grid { today, year, month, .. } = asked;
            return grid_line(asked, |[cells, names]| {
                grid::month_grid(table, rules, mode, today, year, month, cells, names)
            });
        }
        Query::Start(first_year, first_day) => return start_line(lent, first_year, first_day),
        Query::State(operation) => match &mut lent.state {
            Some(state) => return state_line(state, rules, operation),
            None => return "?".into(),
        },
        on_sky => Mode::of(mode).and_then(|mode| sky_words(mode, on_sky)),
    })
}
