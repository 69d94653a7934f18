//! What oracle P reads from the sky on every day of a year table, for a comparison with an ephemeris.
//! A line for each day: year, month and day; then for each mode sunrise and sunset, the tithi at
//! sunrise and its end; then the TT day of mode 0's sunrise, the sun's true longitude and the moon's.
//! Instants are Julian days.
//!
//!   sky TABLE
use parameterised::Answer;
use parameterised::conversion::Table;
use parameterised::gregorian::Date;
use parameterised::mode::{MODES, Mode};
use parameterised::panchanga::{self, Ut};
use std::process::ExitCode;
use tools::tables::table_of;

/// Sunrise, sunset, the tithi at sunrise and its end, with a space before each.
fn by_mode(mode: Mode, date: Date) -> Answer<String> {
    let (rise, set) = panchanga::sun_events(mode, date)?.expect("a sunrise over Kathmandu");
    let tithi = panchanga::tithi_at(mode, rise)?;
    let Ut(end) = panchanga::tithi_end(mode, rise)?.expect("a tithi ends in 2.5 days");
    Ok(format!(" {} {} {tithi} {end}", rise.0, set.0))
}

fn line(date: Date) -> Answer<String> {
    let Date { year, month, day } = date;
    let rise = panchanga::sunrise(Mode::True, date)?.expect("a sunrise over Kathmandu");
    let tt = panchanga::tt_from_ut(rise)?;
    let [plain, apparent] = MODES.map(|mode| by_mode(mode, date));
    let (sun, moon) = (panchanga::sun_longitude(tt)?, panchanga::moon_longitude(tt)?);
    Ok(format!("{year} {month} {day}{}{} {} {sun} {moon}", plain?, apparent?, tt.0))
}

fn lines(table: &Table) -> Answer<()> {
    let first = table.first_day.day_number()?;
    let days: i64 = table.rows.chunks(13).map(|row| row[12] as i64).sum();
    for number in first..first + days {
        println!("{}", line(Date::from_day_number(number)?)?);
    }
    Ok(())
}

fn main() -> ExitCode {
    let Some(path) = std::env::args().nth(1) else {
        eprintln!("sky: TABLE");
        return ExitCode::from(2);
    };
    let text = std::fs::read_to_string(path).expect("the table can be read");
    lines(&table_of(&text)).expect("a table that is accepted");
    ExitCode::SUCCESS
}
