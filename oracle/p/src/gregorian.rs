//! Gregorian dates, 1 January 1900 to 31 December 2149, where the Rust has chrono.
use crate::Answer;

/// Three numbers, which need not be a date: every question asks.
#[derive(Debug, Clone, Copy, PartialEq, Eq, PartialOrd, Ord)]
pub struct Date {
    pub year: u16,
    pub month: u16,
    pub day: u16,
}

/// The day number of 1900-01-01.
pub const FIRST: i64 = 2_415_021;
/// The day number of 2149-12-31.
pub const LAST: i64 = 2_506_331;
/// The weekday of rest.
pub const SATURDAY: u16 = 6;

pub fn is_leap(year: u16) -> bool {
    year % 4 == 0 && (year % 100 != 0 || year % 400 == 0)
}

/// The days of a month, 0 for a month that is none.
pub fn month_length(year: u16, month: u16) -> u16 {
    match month {
        2 => 28 + is_leap(year) as u16,
        4 | 6 | 9 | 11 => 30,
        1..=12 => 31,
        _ => 0,
    }
}

pub const fn date(year: u16, month: u16, day: u16) -> Date {
    Date { year, month, day }
}

impl Date {
    /// 3.
    pub fn check(self) -> Answer<()> {
        let is_date = (1900..=2149).contains(&self.year)
            && (1..=month_length(self.year, self.month)).contains(&self.day);
        if is_date { Ok(()) } else { Err(3) }
    }

    /// The Julian day number of the date's noon (Meeus ch. 7 in whole numbers). 3.
    pub fn day_number(self) -> Answer<i64> {
        self.check()?;
        let (mut y, mut m) = (self.year as i64, self.month as i64);
        if m <= 2 {
            y -= 1;
            m += 12;
        }
        let a = y / 100;
        let b = 2 - a + a / 4;
        Ok(1461 * (y + 4716) / 4 + 306001 * (m + 1) / 10000 + self.day as i64 + b - 1524)
    }

    /// The weekday, 0 for Sunday. 3.
    pub fn weekday(self) -> Answer<u16> {
        Ok(((self.day_number()? + 1) % 7) as u16)
    }

    /// The Julian day at 0h. 3.
    pub fn midnight(self) -> Answer<f64> {
        Ok(self.day_number()? as f64 - 0.5)
    }

    /// The next date. 3, also after the last date.
    pub fn next(self) -> Answer<Date> {
        self.check()?;
        let next = if self.day < month_length(self.year, self.month) {
            date(self.year, self.month, self.day + 1)
        } else if self.month < 12 {
            date(self.year, self.month + 1, 1)
        } else {
            date(self.year + 1, 1, 1)
        };
        next.check()?;
        Ok(next)
    }

    /// The date of a day number, found by walking years and months. 3.
    pub fn from_day_number(number: i64) -> Answer<Date> {
        let mut rest = number - FIRST;
        if rest < 0 {
            return Err(3);
        }
        for year in 1900..=2149 {
            let length = 365 + is_leap(year) as i64;
            if rest >= length {
                rest -= length;
                continue;
            }
            for month in 1..=12 {
                let length = month_length(year, month) as i64;
                if rest < length {
                    return Ok(date(year, month, rest as u16 + 1));
                }
                rest -= length;
            }
        }
        Err(3)
    }
}
