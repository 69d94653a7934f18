//! lib.rs: BS and Gregorian dates over a lent year table.
use crate::gregorian::{Date, date};
use crate::{Answer, Refusal};

/// A lent year table: rows of twelve month lengths and their sum, in one flat list.
#[derive(Debug, Clone, PartialEq, Eq)]
pub struct Table {
    pub first_year: u16,
    pub first_day: Date,
    pub rows: Vec<u16>,
}

#[derive(Debug, Clone, Copy, PartialEq, Eq, PartialOrd, Ord)]
pub struct BsDate {
    pub year: u16,
    pub month: u16,
    pub day: u16,
}

impl Table {
    /// 1.
    pub fn check(&self) -> Answer<()> {
        let shaped = (1..=3000).contains(&self.first_year)
            && self.rows.len() % 13 == 0
            && (1..=128).contains(&(self.rows.len() / 13));
        if !shaped || !self.rows.chunks(13).all(is_year) {
            return Err(1);
        }
        let first = self.first_day.day_number().map_err(|_| 1u16)?;
        let days: i64 = self.rows.chunks(13).map(|row| row[12] as i64).sum();
        let earliest = date(1901, 1, 1).day_number()?;
        let latest = date(2099, 12, 31).day_number()?;
        if first < earliest || first + days - 1 > latest {
            return Err(1);
        }
        Ok(())
    }

    pub fn last_year(&self) -> u16 {
        self.first_year + (self.rows.len() / 13) as u16 - 1
    }

    /// A year's row of an accepted table. 4.
    fn row(&self, year: u16) -> Answer<&[u16]> {
        if year < self.first_year || year > self.last_year() {
            return Err(4);
        }
        let at = (year - self.first_year) as usize * 13;
        Ok(&self.rows[at..at + 13])
    }
}

fn is_year(row: &[u16]) -> bool {
    row[..12].iter().all(|days| (29..=32).contains(days))
        && row[..12].iter().sum::<u16>() == row[12]
}

/// 1, 4, 5.
pub fn bs_month_len(table: &Table, year: u16, month: u16) -> Answer<u16> {
    table.check()?;
    accepted_month_len(table, year, month)
}

/// Of an accepted table. 4, 5.
fn accepted_month_len(table: &Table, year: u16, month: u16) -> Answer<u16> {
    let row = table.row(year)?;
    if !(1..=12).contains(&month) {
        return Err(5);
    }
    Ok(row[month as usize - 1])
}

/// 1, 4, 5, 6.
pub fn validate_bs_date(table: &Table, bs: BsDate) -> Answer<()> {
    table.check()?;
    validate_accepted(table, bs)
}

/// Of an accepted table. 4, 5, 6.
fn validate_accepted(table: &Table, bs: BsDate) -> Answer<()> {
    let length = accepted_month_len(table, bs.year, bs.month)?;
    if bs.day == 0 || bs.day > length {
        return Err(6);
    }
    Ok(())
}

/// 1, 4, 5, 6.
pub fn bs_to_ad(table: &Table, bs: BsDate) -> Answer<Date> {
    table.check()?;
    accepted_to_ad(table, bs)
}

/// Of an accepted table. 4, 5, 6.
pub fn accepted_to_ad(table: &Table, bs: BsDate) -> Answer<Date> {
    validate_accepted(table, bs)?;
    let mut number = table.first_day.day_number()?;
    for year in table.first_year..bs.year {
        number += table.row(year)?[12] as i64;
    }
    for month in &table.row(bs.year)?[..bs.month as usize - 1] {
        number += *month as i64;
    }
    Date::from_day_number(number + bs.day as i64 - 1)
}

/// 1, 3, 7 with the distance.
pub fn ad_to_bs(table: &Table, ad: Date) -> Result<BsDate, Refusal> {
    table.check()?;
    accepted_from_ad(table, ad)
}

/// Of an accepted table. 3, 7 with the distance.
pub fn accepted_from_ad(table: &Table, ad: Date) -> Result<BsDate, Refusal> {
    let mut rest = ad.day_number()? - table.first_day.day_number()?;
    if rest < 0 {
        return Err(Refusal::Outside(rest));
    }
    for (i, row) in table.rows.chunks(13).enumerate() {
        if rest >= row[12] as i64 {
            rest -= row[12] as i64;
            continue;
        }
        for (j, length) in row[..12].iter().enumerate() {
            if rest < *length as i64 {
                return Ok(BsDate {
                    year: table.first_year + i as u16,
                    month: j as u16 + 1,
                    day: rest as u16 + 1,
                });
            }
            rest -= *length as i64;
        }
    }
    // What is left counts from 0 on the day after the last.
    Err(Refusal::Outside(rest + 1))
}
