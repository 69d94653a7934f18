//! grid.rs: a month as flat cells, and steps from month to month.
use crate::Answer;
use crate::conversion::{BsDate, Table, bs_month_len, bs_to_ad};
use crate::festivals::{Entry, Resolved, accepted, computed_for_year, festivals_on};
use crate::gregorian::{Date, SATURDAY};
use crate::mode::Mode;
use crate::panchanga;

const CELL: usize = 12;

/// What the grid call answers beside its two buffers.
#[derive(Debug, Clone, Copy, PartialEq, Eq)]
pub struct Month {
    pub days: u16,
    pub first: Date,
    pub last: Date,
    pub cells: usize,
    pub festivals: usize,
}

fn cell(mode: Mode, day: u16, ad: Date, today: Date, festivals: &[Entry]) -> Answer<[u16; CELL]> {
    let weekday = ad.weekday()?;
    let holiday = weekday == SATURDAY || festivals.iter().any(|entry| entry.holiday == 1);
    let reading = panchanga::reading(mode, ad)?;
    Ok([
        day,
        ad.year,
        ad.month,
        ad.day,
        weekday,
        (ad == today) as u16,
        holiday as u16,
        reading.tithi,
        reading.end,
        reading.sunrise,
        reading.sunset,
        festivals.len() as u16,
    ])
}

/// A month of an accepted table; `computed` gives a year's computed entries. 3 for today, 4, 5, 9 for
/// either buffer.
pub fn month_by(
    table: &Table,
    rules: &[u16],
    mode: Mode,
    today: Date,
    (year, month): (u16, u16),
    [cell_buffer, festival_buffer]: [&mut [u16]; 2],
    computed: &mut dyn FnMut(u16) -> Resolved,
) -> Answer<Month> {
    today.check()?;
    let days = bs_month_len(table, year, month)?;
    let ad_of = |day| bs_to_ad(table, BsDate { year, month, day });
    let (first, last) = (ad_of(1)?, ad_of(days)?);

    let mut cells = vec![0; CELL * first.weekday()? as usize];
    let mut festivals = Vec::new();
    for day in 1..=days {
        let ad = ad_of(day)?;
        let list = festivals_on(rules, BsDate { year, month, day }, ad, computed);
        cells.extend(cell(mode, day, ad, today, &list)?);
        festivals.extend(list.iter().flat_map(|entry| [entry.name, entry.holiday]));
    }
    while cells.len() % (7 * CELL) > 0 {
        cells.push(0);
    }

    if cell_buffer.len() < cells.len() || festival_buffer.len() < festivals.len() {
        return Err(9);
    }
    cell_buffer[..cells.len()].copy_from_slice(&cells);
    festival_buffer[..festivals.len()].copy_from_slice(&festivals);
    Ok(Month { days, first, last, cells: cells.len() / CELL, festivals: festivals.len() / 2 })
}

/// 1, 2, 14, 3 for today, 4, 5, 9 for either buffer.
pub fn month_grid(
    table: &Table,
    rules: &[u16],
    mode: u16,
    today: Date,
    year: u16,
    month: u16,
    cells: &mut [u16],
    festivals: &mut [u16],
) -> Answer<Month> {
    let mode = accepted(table, rules, mode)?;
    // Each lunar year is resolved once in a call: the answer is as if each day resolved it afresh.
    let mut resolved: Vec<(u16, Resolved)> = Vec::new();
    let mut computed = |year: u16| match resolved.iter().find(|(known, _)| *known == year) {
        Some((_, entries)) => entries.clone(),
        None => {
            resolved.push((year, computed_for_year(table, rules, mode, year)));
            resolved[resolved.len() - 1].1.clone()
        }
    };
    month_by(table, rules, mode, today, (year, month), [cells, festivals], &mut computed)
}

/// 1, 10.
pub fn step_month(table: &Table, year: u16, month: u8, delta: i32) -> Answer<(u16, u16)> {
    table.check()?;
    let absolute = year as i64 * 12 + (month as i64 - 1) + delta as i64;
    let new_year = absolute.div_euclid(12);
    if new_year < table.first_year as i64 || new_year > table.last_year() as i64 {
        return Err(10);
    }
    Ok((new_year as u16, absolute.rem_euclid(12) as u16 + 1))
}
