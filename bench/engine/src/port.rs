//! What is timed of include/panel.h, for Rust. A refusal is an error.
use parameterised::Answer;
use parameterised::conversion::{BsDate, Table};
use parameterised::gregorian::Date;
use parameterised::grid::Month;

extern "C" {
    fn panel_sine(x: f64, value: &mut f64) -> u16;
    fn panel_elongation(ut: f64, degrees: &mut f64) -> u16;
    fn panel_tithi_starts_between(
        tithi: u16,
        from: f64,
        to: f64,
        starts: *mut f64,
        starts_len: usize,
        count: &mut usize,
        steps: &mut usize,
    ) -> u16;
    fn panel_reading(
        year: u16,
        month: u16,
        day: u16,
        tithi: &mut u16,
        end: &mut u16,
        sunrise: &mut u16,
        sunset: &mut u16,
    ) -> u16;
    fn panel_bs_to_ad(
        first_year: u16,
        first_ad_year: u16,
        first_ad_month: u16,
        first_ad_day: u16,
        rows: *const u16,
        rows_len: usize,
        year: u16,
        month: u16,
        day: u16,
        ad_year: &mut u16,
        ad_month: &mut u16,
        ad_day: &mut u16,
    ) -> u16;
    fn panel_ad_to_bs(
        first_year: u16,
        first_ad_year: u16,
        first_ad_month: u16,
        first_ad_day: u16,
        rows: *const u16,
        rows_len: usize,
        year: u16,
        month: u16,
        day: u16,
        bs_year: &mut u16,
        bs_month: &mut u16,
        bs_day: &mut u16,
        before: &mut u32,
        after: &mut u32,
    ) -> u16;
    fn panel_festivals_on(
        first_year: u16,
        first_ad_year: u16,
        first_ad_month: u16,
        first_ad_day: u16,
        rows: *const u16,
        rows_len: usize,
        rules: *const u16,
        rules_len: usize,
        year: u16,
        month: u16,
        day: u16,
        festivals: *mut u16,
        festivals_len: usize,
        count: &mut usize,
    ) -> u16;
    fn panel_check_rules(rules: *const u16, rules_len: usize) -> u16;
    fn panel_is_holiday(
        first_year: u16,
        first_ad_year: u16,
        first_ad_month: u16,
        first_ad_day: u16,
        rows: *const u16,
        rows_len: usize,
        rules: *const u16,
        rules_len: usize,
        year: u16,
        month: u16,
        day: u16,
        holiday: &mut u16,
    ) -> u16;
    fn panel_month_grid(
        first_year: u16,
        first_ad_year: u16,
        first_ad_month: u16,
        first_ad_day: u16,
        rows: *const u16,
        rows_len: usize,
        rules: *const u16,
        rules_len: usize,
        today_year: u16,
        today_month: u16,
        today_day: u16,
        year: u16,
        month: u16,
        cells: *mut u16,
        cells_len: usize,
        festivals: *mut u16,
        festivals_len: usize,
        days: &mut u16,
        from_year: &mut u16,
        from_month: &mut u16,
        from_day: &mut u16,
        to_year: &mut u16,
        to_month: &mut u16,
        to_day: &mut u16,
        cell_count: &mut usize,
        festival_count: &mut usize,
    ) -> u16;
    fn panel_kept_start(
        first_year: u16,
        first_ad_year: u16,
        first_ad_month: u16,
        first_ad_day: u16,
        state: *mut u16,
        state_len: usize,
    ) -> u16;
    fn panel_kept_take_rules(state: *mut u16, state_len: usize, rules: *const u16, rules_len: usize) -> u16;
    fn panel_kept_append_row(state: *mut u16, state_len: usize, row: *const u16, row_len: usize) -> u16;
    fn panel_kept_festivals_on(
        state: *mut u16,
        state_len: usize,
        year: u16,
        month: u16,
        day: u16,
        festivals: *mut u16,
        festivals_len: usize,
        count: &mut usize,
    ) -> u16;
    fn panel_kept_month_grid(
        state: *mut u16,
        state_len: usize,
        today_year: u16,
        today_month: u16,
        today_day: u16,
        year: u16,
        month: u16,
        cells: *mut u16,
        cells_len: usize,
        festivals: *mut u16,
        festivals_len: usize,
        days: &mut u16,
        from_year: &mut u16,
        from_month: &mut u16,
        from_day: &mut u16,
        to_year: &mut u16,
        to_month: &mut u16,
        to_day: &mut u16,
        cell_count: &mut usize,
        festival_count: &mut usize,
    ) -> u16;
    fn panel_kept_bs_to_ad(
        state: *const u16,
        state_len: usize,
        year: u16,
        month: u16,
        day: u16,
        ad_year: &mut u16,
        ad_month: &mut u16,
        ad_day: &mut u16,
    ) -> u16;
    fn panel_kept_ad_to_bs(
        state: *const u16,
        state_len: usize,
        year: u16,
        month: u16,
        day: u16,
        bs_year: &mut u16,
        bs_month: &mut u16,
        bs_day: &mut u16,
        before: &mut u32,
        after: &mut u32,
    ) -> u16;
}

fn answered<T>(code: u16, value: T) -> Answer<T> {
    if code == 0 { Ok(value) } else { Err(code) }
}

pub fn sine(x: f64) -> f64 {
    let mut value = 0.0;
    unsafe { panel_sine(x, &mut value) };
    value
}

pub fn elongation(ut: f64) -> Answer<f64> {
    let mut degrees = 0.0;
    let code = unsafe { panel_elongation(ut, &mut degrees) };
    answered(code, degrees)
}

pub fn tithi_starts_between(tithi: u16, from: f64, to: f64, out: &mut [f64]) -> Answer<(usize, usize)> {
    let (mut count, mut steps) = (0, 0);
    let code = unsafe {
        panel_tithi_starts_between(tithi, from, to, out.as_mut_ptr(), out.len(), &mut count, &mut steps)
    };
    answered(code, (count, steps))
}

pub fn reading(date: Date) -> Answer<[u16; 4]> {
    let [mut tithi, mut end, mut rise, mut set] = [0; 4];
    let code = unsafe {
        panel_reading(date.year, date.month, date.day, &mut tithi, &mut end, &mut rise, &mut set)
    };
    answered(code, [tithi, end, rise, set])
}

pub fn bs_to_ad(table: &Table, bs: BsDate) -> Answer<Date> {
    let mut ad = Date { year: 0, month: 0, day: 0 };
    let first = table.first_day;
    let code = unsafe {
        panel_bs_to_ad(
            table.first_year,
            first.year,
            first.month,
            first.day,
            table.rows.as_ptr(),
            table.rows.len(),
            bs.year,
            bs.month,
            bs.day,
            &mut ad.year,
            &mut ad.month,
            &mut ad.day,
        )
    };
    answered(code, ad)
}

pub fn ad_to_bs(table: &Table, ad: Date) -> Answer<BsDate> {
    let mut bs = BsDate { year: 0, month: 0, day: 0 };
    let (mut before, mut after) = (0, 0);
    let first = table.first_day;
    let code = unsafe {
        panel_ad_to_bs(
            table.first_year,
            first.year,
            first.month,
            first.day,
            table.rows.as_ptr(),
            table.rows.len(),
            ad.year,
            ad.month,
            ad.day,
            &mut bs.year,
            &mut bs.month,
            &mut bs.day,
            &mut before,
            &mut after,
        )
    };
    answered(code, bs)
}

pub fn festivals_on(table: &Table, rules: &[u16], bs: BsDate, out: &mut [u16]) -> Answer<usize> {
    let mut count = 0;
    let first = table.first_day;
    let code = unsafe {
        panel_festivals_on(
            table.first_year,
            first.year,
            first.month,
            first.day,
            table.rows.as_ptr(),
            table.rows.len(),
            rules.as_ptr(),
            rules.len(),
            bs.year,
            bs.month,
            bs.day,
            out.as_mut_ptr(),
            out.len(),
            &mut count,
        )
    };
    answered(code, count)
}

pub fn check_rules(rules: &[u16]) -> Answer<()> {
    let code = unsafe { panel_check_rules(rules.as_ptr(), rules.len()) };
    answered(code, ())
}

pub fn is_holiday(table: &Table, rules: &[u16], bs: BsDate) -> Answer<bool> {
    let mut holiday = 0;
    let first = table.first_day;
    let code = unsafe {
        panel_is_holiday(
            table.first_year,
            first.year,
            first.month,
            first.day,
            table.rows.as_ptr(),
            table.rows.len(),
            rules.as_ptr(),
            rules.len(),
            bs.year,
            bs.month,
            bs.day,
            &mut holiday,
        )
    };
    answered(code, holiday == 1)
}

pub fn month_grid(
    table: &Table,
    rules: &[u16],
    today: Date,
    year: u16,
    month: u16,
    cells: &mut [u16],
    festivals: &mut [u16],
) -> Answer<Month> {
    let none = Date { year: 0, month: 0, day: 0 };
    let mut shown = Month { days: 0, first: none, last: none, cells: 0, festivals: 0 };
    let first = table.first_day;
    let code = unsafe {
        panel_month_grid(
            table.first_year,
            first.year,
            first.month,
            first.day,
            table.rows.as_ptr(),
            table.rows.len(),
            rules.as_ptr(),
            rules.len(),
            today.year,
            today.month,
            today.day,
            year,
            month,
            cells.as_mut_ptr(),
            cells.len(),
            festivals.as_mut_ptr(),
            festivals.len(),
            &mut shown.days,
            &mut shown.first.year,
            &mut shown.first.month,
            &mut shown.first.day,
            &mut shown.last.year,
            &mut shown.last.month,
            &mut shown.last.day,
            &mut shown.cells,
            &mut shown.festivals,
        )
    };
    answered(code, shown)
}

/// PANEL_KEPT.
const KEPT: usize = 4488;

/// A kept state: the array that the calls take.
pub struct State([u16; KEPT]);

impl State {
    /// A state with a table and rules, nothing stored.
    pub fn of(table: &Table, rules: &[u16]) -> Answer<State> {
        let mut state = State([0; KEPT]);
        let (first, at) = (table.first_day, state.0.as_mut_ptr());
        let code = unsafe { panel_kept_start(table.first_year, first.year, first.month, first.day, at, KEPT) };
        answered(code, ())?;
        let code = unsafe { panel_kept_take_rules(at, KEPT, rules.as_ptr(), rules.len()) };
        answered(code, ())?;
        for row in table.rows.chunks(13) {
            let code = unsafe { panel_kept_append_row(at, KEPT, row.as_ptr(), row.len()) };
            answered(code, ())?;
        }
        Ok(state)
    }

    pub fn festivals_on(&mut self, bs: BsDate, out: &mut [u16]) -> Answer<usize> {
        let mut count = 0;
        let code = unsafe {
            panel_kept_festivals_on(
                self.0.as_mut_ptr(),
                KEPT,
                bs.year,
                bs.month,
                bs.day,
                out.as_mut_ptr(),
                out.len(),
                &mut count,
            )
        };
        answered(code, count)
    }

    pub fn month_grid(
        &mut self,
        today: Date,
        year: u16,
        month: u16,
        cells: &mut [u16],
        festivals: &mut [u16],
    ) -> Answer<Month> {
        let none = Date { year: 0, month: 0, day: 0 };
        let mut shown = Month { days: 0, first: none, last: none, cells: 0, festivals: 0 };
        let code = unsafe {
            panel_kept_month_grid(
                self.0.as_mut_ptr(),
                KEPT,
                today.year,
                today.month,
                today.day,
                year,
                month,
                cells.as_mut_ptr(),
                cells.len(),
                festivals.as_mut_ptr(),
                festivals.len(),
                &mut shown.days,
                &mut shown.first.year,
                &mut shown.first.month,
                &mut shown.first.day,
                &mut shown.last.year,
                &mut shown.last.month,
                &mut shown.last.day,
                &mut shown.cells,
                &mut shown.festivals,
            )
        };
        answered(code, shown)
    }

    pub fn bs_to_ad(&self, bs: BsDate) -> Answer<Date> {
        let mut ad = Date { year: 0, month: 0, day: 0 };
        let code = unsafe {
            panel_kept_bs_to_ad(
                self.0.as_ptr(),
                KEPT,
                bs.year,
                bs.month,
                bs.day,
                &mut ad.year,
                &mut ad.month,
                &mut ad.day,
            )
        };
        answered(code, ad)
    }

    pub fn ad_to_bs(&self, ad: Date) -> Answer<BsDate> {
        let mut bs = BsDate { year: 0, month: 0, day: 0 };
        let (mut before, mut after) = (0, 0);
        let code = unsafe {
            panel_kept_ad_to_bs(
                self.0.as_ptr(),
                KEPT,
                ad.year,
                ad.month,
                ad.day,
                &mut bs.year,
                &mut bs.month,
                &mut bs.day,
                &mut before,
                &mut after,
            )
        };
        answered(code, bs)
    }
}
