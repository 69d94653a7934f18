//! The kept state, by document 02's A4: a table, rules and up to two lunar years that were resolved; and
//! by A5 the mode that it was started with.
//! Each question is answered from the years that are stored; only what is not stored is resolved.
use crate::conversion::{
    BsDate, Table, accepted_from_ad, accepted_to_ad, ad_to_bs, bs_to_ad, validate_bs_date,
};
use crate::festivals::{self, Resolved, check_rules, computed_for_year, festivals_on};
use crate::gregorian::{Date, date};
use crate::grid::{Month, month_by};
use crate::mode::Mode;
use crate::{Answer, Refusal};

/// The table may have no row yet; else it is accepted, and so are the rules.
#[derive(Debug, Clone, PartialEq)]
pub struct Kept {
    pub table: Table,
    pub rules: Vec<u16>,
    pub mode: Mode,
    /// BS years of the table, rising, each with what it resolves to by this table, these rules and this mode.
    pub stored: Vec<(u16, Resolved)>,
}

/// The table years that one question draws computed rules from, taken from a state's store or, where
/// it has them not, resolved.
struct Drawn<'a> {
    state: &'a Kept,
    years: Vec<(u16, Resolved)>,
}

impl Drawn<'_> {
    fn year(&mut self, year: u16) -> Resolved {
        let Kept { table, rules, mode, stored } = self.state;
        let of_year = |(known, _): &&(u16, Resolved)| *known == year;
        if year < table.first_year {
            return Resolved::new();
        }
        if let Some((_, entries)) = self.years.iter().find(of_year) {
            return entries.clone();
        }
        let entries = match stored.iter().find(of_year) {
            Some((_, entries)) => entries.clone(),
            None => computed_for_year(table, rules, *mode, year),
        };
        self.years.push((year, entries.clone()));
        entries
    }
}

impl Kept {
    /// A state with no rows, no rules and nothing stored. 1, 14.
    pub fn start(first_year: u16, first_day: Date, mode: u16) -> Answer<Kept> {
        let is_good = (1..=3000).contains(&first_year)
            && first_day.check().is_ok()
            && (date(1901, 1, 1)..=date(2099, 12, 31)).contains(&first_day);
        if !is_good {
            return Err(1);
        }
        let (table, mode) = (Table { first_year, first_day, rows: Vec::new() }, Mode::of(mode)?);
        Ok(Kept { table, rules: Vec::new(), mode, stored: Vec::new() })
    }

    /// Other rules in the place of those held; nothing is stored then. 2.
    pub fn take_rules(&mut self, rules: &[u16]) -> Answer<()> {
        check_rules(rules)?;
        self.rules = rules.to_vec();
        self.forget();
        Ok(())
    }

    /// One year row more; what is stored stays stored, worked out over the longer table. 1.
    pub fn append_row(&mut self, row: &[u16]) -> Answer<()> {
        if row.len() != 13 {
            return Err(1);
        }
        let mut longer = self.table.clone();
        longer.rows.extend(row);
        longer.check()?;
        self.table = longer;
        self.stored = self.afresh();
        Ok(())
    }

    /// Nothing is stored then.
    pub fn forget(&mut self) {
        self.stored.clear();
    }

    /// The BS years that are stored, rising.
    pub fn stored_years(&self) -> Vec<u16> {
        self.stored.iter().map(|(year, _)| *year).collect()
    }

    /// The stored years, worked out afresh from the table, the rules and the mode that are held.
    pub fn afresh(&self) -> Vec<(u16, Resolved)> {
        let of = |year| (year, computed_for_year(&self.table, &self.rules, self.mode, year));
        self.stored_years().into_iter().map(of).collect()
    }

    /// 13.
    fn has_row(&self) -> Answer<()> {
        if self.table.rows.is_empty() { Err(13) } else { Ok(()) }
    }

    /// The Gregorian date of a BS date; the table is not checked again. 13, 4, 5, 6.
    pub fn bs_to_ad(&self, bs: BsDate) -> Answer<Date> {
        self.has_row()?;
        accepted_to_ad(&self.table, bs)
    }

    /// The BS date of a Gregorian date; the table is not checked again. 13, 3, 7 with the distance.
    pub fn ad_to_bs(&self, ad: Date) -> Result<BsDate, Refusal> {
        self.has_row()?;
        accepted_from_ad(&self.table, ad)
    }

    /// A good day's list. 9, which leaves the store.
    fn ask_day(&mut self, bs: BsDate, ad: Date, out: &mut [u16]) -> Answer<usize> {
        let mut drawn = Drawn { state: self, years: Vec::new() };
        let list = festivals_on(&self.rules, bs, ad, &mut |year| drawn.year(year));
        let years = drawn.years;
        let count = festivals::written(&list, out)?;
        self.stored = years;
        Ok(count)
    }

    /// A day's list by its BS date. 13, 4, 5, 6, 9.
    pub fn ask_bs(&mut self, bs: BsDate, out: &mut [u16]) -> Answer<usize> {
        self.has_row()?;
        validate_bs_date(&self.table, bs)?;
        let ad = bs_to_ad(&self.table, bs)?;
        self.ask_day(bs, ad, out)
    }

    /// A day's list by its Gregorian date. 13, 3, 7 with the distance, 9.
    pub fn ask_ad(&mut self, ad: Date, out: &mut [u16]) -> Result<usize, Refusal> {
        self.has_row()?;
        let bs = ad_to_bs(&self.table, ad)?;
        Ok(self.ask_day(bs, ad, out)?)
    }

    /// A month. 13, 3 for today, 4, 5, 9 for either buffer, which leaves the store.
    pub fn ask_month(
        &mut self,
        today: Date,
        month: (u16, u16),
        buffers: [&mut [u16]; 2],
    ) -> Answer<Month> {
        self.has_row()?;
        let mut drawn = Drawn { state: self, years: Vec::new() };
        let mut computed = |year| drawn.year(year);
        let Kept { table, rules, mode, .. } = &*self;
        let shown = month_by(table, rules, *mode, today, month, buffers, &mut computed)?;
        self.stored = drawn.years;
        Ok(shown)
    }
}
