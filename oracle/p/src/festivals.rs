//! festivals.rs over a lent rule list; every lunar year is resolved afresh.
use crate::conversion::{BsDate, Table, ad_to_bs, bs_month_len, bs_to_ad, validate_bs_date};
use crate::gregorian::{Date, SATURDAY};
use crate::mode::Mode;
use crate::panchanga::{self, KALAS, Kala, Ut};
use crate::{Answer, Refusal};

/// One record of a rule list.
#[derive(Debug, Clone, Copy)]
pub struct Rule {
    pub kind: u16,
    pub year: u16,
    pub month: u16,
    pub day: u16,
    pub half: u16,
    pub kala: u16,
    pub name: u16,
    pub holiday: u16,
}

/// One entry of a day's list.
#[derive(Debug, Clone, Copy, PartialEq, Eq)]
pub struct Entry {
    pub name: u16,
    pub holiday: u16,
}

/// A lunar year that was resolved: its computed entries with their days.
pub type Resolved = Vec<(BsDate, Entry)>;

/// The whole records of a flat list.
pub fn records(rules: &[u16]) -> impl Iterator<Item = Rule> + '_ {
    rules.chunks_exact(8).map(|r| Rule {
        kind: r[0],
        year: r[1],
        month: r[2],
        day: r[3],
        half: r[4],
        kala: r[5],
        name: r[6],
        holiday: r[7],
    })
}

/// The records of a kind.
pub fn of_kind(rules: &[u16], kind: u16) -> impl Iterator<Item = Rule> + '_ {
    records(rules).filter(move |rule| rule.kind == kind)
}

impl Rule {
    fn is_good(&self) -> bool {
        let (most_day, most_half, most_kala) = match self.kind {
            1 | 4 => (32, 0, 0),
            2 => (31, 0, 0),
            3 => (15, 1, 5),
            _ => return false,
        };
        (self.kind == 4 || self.year == 0)
            && (1..=12).contains(&self.month)
            && (1..=most_day).contains(&self.day)
            && self.half <= most_half
            && self.kala <= most_kala
            && self.holiday <= 1
    }

    fn entry(&self) -> Entry {
        Entry { name: self.name, holiday: self.holiday }
    }

    /// The tithi of a computed rule, 1 to 30.
    fn tithi(&self) -> u16 {
        self.day + 15 * self.half
    }
}

/// 2.
pub fn check_rules(rules: &[u16]) -> Answer<()> {
    let few = |kind: u16, most: usize| of_kind(rules, kind).count() <= most;
    let good = rules.len() % 8 == 0
        && records(rules).all(|rule| rule.is_good())
        && few(1, 64)
        && few(2, 64)
        && few(3, 64)
        && few(4, 128);
    if good { Ok(()) } else { Err(2) }
}

/// The new moons that open a year's lunar months: the last one in each solar month.
pub fn lunar_month_starts(table: &Table, mode: Mode, year: u16) -> [Option<Ut>; 12] {
    let mut places = [None; 12];
    let length = match bs_month_len(table, year, 12) {
        Ok(length) => length,
        Err(_) => return places,
    };
    let midnight = |month, day| bs_to_ad(table, BsDate { year, month, day })?.midnight();
    let (first, last) = match (midnight(1, 1), midnight(12, length)) {
        (Ok(first), Ok(last)) => (first, last),
        _ => return places,
    };
    let (moons, _) = panchanga::tithi_starts(mode, 1, Ut(first - 35.0), Ut(last + 5.0))
        .expect("a table year can be searched");
    for moon in moons {
        let ad = panchanga::npt_date(moon).ok();
        let bs = match ad.and_then(|ad| ad_to_bs(table, ad).ok()) {
            Some(bs) => bs,
            None => continue,
        };
        if bs.year == year {
            places[bs.month as usize - 1] = Some(moon);
        }
    }
    places
}

/// Whether a tithi from `start` to `end` claims a day.
fn claims(mode: Mode, day: Date, kala: Kala, start: Ut, end: Ut) -> bool {
    if kala == Kala::Nishita {
        let window = panchanga::nishita_window(mode, day).ok().flatten();
        window.map_or(false, |(from, to)| start <= from && to <= end)
    } else {
        let instant = panchanga::kala_instant(mode, day, kala).ok().flatten();
        instant.map_or(false, |instant| start <= instant && instant < end)
    }
}

/// The day that a tithi which begins at `start` is kept on.
fn festival_date(mode: Mode, start: Ut, tithi: u16, kala: Kala) -> Option<Date> {
    let begin = panchanga::npt_date(start).ok()?;
    if kala == Kala::Begins {
        return Some(begin);
    }
    let next = panchanga::next_tithi(tithi);
    let end = panchanga::first_start(mode, next, Ut(start.0 + 0.1), Ut(start.0 + 2.5)).ok()??;
    for offset in -1..=2 {
        let day = Date::from_day_number(begin.day_number().ok()? + offset).ok()?;
        if claims(mode, day, kala, start, end) {
            return Some(day);
        }
    }
    if kala != Kala::Udaya {
        return festival_date(mode, start, tithi, Kala::Udaya);
    }
    Some(begin)
}

/// A year's computed entries, in the order of the list.
pub fn computed_for_year(table: &Table, rules: &[u16], mode: Mode, year: u16) -> Resolved {
    let moons = lunar_month_starts(table, mode, year);
    let mut found = Vec::new();
    for rule in of_kind(rules, 3) {
        let moon = match moons[rule.month as usize - 1] {
            Some(moon) => moon,
            None => continue,
        };
        let tithi = rule.tithi();
        let start = if tithi == 1 {
            Some(moon)
        } else {
            panchanga::first_start(mode, tithi, Ut(moon.0 + 0.5), Ut(moon.0 + 30.0))
                .expect("a lunar month can be searched")
        };
        let kala = KALAS[rule.kala as usize];
        let ad = match start.and_then(|start| festival_date(mode, start, tithi, kala)) {
            Some(ad) => ad,
            None => continue,
        };
        let bs = match ad_to_bs(table, ad) {
            Ok(bs) => bs,
            Err(_) => continue,
        };
        found.push((bs, rule.entry()));
    }
    found
}

/// A good day's list; `computed` gives a year's computed entries.
pub fn festivals_on(
    rules: &[u16],
    bs: BsDate,
    ad: Date,
    computed: &mut dyn FnMut(u16) -> Resolved,
) -> Vec<Entry> {
    let mut found: Vec<Entry> = Vec::new();
    let on_bs = |rule: &Rule| (rule.month, rule.day) == (bs.month, bs.day);
    let on_ad = |rule: &Rule| (rule.month, rule.day) == (ad.month, ad.day);
    let of_year = |rule: &Rule| rule.year == bs.year;
    let silenced = |name| of_kind(rules, 4).any(|rule| of_year(&rule) && rule.name == name);

    found.extend(of_kind(rules, 1).filter(on_bs).map(|rule| rule.entry()));
    found.extend(of_kind(rules, 2).filter(on_ad).map(|rule| rule.entry()));
    let years = if bs.month <= 2 { vec![bs.year - 1, bs.year] } else { vec![bs.year] };
    for year in years {
        let of_day = computed(year).into_iter().filter(|(when, _)| *when == bs);
        found.extend(of_day.map(|(_, entry)| entry).filter(|entry| !silenced(entry.name)));
    }
    let overrides = of_kind(rules, 4).filter(of_year).filter(on_bs);
    found.extend(overrides.map(|rule| rule.entry()));

    found.dedup_by(|a, b| a.name == b.name);
    found
}

/// Puts a day's list into a buffer; how many entries it has. 9.
pub fn written(found: &[Entry], out: &mut [u16]) -> Answer<usize> {
    if out.len() < 2 * found.len() {
        return Err(9);
    }
    for (place, entry) in out.chunks_exact_mut(2).zip(found) {
        place.copy_from_slice(&[entry.name, entry.holiday]);
    }
    Ok(found.len())
}

fn list(table: &Table, rules: &[u16], mode: Mode, bs: BsDate, ad: Date) -> Vec<Entry> {
    festivals_on(rules, bs, ad, &mut |year| computed_for_year(table, rules, mode, year))
}

/// The table, the rules and the mode's number that a question is over: the mode. 1, 2, 14.
pub fn accepted(table: &Table, rules: &[u16], mode: u16) -> Answer<Mode> {
    table.check()?;
    check_rules(rules)?;
    Mode::of(mode)
}

/// A day's list by its BS date. 1, 2, 14, 4, 5, 6, 9.
pub fn day_list_bs(
    table: &Table,
    rules: &[u16],
    mode: u16,
    bs: BsDate,
    out: &mut [u16],
) -> Answer<usize> {
    let mode = accepted(table, rules, mode)?;
    validate_bs_date(table, bs)?;
    written(&list(table, rules, mode, bs, bs_to_ad(table, bs)?), out)
}

/// Whether a BS date is a holiday: a Saturday, for which no lunar year is resolved, or a day whose list
/// shows an entry that has the mark. 1, 2, 14, 4, 5, 6.
pub fn is_holiday(table: &Table, rules: &[u16], mode: u16, bs: BsDate) -> Answer<bool> {
    let mode = accepted(table, rules, mode)?;
    let ad = bs_to_ad(table, bs)?;
    let marked = |entry: &Entry| entry.holiday == 1;
    Ok(ad.weekday()? == SATURDAY || list(table, rules, mode, bs, ad).iter().any(marked))
}

/// A day's list by its Gregorian date. 1, 2, 14, 3, 7 with the distance, 9.
pub fn day_list_ad(
    table: &Table,
    rules: &[u16],
    mode: u16,
    ad: Date,
    out: &mut [u16],
) -> Result<usize, Refusal> {
    let mode = accepted(table, rules, mode)?;
    Ok(written(&list(table, rules, mode, ad_to_bs(table, ad)?, ad), out)?)
}
