//! Rule lists and day lists.
use super::conversion::{far_tables, growing, outside};
use super::{BAD_DATES, Maker};
use crate::tables::{Months, Place, nepal_rules, owner_table, random_table, stress_rules};
use parameterised::conversion::{BsDate, Table, ad_to_bs, bs_month_len, bs_to_ad};
use parameterised::convert::own_table;
use parameterised::festivals::{Entry, check_rules, computed_for_year, festivals_on, records};
use parameterised::gregorian::{Date, date};
use parameterised::mode::Mode;
use std::ops::RangeInclusive;

/// A table and a rule list with the years that were resolved, so that lists can be looked through.
pub struct Almanac {
    pub table: Table,
    pub rules: Vec<u16>,
    mode: Mode,
    resolved: Vec<(u16, Vec<(BsDate, Entry)>)>,
}

impl Almanac {
    pub fn new(table: Table, rules: Vec<u16>) -> Self {
        Almanac::by(Mode::True, table, rules)
    }

    pub fn by(mode: Mode, table: Table, rules: Vec<u16>) -> Self {
        Almanac { table, rules, mode, resolved: Vec::new() }
    }

    fn computed(&mut self, year: u16) -> Vec<(BsDate, Entry)> {
        if let Some((_, entries)) = self.resolved.iter().find(|(known, _)| *known == year) {
            return entries.clone();
        }
        let entries = computed_for_year(&self.table, &self.rules, self.mode, year);
        self.resolved.push((year, entries.clone()));
        entries
    }

    /// How many entries a day's list has.
    pub fn count(&mut self, bs: BsDate) -> usize {
        let ad = bs_to_ad(&self.table, bs).expect("a day of the table");
        let rules = self.rules.clone();
        festivals_on(&rules, bs, ad, &mut |year| self.computed(year)).len()
    }

    /// A month's days.
    pub fn month(&self, year: u16, month: u16) -> Vec<BsDate> {
        let length = bs_month_len(&self.table, year, month).expect("a month of the table");
        (1..=length).map(|day| BsDate { year, month, day }).collect()
    }

    /// The days of some months of a year that have an entry.
    pub fn listed_days(&mut self, year: u16, months: RangeInclusive<u16>) -> Vec<BsDate> {
        let days: Vec<BsDate> = months.flat_map(|month| self.month(year, month)).collect();
        days.into_iter().filter(|day| self.count(*day) > 0).collect()
    }

    /// A year's days that have an entry.
    fn days_of(&mut self, year: u16) -> Vec<BsDate> {
        self.listed_days(year, 1..=12)
    }

    pub fn random_year(&self, maker: &mut Maker) -> u16 {
        maker.random.whole(self.table.first_year as i64, self.table.last_year() as i64) as u16
    }

    pub fn random_day(&self, maker: &mut Maker) -> BsDate {
        let (year, month) = (self.random_year(maker), maker.random.whole(1, 12) as u16);
        let days = self.month(year, month);
        days[maker.random.below(days.len())]
    }

    /// The day so many days later, if the table has it.
    fn later(&self, bs: BsDate, days: i64) -> Option<BsDate> {
        let number = bs_to_ad(&self.table, bs).ok()?.day_number().ok()?;
        ad_to_bs(&self.table, Date::from_day_number(number + days).ok()?).ok()
    }
}

/// Asks a day's list by its BS date or by its Gregorian date, into a buffer of a length.
fn list(maker: &mut Maker, almanac: &Almanac, bs: BsDate, length: usize) {
    if maker.random.below(2) == 0 {
        list_bs(maker, bs, length);
    } else {
        list_ad(maker, bs_to_ad(&almanac.table, bs).expect("a day of the table"), length);
    }
}

fn list_bs(maker: &mut Maker, bs: BsDate, length: usize) {
    maker.line(format_args!("listbs {} {} {} {length}", bs.year, bs.month, bs.day));
}

fn list_ad(maker: &mut Maker, ad: Date, length: usize) {
    maker.line(format_args!("listad {} {} {} {length}", ad.year, ad.month, ad.day));
}

/// A length that is now and then too short, mostly exact or a little more.
pub fn some_length(maker: &mut Maker, exact: usize) -> usize {
    match maker.random.below(8) {
        0 => exact.saturating_sub(1),
        1 => 0,
        2 => exact + 5,
        3 => exact + 1,
        _ => exact,
    }
}

/// A day and its neighbours.
fn around(maker: &mut Maker, almanac: &mut Almanac, bs: BsDate, places: i64) {
    for days in -places..=places {
        if let Some(day) = almanac.later(bs, days) {
            let count = almanac.count(day);
            let length = some_length(maker, 2 * count);
            list(maker, almanac, day, length);
        }
    }
}

pub fn lend(maker: &mut Maker, almanac: &Almanac) {
    maker.table(&almanac.table);
    maker.rules(&almanac.rules);
    maker.line("checkrules");
}

/// Random days, most of them with an entry.
pub fn random_days(maker: &mut Maker, almanac: &mut Almanac, count: usize) {
    for i in 0..count {
        let mut day = almanac.random_day(maker);
        if i % 4 != 0 {
            let days = almanac.days_of(day.year);
            if !days.is_empty() {
                day = days[maker.random.below(days.len())];
            }
        }
        let entries = almanac.count(day);
        let length = some_length(maker, 2 * entries);
        list(maker, almanac, day, length);
    }
}

/// Every day of a table, by its BS date and by its Gregorian date in turn, into a buffer as long as the list.
pub fn every_day(maker: &mut Maker, almanac: &mut Almanac, mut by_bs: bool) {
    for year in almanac.table.first_year..=almanac.table.last_year() {
        for day in (1..=12).flat_map(|month| almanac.month(year, month)).collect::<Vec<_>>() {
            let length = 2 * almanac.count(day);
            if by_bs {
                list_bs(maker, day, length);
            } else {
                list_ad(maker, bs_to_ad(&almanac.table, day).expect("a day of the table"), length);
            }
            by_bs = !by_bs;
        }
    }
}

/// The first and the last month of a table.
fn table_ends(maker: &mut Maker, almanac: &mut Almanac, step: usize) {
    let (first, last) = (almanac.table.first_year, almanac.table.last_year());
    let days = [(first, 1), (first, 2), (last, 12)].map(|(year, month)| almanac.month(year, month));
    for day in days.concat().into_iter().step_by(step) {
        let entries = almanac.count(day);
        list(maker, almanac, day, 2 * entries);
    }
}

/// The owner's table and a list of Nepal's festivals: years with an adhika month (2058, 2077), a
/// month without a new moon (2020/8, 2039/10, 2058/11), and the years of the overrides.
fn nepal(maker: &mut Maker) {
    let mut almanac = Almanac::new(owner_table(), nepal_rules());
    lend(maker, &almanac);
    for year in [2058, 2077] {
        for day in almanac.days_of(year) {
            around(maker, &mut almanac, day, 0);
        }
    }
    for (year, month) in [(2020, 8), (2039, 10), (2058, 11), (2058, 12), (2059, 1)] {
        for day in almanac.month(year, month).into_iter().step_by(4) {
            around(maker, &mut almanac, day, 0);
        }
    }
    for year in [2079, 2080, 2081, 2082] {
        let pinned: Vec<_> = records(&nepal_rules())
            .filter(|rule| rule.kind == 4 && rule.year == year && rule.day < 32)
            .map(|rule| BsDate { year, month: rule.month, day: rule.day })
            .collect();
        for day in pinned {
            around(maker, &mut almanac, day, 1);
        }
    }
    table_ends(maker, &mut almanac, 6);
    random_days(maker, &mut almanac, 60);
}

/// As many rules of each kind as are accepted.
fn stress(maker: &mut Maker) {
    let mut almanac = Almanac::new(owner_table(), stress_rules());
    lend(maker, &almanac);
    random_days(maker, &mut almanac, 60);
    table_ends(maker, &mut almanac, 15);
}

fn rule(kind: u16, year: u16, month: u16, day: u16, half: u16, kala: u16, name: u16) -> [u16; 8] {
    [kind, year, month, day, half, kala, name, name % 2]
}

/// Random rules of few names, so that overrides and equal neighbours meet.
pub fn random_rules(maker: &mut Maker, table: &Table, count: usize) -> Vec<u16> {
    let mut rules = Vec::new();
    for _ in 0..count {
        let (month, name) = (maker.random.whole(1, 12) as u16, maker.random.whole(1, 4) as u16);
        let year = maker.random.whole(table.first_year as i64 - 1, table.last_year() as i64) as u16;
        let tithi = maker.random.one_of(&[1, 2, 5, 8, 11, 14, 15]);
        let half = maker.random.below(2) as u16;
        let kala = maker.random.below(6) as u16;
        rules.extend(match maker.random.below(8) {
            0 => rule(1, 0, month, maker.random.whole(1, 32) as u16, 0, 0, name),
            1 => rule(2, 0, month, maker.random.whole(1, 31) as u16, 0, 0, name),
            2 => rule(4, year, month, maker.random.whole(1, 32) as u16, 0, 0, name),
            _ => rule(3, 0, month, tithi, half, kala, name),
        });
    }
    rules
}

/// Small random lists over small random tables.
fn small(maker: &mut Maker) {
    let shapes = [
        (2, Months::Real, Place::First),
        (3, Months::Any, Place::Last),
        (4, Months::All(29), Place::Anywhere),
        (4, Months::All(32), Place::Anywhere),
        (1, Months::Real, Place::Last),
        (1, Months::Any, Place::First),
    ];
    for round in 0..4 {
        for (years, months, place) in shapes {
            let mut table = random_table(&mut maker.random, years, months, place);
            match round {
                0 => table.first_year = 1,
                1 => table.first_year = 3000,
                _ => {}
            }
            let count = maker.random.whole(3, 9) as usize;
            let rules = random_rules(maker, &table, count);
            let mut almanac = Almanac::new(table, rules);
            lend(maker, &almanac);
            random_days(maker, &mut almanac, 24);
            table_ends(maker, &mut almanac, 10);
        }
    }
}

/// Every kala of one tithi, the whole of a lunar month: the fallback, and the last resort.
fn kalas(maker: &mut Maker) {
    let table = random_table(&mut maker.random, 3, Months::Real, Place::Anywhere);
    for tithi in [1, 8, 13, 15, 16, 24, 29, 30] {
        let (day, half) = if tithi > 15 { (tithi - 15, 1) } else { (tithi, 0) };
        let month = maker.random.whole(1, 12) as u16;
        let rules = (0..6).map(|kala| rule(3, 0, month, day, half, kala, 100 + kala));
        let mut almanac = Almanac::new(table.clone(), rules.flatten().collect());
        lend(maker, &almanac);
        let year = almanac.random_year(maker);
        for day in almanac.days_of(year) {
            around(maker, &mut almanac, day, 1);
        }
    }
}

/// The order of the kinds, equal neighbours, and silencing by the day's year.
fn orders(maker: &mut Maker) {
    let table = owner_table();
    let new_year = |name| rule(1, 0, 1, 1, 0, 0, name);
    let april = |name| rule(2, 0, 4, 14, 0, 0, name);
    let pinned = |year, name| rule(4, year, 1, 1, 0, 0, name);
    let lists: [Vec<[u16; 8]>; 9] = [
        vec![new_year(5), april(5), pinned(2081, 5)],
        vec![pinned(2081, 5), april(6), new_year(5)],
        vec![april(1), april(2), new_year(2), new_year(1)],
        vec![new_year(3), new_year(3), new_year(4), new_year(3)],
        vec![new_year(0), april(65535), pinned(2081, 0), pinned(2080, 65535)],
        vec![[1, 0, 1, 1, 0, 0, 9, 0], [1, 0, 1, 1, 0, 0, 9, 1]],
        vec![[1, 0, 1, 1, 0, 0, 9, 1], [2, 0, 4, 13, 0, 0, 9, 0]],
        // Lunar month 12 reaches into the next year; an override of either year names it.
        vec![rule(3, 0, 12, 9, 0, 1, 52), rule(4, 2078, 1, 1, 0, 0, 52)],
        vec![
            rule(3, 0, 12, 9, 0, 1, 52),
            rule(4, 2077, 1, 1, 0, 0, 52),
            rule(4, 2079, 6, 32, 0, 0, 52),
        ],
    ];
    for rules in lists {
        let mut almanac = Almanac::new(table.clone(), rules.concat());
        lend(maker, &almanac);
        for (year, month, day) in [(2081, 1, 1), (2080, 1, 1), (2078, 1, 8), (2078, 1, 1)] {
            around(maker, &mut almanac, BsDate { year, month, day }, 1);
        }
    }
}

/// As many rules as are accepted that all fall on one day, under names that differ or are all one.
/// The computed ones are of the tithi and kala that the day has.
pub fn crowded_rules(bs: BsDate, ad: Date, computed: [u16; 4], one_name: bool) -> Vec<u16> {
    let [month, day, half, kala] = computed;
    let mut rules = Vec::new();
    let mut add = |count: u16, rule: [u16; 8]| {
        for name in 0..count {
            let mut named = rule;
            named[6] = if one_name { 9 } else { rule[6] + name };
            named[7] = name % 2;
            rules.extend(named);
        }
    };
    add(128, rule(4, bs.year, bs.month, bs.day, 0, 0, 4000));
    add(64, rule(3, 0, month, day, half, kala, 3000));
    add(64, rule(2, 0, ad.month, ad.day, 0, 0, 2000));
    add(64, rule(1, 0, bs.month, bs.day, 0, 0, 1000));
    rules
}

/// Vijaya Dashami of 2080, Ashwin shukla 10 by aparahna: the longest list that the sample has.
pub const CROWDED: (BsDate, Date, [u16; 4]) =
    (BsDate { year: 2080, month: 7, day: 7 }, date(2023, 10, 24), [6, 10, 0, 2]);

fn crowded(maker: &mut Maker) {
    let (bs, ad, computed) = CROWDED;
    for one_name in [false, true] {
        let mut almanac = Almanac::new(owner_table(), crowded_rules(bs, ad, computed, one_name));
        lend(maker, &almanac);
        let count = almanac.count(bs);
        for length in [2 * count, 2 * count - 1, 2 * count + 3, 0] {
            list_bs(maker, bs, length);
        }
        list_ad(maker, ad, 2 * count);
        around(maker, &mut almanac, bs, 1);
    }
}

/// A good rule of each kind.
pub const GOOD_RULES: [[u16; 8]; 4] = [
    [1, 0, 12, 32, 0, 0, 1, 1],
    [2, 0, 2, 31, 0, 0, 65534, 0],
    [3, 0, 1, 15, 1, 5, 0, 0],
    [4, 65535, 1, 32, 0, 0, 65535, 1],
];

/// Each field of each good rule at its bounds and past them: the rule's place, and the rule so changed.
pub fn changed_rules() -> Vec<(usize, [u16; 8])> {
    let mut all = Vec::new();
    for (at, rule) in GOOD_RULES.iter().enumerate() {
        for (field, values) in [
            (0, vec![0, 5, 65535]),
            (1, vec![0, 1, 2080]),
            (2, vec![0, 1, 13, 65535]),
            (3, vec![0, 1, 15, 16, 31, 32, 33, 65535]),
            (4, vec![0, 1, 2, 65535]),
            (5, vec![0, 1, 5, 6, 65535]),
            (7, vec![0, 1, 2, 65535]),
        ] {
            for value in values {
                let mut changed = *rule;
                changed[field] = value;
                all.push((at, changed));
            }
        }
    }
    all
}

/// Lists that break one line of the paper each, and good ones that stand beside them.
pub fn edge_rules() -> Vec<Vec<u16>> {
    let good = GOOD_RULES;
    let mut lists = vec![Vec::new(), good.concat()];
    for (at, changed) in changed_rules() {
        let mut list = good;
        list[at] = changed;
        lists.push(list.concat());
    }
    // The number of each kind, and a length that is no multiple of eight.
    for (rule, most) in good.iter().zip([64, 64, 64, 128]) {
        lists.push(rule.repeat(most));
        lists.push(rule.repeat(most + 1));
    }
    for length in [1, 7, 9, 15, 31] {
        lists.push(good.concat()[..length].to_vec());
    }
    lists
}

fn rule_lists(maker: &mut Maker) {
    let table = own_table();
    maker.table(&table);
    let day = BsDate { year: 100, month: 12, day: 30 };
    for rules in edge_rules() {
        maker.rules(&rules);
        maker.line("checkrules");
        // Sixty-four computed rules are as many lunar months' work: they are checked alone.
        if rules.len() < 64 * 8 {
            list_bs(maker, day, 4);
        }
        if check_rules(&rules).is_err() {
            // 2 comes before the refusals of the date.
            list_ad(maker, date(1900, 2, 29), 3);
            list_bs(maker, BsDate { year: 99, month: 13, day: 40 }, 1);
        }
    }
}

/// Every refusal in its order, with the empty list and over a broken table.
fn refusals(maker: &mut Maker) {
    let almanac = Almanac::new(own_table(), Vec::new());
    lend(maker, &almanac);
    for (year, month, day) in [
        (99, 1, 1),
        (102, 13, 40),
        (0, 0, 0),
        (65535, 1, 1),
        (100, 0, 1),
        (100, 13, 40),
        (100, 257, 1),
        (101, 65535, 1),
        (100, 1, 0),
        (100, 1, 32),
        (100, 12, 31),
        (101, 12, 31),
        (101, 12, 32),
        (100, 1, 257),
    ] {
        list_bs(maker, BsDate { year, month, day }, 2);
    }
    for bad in BAD_DATES {
        list_ad(maker, bad, 2);
    }
    for ad in [date(1949, 12, 31), date(1950, 1, 1), date(1952, 1, 1), date(1952, 1, 2)] {
        list_ad(maker, ad, 3);
    }
    let mut broken = own_table();
    broken.rows[25] += 1;
    maker.table(&broken);
    maker.line("check");
    for rules in [Vec::new(), vec![9; 8]] {
        maker.rules(&rules);
        maker.line("checkrules");
        list_bs(maker, BsDate { year: 100, month: 1, day: 1 }, 2);
        list_bs(maker, BsDate { year: 99, month: 13, day: 40 }, 2);
        list_ad(maker, date(1950, 1, 1), 2);
        list_ad(maker, date(1900, 2, 29), 0);
    }
}

/// The lists of days outside a table, into buffers of several lengths.
pub fn days_outside(maker: &mut Maker, table: &Table) {
    for (at, ad) in outside(table).into_iter().enumerate() {
        list_ad(maker, ad, [3, 0, 8, 1][at % 4]);
    }
}

/// How far outside: over tables at the bounds and over one that grows, where a list would not fit,
/// and behind 3, 2 and 1.
fn distances(maker: &mut Maker) {
    for table in far_tables(maker) {
        maker.table(&table);
        // Rules that name every month and day that is asked.
        let asked = outside(&table).into_iter().zip(0..);
        let rules: Vec<_> =
            asked.map(|(ad, at)| rule(2, 0, ad.month, ad.day, 0, 0, 700 + at)).collect();
        maker.rules(&rules.concat());
        maker.line("checkrules");
        days_outside(maker, &table);
        for bad in BAD_DATES {
            list_ad(maker, bad, 2);
        }
        maker.rules(&[9; 8]);
        days_outside(maker, &table);
    }
    let rules =
        [rule(3, 0, 12, 15, 0, 3, 21), rule(3, 0, 1, 1, 0, 5, 22), rule(1, 0, 1, 1, 0, 0, 23)];
    maker.rules(&rules.concat());
    let tables = growing(maker, 3);
    for table in &tables {
        maker.table(table);
        days_outside(maker, table);
        days_outside(maker, &tables[2]);
    }
    let mut broken = own_table();
    broken.rows[0] = 33;
    maker.table(&broken);
    days_outside(maker, &own_table());
}

fn out_of_form(maker: &mut Maker) {
    maker.table(&own_table());
    maker.rules(&[]);
    maker.out_of_form("listbs 100 1 1 2");
    for line in [
        "checkrules 1",
        "listbs 100 1 1",
        "listbs 100 1 1 -1",
        "listad 1950 1 1",
        "listad 1950 1 1 65536",
        "rules 1",
        "rule",
        "rule 1 0 1 1 0 0 1 1 1",
        "rule 1 0 1 1 0 0 65536 1",
        "rule 1 0 1 x",
        "rule  1",
    ] {
        maker.line(line);
    }
    // The rules are lent anew before they are asked again.
    maker.rules(&rule(1, 0, 1, 1, 0, 0, 11));
    maker.line("listbs 100 1 1 3");
}

pub fn sample(maker: &mut Maker) {
    nepal(maker);
    stress(maker);
    small(maker);
    kalas(maker);
    orders(maker);
    crowded(maker);
    rule_lists(maker);
    refusals(maker);
    out_of_form(maker);
    distances(maker);
}
