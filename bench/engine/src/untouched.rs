//! The questions to the Rust untouched, each answered with a number.
use chrono::{Datelike, NaiveDate};
use parameterised::conversion::BsDate;
use parameterised::gregorian::Date;
use untouched_nepal as untouched;

fn naive(date: Date) -> NaiveDate {
    NaiveDate::from_ymd_opt(date.year.into(), date.month.into(), date.day.into()).expect("a date")
}

fn narrow(bs: BsDate) -> untouched::BsDate {
    untouched::BsDate { year: bs.year, month: bs.month as u8, day: bs.day as u8 }
}

pub fn sine(x: f64) -> u64 {
    x.sin().to_bits()
}

pub fn bs_to_ad(bs: BsDate) -> u64 {
    untouched::bs_to_ad(narrow(bs)).expect("a date").day().into()
}

pub fn ad_to_bs(ad: Date) -> u64 {
    untouched::ad_to_bs(naive(ad)).expect("a date").day.into()
}

pub fn elongation(x: f64) -> u64 {
    untouched::panchanga::elongation(x).to_bits()
}

pub fn reading(date: Date) -> u64 {
    untouched::panchanga::Reading::for_date(naive(date)).tithi.into()
}

pub fn tithi_starts(tithi: u16, from: f64, to: f64) -> u64 {
    untouched::panchanga::tithi_starts_between(tithi as u8, from, to).len() as u64
}

pub fn festivals_on(bs: BsDate) -> u64 {
    let bs = narrow(bs);
    untouched::festivals::festivals_on(bs, untouched::bs_to_ad(bs).expect("a date")).len() as u64
}

pub fn month_grid(bs: BsDate, today: Date) -> u64 {
    untouched::grid::month_grid(bs.year, bs.month as u8, naive(today)).expect("a month").weeks.len() as u64
}
