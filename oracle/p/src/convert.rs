//! The program `convert`: document 01's own table, `bs=` and `ad=` lines.
use crate::Refusal;
use crate::conversion::{BsDate, Table, ad_to_bs, bs_to_ad};
use crate::gregorian::{Date, date};

/// Document 01's own table.
#[rustfmt::skip]
pub fn own_table() -> Table {
    Table {
        first_year: 100,
        first_day: date(1950, 1, 1),
        rows: vec![
            31, 31, 32, 31, 31, 31, 30, 29, 30, 29, 30, 30, 365,
            31, 31, 32, 32, 31, 30, 30, 29, 30, 29, 30, 31, 366,
        ],
    }
}

/// A decimal number of at most 65,535 without leading zeros.
pub(crate) fn number(word: &[u8]) -> Option<u16> {
    let text = std::str::from_utf8(word).ok()?;
    let number: u16 = text.parse().ok()?;
    (number.to_string() == text).then_some(number)
}

/// Digits of fixed width.
fn digits(word: &[u8]) -> Option<u16> {
    let digit = |c: &u8| c.is_ascii_digit().then(|| (c - b'0') as u16);
    word.iter().try_fold(0, |number, c| Some(number * 10 + digit(c)?))
}

fn bs_form(text: &[u8]) -> Option<BsDate> {
    let mut words = text.split(|c| *c == b'-').map(number);
    let (year, month, day) = (words.next()??, words.next()??, words.next()??);
    words.next().is_none().then_some(BsDate { year, month, day })
}

fn ad_form(text: &[u8]) -> Option<Date> {
    if text.len() != 10 || text[4] != b'-' || text[7] != b'-' {
        return None;
    }
    Some(date(digits(&text[..4])?, digits(&text[5..7])?, digits(&text[8..])?))
}

fn bs_text(bs: BsDate) -> String {
    format!("{}-{}-{}", bs.year, bs.month, bs.day)
}

fn ad_text(ad: Date) -> String {
    format!("{:04}-{:02}-{:02}", ad.year, ad.month, ad.day)
}

/// The other date or `none`, and the lines of the refusal.
fn told<R: Into<Refusal>>(answer: Result<String, R>) -> (String, String) {
    let (date, number, outside) = match answer.map_err(Into::into) {
        Ok(date) => (date, 0, 0),
        Err(Refusal::Outside(days)) => ("none".into(), 7, days),
        Err(refusal) => ("none".into(), refusal.number(), 0),
    };
    (date, format!("refusal={number}\noutside={outside}\n"))
}

/// What a line prints; nothing for a line of another form.
fn reply(table: &Table, line: &[u8]) -> Option<String> {
    if let Some(text) = line.strip_prefix(b"bs=") {
        let bs = bs_form(text)?;
        let (ad, refusal) = told(bs_to_ad(table, bs).map(ad_text));
        Some(format!("bs={}\nad={ad}\n{refusal}", bs_text(bs)))
    } else {
        let ad = ad_form(line.strip_prefix(b"ad=")?)?;
        let (bs, refusal) = told(ad_to_bs(table, ad).map(bs_text));
        Some(format!("bs={bs}\nad={}\n{refusal}", ad_text(ad)))
    }
}

pub fn run(input: &[u8]) -> String {
    let table = own_table();
    input.split(|c| *c == b'\n').filter_map(|line| reply(&table, line)).collect()
}
