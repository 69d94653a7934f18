//! Makers of query lines, each from a fixed seed: samples for the programs, and the sets at
//! full scale.
use crate::lines::{OCTETS, bits_word, hex_word};
use crate::random::Random;
use parameterised::conversion::{BsDate, Table};
use parameterised::gregorian::{Date, date};
use std::fmt::Display;
use std::io::Write;

mod ask;
mod conversion;
mod convert;
mod festivals;
mod full;
mod gregorian;
mod grid;
mod holidays;
mod kept;
mod modes;
mod panchanga;
mod texts;
mod trig;

/// Writes the lines of one set.
pub struct Maker<'a> {
    pub random: Random,
    out: &'a mut dyn Write,
}

type Set = (&'static str, fn(&mut Maker));

/// The samples: of `convert`, and the parts of the sample of `ask`, its own questions first.
pub const SAMPLES: [Set; 12] = [
    ("ask", ask::sample),
    ("gregorian", gregorian::sample),
    ("conversion", conversion::sample),
    ("convert", convert::sample),
    ("trig", trig::sample),
    ("panchanga", panchanga::sample),
    ("festivals", festivals::sample),
    ("grid", grid::sample),
    ("texts", texts::sample),
    ("holidays", holidays::sample),
    ("kept", kept::sample),
    ("modes", modes::sample),
];

/// The sets at full scale.
pub const FULL: [Set; 14] = [
    ("dates", full::dates),
    ("instants", full::instants),
    ("angles", full::angles),
    ("searches", full::searches),
    ("conversions", full::conversions),
    ("steps", full::steps),
    ("grids", full::grids),
    ("days", full::days),
    ("lists", full::lists),
    ("holidays", holidays::full),
    ("kept", kept::full),
    ("texts", texts::full),
    ("words", full::words),
    ("modes", modes::full),
];

/// The maker of a set, by `sample NAME` or `full NAME`.
pub fn maker(scale: &str, name: &str) -> Option<fn(&mut Maker)> {
    let sets: &[Set] = match scale {
        "sample" => &SAMPLES,
        "full" => &FULL,
        _ => return None,
    };
    sets.iter().find(|(known, _)| *known == name).map(|(_, make)| *make)
}

/// No numbers: quiet and signalling, of either sign.
pub const NO_NUMBERS: [u64; 4] =
    [0x7ff8000000000000, 0xfff8000000000000, 0x7ff0000000000001, 0xffffffffffffffff];

impl<'a> Maker<'a> {
    pub fn new(seed: u64, out: &'a mut dyn Write) -> Self {
        Maker { random: Random(seed), out }
    }

    pub fn bytes(&mut self, bytes: &[u8]) {
        self.out.write_all(bytes).expect("the output takes the queries");
    }

    pub fn line(&mut self, line: impl Display) {
        self.bytes(format!("{line}\n").as_bytes());
    }

    /// A question on a float.
    pub fn at(&mut self, tag: &str, x: f64) {
        self.line(format_args!("{tag} {}", bits_word(x)));
    }

    /// The question on a float and on its neighbours, as many places either way.
    pub fn around(&mut self, tag: &str, x: f64, places: i64) {
        for steps in -places..=places {
            self.at(tag, crate::random::neighbour(x, steps));
        }
    }

    /// The question on what is no number, on the infinities, and on both zeros.
    pub fn odd_floats(&mut self, tag: &str) {
        for bits in NO_NUMBERS {
            self.at(tag, f64::from_bits(bits));
        }
        for x in [f64::INFINITY, f64::NEG_INFINITY, 0.0, -0.0] {
            self.at(tag, x);
        }
    }

    /// A question on a Gregorian date.
    pub fn on(&mut self, tag: &str, date: Date) {
        self.line(format_args!("{tag} {} {} {}", date.year, date.month, date.day));
    }

    /// A question on a BS date.
    pub fn on_bs(&mut self, tag: &str, bs: BsDate) {
        self.line(format_args!("{tag} {} {} {}", bs.year, bs.month, bs.day));
    }

    /// Lends a table.
    pub fn table(&mut self, table: &Table) {
        let Date { year, month, day } = table.first_day;
        self.line(format_args!("table {} {year} {month} {day}", table.first_year));
        for row in table.rows.chunks(13) {
            self.numbers("cells", row);
        }
    }

    /// Lends a rule list.
    pub fn rules(&mut self, rules: &[u16]) {
        self.line("rules");
        for rule in rules.chunks(8) {
            self.numbers("rule", rule);
        }
    }

    /// Lends a text.
    pub fn text(&mut self, text: &[u8]) {
        self.line("text");
        self.octets(text);
    }

    /// Adds bytes to the lent text.
    pub fn octets(&mut self, bytes: &[u8]) {
        for part in bytes.chunks(OCTETS) {
            self.line(format_args!("octets {}", hex_word(part)));
        }
    }

    fn numbers(&mut self, tag: &str, numbers: &[u16]) {
        let words: String = numbers.iter().map(|number| format!(" {number}")).collect();
        self.line(format_args!("{tag}{words}"));
    }

    /// Lines out of form, of the shapes that any program can meet.
    pub fn out_of_form(&mut self, good: &str) {
        let (tag, rest) = good.split_once(' ').unwrap_or((good, ""));
        self.line("");
        self.line(" ");
        self.line("unknown 1");
        self.line(tag.to_uppercase());
        self.line(format_args!(" {good}"));
        self.line(format_args!("{good} "));
        self.line(format_args!("{good} 1"));
        self.line(format_args!("{tag}  {rest}"));
        self.line(format_args!("{tag}\t{rest}"));
        self.line(format_args!("{good}\r"));
        self.line(format_args!("{good}\0"));
        self.line(format_args!("{tag}s {rest}"));
        self.line(format_args!("{good}{}", "0".repeat(5000)));
    }

    pub fn random_date(&mut self) -> Date {
        let number =
            self.random.whole(parameterised::gregorian::FIRST, parameterised::gregorian::LAST);
        Date::from_day_number(number).expect("a day number in range")
    }

    /// An instant anywhere in the range.
    pub fn random_instant(&mut self) -> f64 {
        self.random.between(2400000.0, 2510000.0)
    }
}

/// Three numbers that are no date, or stand outside 1900 to 2149.
pub const BAD_DATES: [Date; 20] = [
    date(1900, 2, 29),
    date(1899, 12, 31),
    date(2150, 1, 1),
    date(0, 0, 0),
    date(0, 1, 1),
    date(65535, 1, 1),
    date(65535, 65535, 65535),
    date(2000, 0, 1),
    date(2000, 13, 1),
    date(2000, 257, 1),
    date(2000, 65535, 1),
    date(2000, 1, 0),
    date(2000, 1, 32),
    date(2000, 1, 257),
    date(2000, 1, 65535),
    date(2000, 4, 31),
    date(2000, 2, 30),
    date(2023, 2, 29),
    date(2100, 2, 29),
    date(2000, 258, 257),
];
