//! Every kind of question over the table and the rules that the program `ask` reads from its two
//! files, and over others that lines lend in their place.
use super::Maker;
use super::festivals::Almanac;
use crate::lines::bits_word;
use crate::tables::{ask_rules, ask_table};
use parameterised::conversion::bs_to_ad;
use parameterised::convert::own_table;
use parameterised::gregorian::{Date, date};

/// The questions on an instant, a float each.
const OF_FLOATS: [&str; 16] = [
    "deltat", "tt", "sun", "moon", "elong", "tithi", "tithiof", "end", "npt", "clock", "minutes", "sin",
    "cos", "asin", "acos", "tan",
];

fn floats(maker: &mut Maker) {
    for tag in OF_FLOATS {
        for x in [0.5, 12.0, 2024.5, 2451545.0, 2460676.25, 2510000.5] {
            maker.at(tag, x);
        }
    }
}

fn dates(maker: &mut Maker) {
    for on in [date(1943, 4, 14), date(2000, 2, 29), date(2024, 10, 12), date(1900, 2, 29)] {
        for tag in ["day", "events", "rise", "set", "nishita", "read", "ad"] {
            maker.on(tag, on);
        }
        let Date { year, month, day } = on;
        for kala in 0..=5 {
            maker.line(format_args!("kala {year} {month} {day} {kala}"));
        }
        maker.line(format_args!("jd {year} {month} {day} {}", bits_word(0.25)));
    }
    for number in [2415021, 2451545, 4294967295u32] {
        maker.line(format_args!("date {number}"));
    }
}

/// The new moons of a year, and a buffer that is too short for them.
fn searches(maker: &mut Maker) {
    let words = [2460310.5, 2460676.5].map(bits_word);
    for length in [14, 2] {
        maker.line(format_args!("starts 1 {} {} {length}", words[0], words[1]));
    }
}

/// A month's conversions, day lists and grid.
fn month(maker: &mut Maker, almanac: &mut Almanac, year: u16, month: u16) {
    maker.line(format_args!("len {year} {month}"));
    for bs in almanac.month(year, month) {
        maker.on_bs("bs", bs);
        maker.on_bs("holiday", bs);
        let length = 2 * almanac.count(bs);
        maker.line(format_args!("listbs {} {} {} {length}", bs.year, bs.month, bs.day));
        let ad = bs_to_ad(&almanac.table, bs).expect("a day of the table");
        maker.line(format_args!("listad {} {} {} {}", ad.year, ad.month, ad.day, length + 2));
    }
    maker.line(format_args!("valid {year} {month} 32"));
    super::grid::month(maker, almanac, year, month);
    maker.line(format_args!("step {year} {month} -14"));
}

pub fn sample(maker: &mut Maker) {
    maker.line("check");
    maker.line("checkrules");
    let mut almanac = Almanac::new(ask_table(), ask_rules());
    for (year, number) in [(2081, 6), (2081, 7), (2080, 1), (2082, 12)] {
        month(maker, &mut almanac, year, number);
    }
    dates(maker);
    floats(maker);
    searches(maker);
    maker.out_of_form("bs 2081 6 1");
    // Another table in the place of the file's, then an empty rule list and one rule in the place of its rules.
    let own = own_table();
    maker.table(&own);
    month(maker, &mut Almanac::new(own_table(), ask_rules()), 100, 2);
    maker.rules(&[]);
    maker.line("checkrules");
    month(maker, &mut Almanac::new(own_table(), Vec::new()), 101, 1);
    let rule = [1, 0, 12, 30, 0, 0, 7, 1];
    maker.rules(&rule);
    month(maker, &mut Almanac::new(own_table(), rule.to_vec()), 100, 12);
    maker.line("cells 31");
    maker.line("check");
    maker.line("rule 9");
    maker.line("checkrules");
}
