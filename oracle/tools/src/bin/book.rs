//! Asks oracle P document 01's checked examples and Meeus's 7.a, 25.a and 47.a, whose answers stand
//! here as the paper and the book print them, and rule files, holidays, a kept state and what is no mode
//! read by hand.
//!
//!   book [recipe|host]
use parameterised::convert;
use parameterised::gregorian::date;
use parameterised::mode::Mode::Apparent;
use parameterised::panchanga::{self, Tt};
use parameterised::trig::{self, Mode};
use std::process::ExitCode;
use tools::answers;
use tools::lines::{self, Lent, bits_word, hex_word};

/// Lines over document 01's own table, and what the papers say; the control lines answer nothing.
/// The longest ways to its first day and from its last are counted by hand.
const PAPER: [(&str, &str); 38] = [
    ("table 100 1950 1 1", ""),
    ("cells 31 31 32 31 31 31 30 29 30 29 30 30 365", ""),
    ("cells 31 31 32 32 31 30 30 29 30 29 30 31 366", ""),
    ("check", "0"),
    ("bs 100 1 1", "0 1950 1 1"),
    ("bs 100 2 29", "0 1950 3 1"),
    ("bs 100 4 1", "0 1950 4 5"),
    ("bs 100 12 30", "0 1950 12 31"),
    ("bs 101 1 1", "0 1951 1 1"),
    ("bs 101 12 31", "0 1952 1 1"),
    ("bs 100 12 31", "6"),
    ("bs 100 13 40", "5"),
    ("bs 102 13 1", "4"),
    ("ad 1952 1 2", "7 1"),
    ("ad 1949 12 31", "7 -1"),
    ("ad 1900 1 1", "7 -18262"),
    ("ad 1950 1 1", "0 100 1 1"),
    ("ad 1952 1 1", "0 101 12 31"),
    ("ad 2149 12 31", "7 72318"),
    ("ad 2150 1 1", "3"),
    ("listad 1952 1 3 1", "7 2 | 7"),
    ("listad 1949 12 30 0", "7 -2 |"),
    ("listad 1952 1 1 1", "0 0 | 7"),
    ("ad 1950 3 1", "0 100 2 29"),
    ("step 100 12 1", "0 101 1"),
    ("step 100 1 -1", "10"),
    ("day 1950 1 1", "0 2433283 0 1950 1 2"),
    ("day 1900 2 29", "3"),
    ("day 2150 1 1", "3"),
    ("day 2149 12 31", "0 2506331 3 none"),
    ("tithiof 0x0000000000000000", "0 1"),
    ("tithiof 0x4027ffffffffffff", "0 1"),
    ("tithiof 0x4028000000000000", "0 2"),
    ("tithiof 0x4075c00000000000", "0 30"),
    ("tithiof 0x4076800000000000", "0 30"),
    ("table 100 1950 1 1", ""),
    ("cells 31 31 32 31 31 31 30 29 30 29 30 30 364", ""),
    ("bs 100 1 1", "1"),
];

/// Holidays over the same table, whose first day is a Sunday, read by hand: the mark of two equal
/// neighbours is the first's.
const HOLIDAYS: [(&str, &str); 21] = [
    ("table 100 1950 1 1", ""),
    ("cells 31 31 32 31 31 31 30 29 30 29 30 30 365", ""),
    ("holiday 100 1 6", "0 0"),
    ("holiday 100 1 7", "0 1"),
    ("holiday 100 1 8", "0 0"),
    ("holiday 101 13 32", "4"),
    ("holiday 100 13 32", "5"),
    ("holiday 100 1 32", "6"),
    ("rule 1 0 1 6 0 0 9 0", ""),
    ("rule 2 0 1 6 0 0 9 1", ""),
    ("holiday 100 1 6", "0 0"),
    ("holiday 100 1 7", "0 1"),
    ("rules", ""),
    ("rule 1 0 1 6 0 0 9 1", ""),
    ("rule 2 0 1 6 0 0 9 0", ""),
    ("holiday 100 1 6", "0 1"),
    ("holiday 100 1 8", "0 0"),
    ("rule 5", ""),
    ("holiday 100 1 7", "2"),
    ("cells 31", ""),
    ("holiday 100 1 7", "1"),
];

/// The kept state over the same table, read by hand: which years are stored, and what a refusal leaves.
const STATE: [(&str, &str); 33] = [
    ("stored", "?"),
    ("start 100 1950 1 1", "0"),
    ("stored", "0"),
    ("askbs 99 13 40 1", "13 | 7"),
    ("askad 1900 2 29 0", "13 |"),
    ("append 31 31 32 31 31 31 30 29 30 29 30 30 365", "0"),
    ("askbs 100 1 1 1", "0 0 | 7"),
    ("stored", "0 100"),
    ("append 31 31 32 32 31 30 30 29 30 29 30 31 366", "0"),
    ("stored", "0 100"),
    ("askbs 101 2 31 0", "0 0 |"),
    ("stored", "0 100 101"),
    ("askad 1952 1 2 0", "7 1 |"),
    ("askgrid 1900 2 29 99 13 0 0", "3 | |"),
    ("askbs 102 13 40 0", "4 |"),
    ("stored", "0 100 101"),
    ("askad 1952 1 1 0", "0 0 |"),
    ("stored", "0 101"),
    ("rules", ""),
    ("rule 1 0 3 1 0 0 9 1", ""),
    ("take", "0"),
    ("stored", "0"),
    ("askbs 101 3 1 1", "9 | 7"),
    ("stored", "0"),
    ("askbs 101 3 1 2", "0 1 | 9 1"),
    ("rule 1", ""),
    ("take", "2"),
    ("append 31", "1"),
    ("stored", "0 101"),
    ("forget", "0"),
    ("stored", "0"),
    ("start 0 1950 1 1", "1"),
    ("stored", "?"),
];

/// What is no mode, read by hand: where 14 stands among the refusals, and who does not give it.
const NO_MODE: [(&str, &str); 31] = [
    ("table 100 1950 1 1", ""),
    ("cells 31 31 32 31 31 31 30 29 30 29 30 30 365", ""),
    ("rules", ""),
    ("mode 1", ""),
    ("start 100 1950 1 1", "0"),
    ("mode 2", ""),
    ("askbs 100 1 1 0", "13 |"),
    ("append 31 31 32 31 31 31 30 29 30 29 30 30 365", "0"),
    ("askbs 100 1 1 0", "0 0 |"),
    ("bs 100 1 1", "0 1950 1 1"),
    ("tithiof 0x0000000000000000", "0 1"),
    ("holiday 100 1 7", "14"),
    ("listbs 99 13 40 1", "14 | 7"),
    ("listad 1900 2 29 0", "14 |"),
    ("grid 1900 2 29 99 13 0 0", "14 | |"),
    ("read 1900 2 29", "14"),
    ("nishita 2149 12 31", "14"),
    ("kala 1900 2 29 5", "14"),
    ("elong 0x7ff8000000000000", "14"),
    ("end 0x0000000000000000", "14"),
    ("starts 31 0x0000000000000000 0x0000000000000000 0", "14 |"),
    ("rule 5", ""),
    ("listbs 99 13 40 1", "2 | 7"),
    ("take", "2"),
    ("cells 31", ""),
    ("listbs 99 13 40 1", "1 | 7"),
    ("start 0 1950 1 1", "1"),
    ("start 100 1950 1 1", "14"),
    ("stored", "?"),
    ("mode 0", ""),
    ("read 1900 2 29", "3"),
];

/// Questions on floats, which the paper writes as decimals.
fn on_floats() -> Vec<(String, String)> {
    vec![
        (format!("jd 2000 2 29 {}", bits_word(0.0)), format!("0 {}", bits_word(2451603.5))),
        (format!("clock {}", bits_word(2451544.5)), "0 345".into()),
        (format!("minutes {}", bits_word(0.9998)), "0 0".into()),
    ]
}

/// One rule as a rule file.
const RULE_FILE: &str = "kind=1\nyear=0\nmonth=2\nday=3\nhalf=0\nkala=0\nname=65535\nholiday=1\n";

/// What is put in the place of a piece of it, the buffer's length, and what is read.
const ALTERED: [(&str, &str, usize, &str); 11] = [
    ("", "", 8, "0 1 | 1 0 2 3 0 0 65535 1"),
    ("", "", 7, "9 | 7 7 7 7 7 7 7"),
    (RULE_FILE, "", 1, "0 0 | 7"),
    ("kind=1", "kind=5", 0, "2 |"),
    ("kind=1\nyear=0\n", "year=0\nkind=5\n", 0, "12 1 |"),
    ("month=2", "month=02", 0, "12 3 |"),
    ("65535", "65536", 0, "12 7 |"),
    ("day=3\n", "day=3\r\n", 0, "12 4 |"),
    ("holiday=1\n", "holiday=1", 0, "12 8 |"),
    ("holiday=1\n", "", 0, "12 8 |"),
    ("holiday=1\n", "holiday=1\n\n", 0, "12 9 |"),
];

/// The lines that lend each altered rule file and read it.
fn on_rule_files() -> Vec<(String, String)> {
    let mut pairs = Vec::new();
    for (piece, put, length, answer) in ALTERED {
        let file = RULE_FILE.replacen(piece, put, 1);
        pairs.push(("text".into(), String::new()));
        if !file.is_empty() {
            pairs.push((format!("octets {}", hex_word(file.as_bytes())), String::new()));
        }
        pairs.push((format!("readrules {length}"), answer.into()));
    }
    pairs
}

/// Counts the answers that are not the expected ones.
fn differing(pairs: impl Iterator<Item = (String, String)>) -> usize {
    let mut lent = Lent::default();
    let mut differ = 0;
    for (line, expected) in pairs {
        let parsed = lines::parse(line.as_bytes()).expect("a line in form");
        let answer = lent.take(parsed).map(|query| answers::answer(&mut lent, query));
        if answer.clone().unwrap_or_default() != expected {
            println!("{line}: {answer:?}, not {expected}");
            differ += 1;
        }
    }
    differ
}

/// Month 100/2: three blanks before, one after, 35 cells.
fn month_differs() -> bool {
    let (mut cells, mut names) = ([9; 36 * 12], [9; 2]);
    let month = parameterised::grid::month_grid(
        &convert::own_table(),
        &[],
        0,
        date(1950, 2, 14),
        100,
        2,
        &mut cells,
        &mut names,
    );
    let days: Vec<u16> = cells.chunks(12).map(|cell| cell[0]).collect();
    let blank = |cell: usize| cells[12 * cell..12 * cell + 12] == [0; 12];
    !(month.is_ok_and(|month| month.cells == 35 && month.days == 31)
        && (0..3).all(blank)
        && days[3..34] == (1..=31).collect::<Vec<u16>>()
        && blank(34)
        && days[35] == 9)
}

fn convert_differs() -> bool {
    let printed = "bs=100-12-30\nad=1950-12-31\nrefusal=0\noutside=0\n\
                   bs=none\nad=1952-01-02\nrefusal=7\noutside=1\n";
    convert::run(b"bs=100-12-30\nad=1952-01-02\n") != printed
}

/// Meeus prints decimals: the last digit may be one off.
fn meeus_differs(name: &str, answer: f64, book: f64, last_digit: f64) -> bool {
    println!("Meeus {name}: {answer}, the book {book}");
    (answer - book).abs() > last_digit
}

fn main() -> ExitCode {
    let host = std::env::args().nth(1).as_deref() == Some("host") || !trig::has_recipe();
    trig::set_mode(if host { Mode::Host } else { Mode::Recipe });
    let paper = PAPER.iter().chain(&HOLIDAYS).chain(&STATE).chain(&NO_MODE);
    let paper = paper.map(|(line, answer)| (line.to_string(), answer.to_string()));
    let julian_day = panchanga::julian_day(date(1957, 10, 4), 0.81).expect("an instant").0;
    let sun = panchanga::sun_longitude(Tt(2448908.5)).expect("a longitude");
    let apparent = Apparent.for_events(sun, (2448908.5 - 2451545.0) / 36525.0);
    let moon = panchanga::moon_longitude(Tt(2448724.5)).expect("a longitude");
    let checks = [
        month_differs(),
        convert_differs(),
        meeus_differs("7.a, 1957 October 4.81", julian_day, 2436116.31, 1e-9),
        meeus_differs("25.a, the sun's true longitude", sun, 199.90987, 2e-5),
        meeus_differs("25.a, the sun's apparent longitude", apparent, 199.90895, 2e-5),
        meeus_differs("47.a, the moon's geometric longitude", moon, 133.162655, 2e-6),
    ];
    let pairs = paper.chain(on_floats()).chain(on_rule_files());
    let differ = differing(pairs) + checks.iter().filter(|bad| **bad).count();
    println!("{differ} of the paper's and the book's examples differ");
    if differ == 0 { ExitCode::SUCCESS } else { ExitCode::FAILURE }
}
