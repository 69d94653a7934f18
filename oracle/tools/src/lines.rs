//! The line language of `ask` and of these tools (see README.md).
use parameterised::conversion::{BsDate, Table};
use parameterised::gregorian::{Date, date};
use parameterised::kept::Kept;

/// A line in form.
#[derive(Debug, Clone, PartialEq)]
pub enum Line {
    Table(u16, Date),
    Cells(Vec<u16>),
    Rules,
    Rule(Vec<u16>),
    Text,
    Octets(Vec<u8>),
    Mode(u16),
    Query(Query),
}

/// The most bytes that one line adds to the lent text.
pub const OCTETS: usize = 64;

/// A month's grid that is asked for, with the lengths of its two buffers.
#[derive(Debug, Clone, Copy, PartialEq)]
pub struct Grid {
    pub today: Date,
    pub year: u16,
    pub month: u16,
    pub cells: u16,
    pub festivals: u16,
}

/// A question to the kept state, which is out of form where there is none.
#[derive(Debug, Clone, PartialEq)]
pub enum Operation {
    Take,
    Append(Vec<u16>),
    AskBs(BsDate, u16),
    AskAd(Date, u16),
    AskGrid(Grid),
    Forget,
    Stored,
}

/// A line that is answered. The last numbers of starts, the lists and the rule files are buffer
/// lengths.
#[derive(Debug, Clone, PartialEq)]
pub enum Query {
    Check,
    CheckRules,
    ReadRules(u16),
    WriteRules(u16),
    Bs(BsDate),
    Ad(Date),
    Len(u16, u16),
    Valid(BsDate),
    Step(u16, u8, i32),
    Day(Date),
    DateOf(u32),
    JulianDay(Date, f64),
    DeltaT(f64),
    Tt(f64),
    Sun(f64),
    Moon(f64),
    Elongation(f64),
    Tithi(f64),
    TithiOf(f64),
    Starts(u16, f64, f64, u16),
    End(f64),
    Events(Date),
    Rise(Date),
    Set(Date),
    Kala(Date, u16),
    Nishita(Date),
    NptDate(f64),
    Clock(f64),
    Minutes(f64),
    Read(Date),
    ListBs(BsDate, u16),
    ListAd(Date, u16),
    Holiday(BsDate),
    Grid(Grid),
    Start(u16, Date),
    State(Operation),
    Sin(f64),
    Cos(f64),
    Asin(f64),
    Acos(f64),
    Tan(f64),
}

/// The words of a line that are still to be read.
struct Words<'a> {
    rest: std::slice::Split<'a, u8, fn(&u8) -> bool>,
}

impl<'a> Words<'a> {
    fn of(line: &'a [u8]) -> Self {
        Words { rest: line.split(|c| *c == b' ') }
    }

    fn word(&mut self) -> Option<&'a str> {
        std::str::from_utf8(self.rest.next()?).ok()
    }

    /// A decimal number without leading zeros, of the width that is asked.
    fn number<N: TryFrom<i64>>(&mut self) -> Option<N> {
        N::try_from(natural(self.word()?)?).ok()
    }

    /// A decimal number that may have a minus sign.
    fn signed(&mut self) -> Option<i32> {
        let word = self.word()?;
        let number = match word.strip_prefix('-') {
            Some(digits) => -natural(digits)?,
            None => natural(word)?,
        };
        i32::try_from(number).ok()
    }

    fn float(&mut self) -> Option<f64> {
        let digits = self.word()?.strip_prefix("0x")?;
        if digits.len() != 16 || !is_hex(digits) {
            return None;
        }
        Some(f64::from_bits(u64::from_str_radix(digits, 16).ok()?))
    }

    /// One to `most` bytes, two hex digits each.
    fn octets(&mut self, most: usize) -> Option<Vec<u8>> {
        let digits = self.word()?;
        if digits.len() % 2 != 0 || !(1..=most).contains(&(digits.len() / 2)) || !is_hex(digits) {
            return None;
        }
        let pairs = (0..digits.len()).step_by(2).map(|at| &digits[at..at + 2]);
        pairs.map(|pair| u8::from_str_radix(pair, 16).ok()).collect()
    }

    fn date(&mut self) -> Option<Date> {
        Some(date(self.number()?, self.number()?, self.number()?))
    }

    fn bs(&mut self) -> Option<BsDate> {
        Some(BsDate { year: self.number()?, month: self.number()?, day: self.number()? })
    }

    fn grid(&mut self) -> Option<Grid> {
        Some(Grid {
            today: self.date()?,
            year: self.number()?,
            month: self.number()?,
            cells: self.number()?,
            festivals: self.number()?,
        })
    }

    /// As many numbers as stand there, to the line's end.
    fn numbers(&mut self) -> Option<Vec<u16>> {
        let count = self.rest.clone().count();
        (0..count).map(|_| self.number()).collect()
    }

    /// One or more numbers, at most `most`, to the line's end.
    fn some_numbers(&mut self, most: usize) -> Option<Vec<u16>> {
        self.numbers().filter(|numbers| (1..=most).contains(&numbers.len()))
    }
}

/// Whether all of a word are lowercase hex digits.
fn is_hex(word: &str) -> bool {
    word.bytes().all(|c| c.is_ascii_digit() || (b'a'..=b'f').contains(&c))
}

fn natural(digits: &str) -> Option<i64> {
    let plain = !digits.is_empty()
        && digits.len() <= 10
        && digits.bytes().all(|c| c.is_ascii_digit())
        && (digits == "0" || !digits.starts_with('0'));
    if plain { digits.parse().ok() } else { None }
}

/// A line without its line feed, or nothing where it is out of form.
pub fn parse(line: &[u8]) -> Option<Line> {
    let mut words = Words::of(line);
    let w = &mut words;
    let line = match w.word()? {
        "table" => Line::Table(w.number()?, w.date()?),
        "cells" => Line::Cells(w.some_numbers(13)?),
        "rules" => Line::Rules,
        "rule" => Line::Rule(w.some_numbers(8)?),
        "text" => Line::Text,
        "octets" => Line::Octets(w.octets(OCTETS)?),
        "mode" => Line::Mode(w.number()?),
        tag => Line::Query(query(tag, w)?),
    };
    words.rest.next().is_none().then_some(line)
}

fn query(tag: &str, w: &mut Words) -> Option<Query> {
    Some(match tag {
        "check" => Query::Check,
        "checkrules" => Query::CheckRules,
        "readrules" => Query::ReadRules(w.number()?),
        "writerules" => Query::WriteRules(w.number()?),
        "bs" => Query::Bs(w.bs()?),
        "ad" => Query::Ad(w.date()?),
        "len" => Query::Len(w.number()?, w.number()?),
        "valid" => Query::Valid(w.bs()?),
        "step" => Query::Step(w.number()?, w.number()?, w.signed()?),
        "day" => Query::Day(w.date()?),
        "date" => Query::DateOf(w.number()?),
        "jd" => Query::JulianDay(w.date()?, w.float()?),
        "deltat" => Query::DeltaT(w.float()?),
        "tt" => Query::Tt(w.float()?),
        "sun" => Query::Sun(w.float()?),
        "moon" => Query::Moon(w.float()?),
        "elong" => Query::Elongation(w.float()?),
        "tithi" => Query::Tithi(w.float()?),
        "tithiof" => Query::TithiOf(w.float()?),
        "starts" => Query::Starts(w.number()?, w.float()?, w.float()?, w.number()?),
        "end" => Query::End(w.float()?),
        "events" => Query::Events(w.date()?),
        "rise" => Query::Rise(w.date()?),
        "set" => Query::Set(w.date()?),
        "kala" => Query::Kala(w.date()?, w.number().filter(|kala| *kala <= 5)?),
        "nishita" => Query::Nishita(w.date()?),
        "npt" => Query::NptDate(w.float()?),
        "clock" => Query::Clock(w.float()?),
        "minutes" => Query::Minutes(w.float()?),
        "read" => Query::Read(w.date()?),
        "listbs" => Query::ListBs(w.bs()?, w.number()?),
        "listad" => Query::ListAd(w.date()?, w.number()?),
        "holiday" => Query::Holiday(w.bs()?),
        "grid" => Query::Grid(w.grid()?),
        "start" => Query::Start(w.number()?, w.date()?),
        "take" => Query::State(Operation::Take),
        "append" => Query::State(Operation::Append(w.numbers()?)),
        "askbs" => Query::State(Operation::AskBs(w.bs()?, w.number()?)),
        "askad" => Query::State(Operation::AskAd(w.date()?, w.number()?)),
        "askgrid" => Query::State(Operation::AskGrid(w.grid()?)),
        "forget" => Query::State(Operation::Forget),
        "stored" => Query::State(Operation::Stored),
        "sin" => Query::Sin(w.float()?),
        "cos" => Query::Cos(w.float()?),
        "asin" => Query::Asin(w.float()?),
        "acos" => Query::Acos(w.float()?),
        "tan" => Query::Tan(w.float()?),
        _ => return None,
    })
}

/// What the control lines have lent so far, and the state that questions have made.
pub struct Lent {
    pub table: Table,
    pub rules: Vec<u16>,
    pub text: Vec<u8>,
    /// A number that need not be a mode.
    pub mode: u16,
    pub state: Option<Kept>,
}

impl Default for Lent {
    fn default() -> Self {
        let table = Table { first_year: 0, first_day: date(0, 0, 0), rows: Vec::new() };
        Lent { table, rules: Vec::new(), text: Vec::new(), mode: 0, state: None }
    }
}

impl Lent {
    /// Takes a control line in, or hands the query back.
    pub fn take(&mut self, line: Line) -> Option<Query> {
        match line {
            Line::Table(first_year, first_day) => {
                self.table = Table { first_year, first_day, rows: Vec::new() };
            }
            Line::Cells(numbers) => self.table.rows.extend(numbers),
            Line::Rules => self.rules.clear(),
            Line::Rule(numbers) => self.rules.extend(numbers),
            Line::Text => self.text.clear(),
            Line::Octets(bytes) => self.text.extend(bytes),
            Line::Mode(number) => self.mode = number,
            Line::Query(query) => return Some(query),
        }
        None
    }
}

/// A float as a word of a query or of an answer.
pub fn float_word(x: f64) -> String {
    if x.is_nan() { "nan".into() } else { bits_word(x) }
}

/// A float as a word of a query: a NaN keeps its bits.
pub fn bits_word(x: f64) -> String {
    format!("0x{:016x}", x.to_bits())
}

/// Bytes as a word of a query or of an answer.
pub fn hex_word(bytes: &[u8]) -> String {
    bytes.iter().map(|byte| format!("{byte:02x}")).collect()
}

/// Answers each line of standard input by `answer`, which takes the line without its line feed.
pub fn answer_all(mut answer: impl FnMut(&[u8]) -> Option<String>) -> std::io::Result<()> {
    use std::io::{BufRead, Write};
    let mut input = std::io::stdin().lock();
    let mut output = std::io::BufWriter::new(std::io::stdout().lock());
    let mut line = Vec::new();
    while input.read_until(b'\n', &mut line)? > 0 {
        if line.last() == Some(&b'\n') {
            line.pop();
        }
        if let Some(answer) = answer(&line) {
            writeln!(output, "{answer}")?;
        }
        line.clear();
    }
    output.flush()
}
