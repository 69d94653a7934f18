//! Oracle P, the parameterised Rust: document 01 read as a program. It follows the Rust function by
//! function, but the year table and the rules come from the caller, nothing is kept from call to
//! call, and every refusal is a number of document 01's table, or of a request of document 02.
//!
//! Adapted from ncal (github.com/razzat008/ncal, MIT licence, copyright 2026 rajatdahal): the NOTICE
//! at the repository's root covers these files.
pub mod conversion;
pub mod convert;
pub mod festivals;
pub mod gregorian;
pub mod grid;
pub mod kept;
pub mod mode;
pub mod panchanga;
pub mod rulefile;
pub mod trig;

/// The answer, or a refusal number that carries nothing.
pub type Answer<T> = Result<T, u16>;

/// A refusal with what it carries: 7 the days after the last table day, or those before the first as
/// a negative number; 12 the number of a line; any other number nothing.
#[derive(Debug, Clone, Copy, PartialEq, Eq)]
pub enum Refusal {
    Outside(i64),
    OutOfForm(usize),
    Bare(u16),
}

impl Refusal {
    pub fn number(self) -> u16 {
        match self {
            Refusal::Outside(_) => 7,
            Refusal::OutOfForm(_) => 12,
            Refusal::Bare(number) => number,
        }
    }
}

impl From<u16> for Refusal {
    fn from(number: u16) -> Self {
        Refusal::Bare(number)
    }
}
