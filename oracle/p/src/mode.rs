//! Which longitude of the sun serves, by document 02's A5.
use crate::Answer;
use crate::panchanga::DEG;
use crate::trig::sin;

/// What aberration takes from the sun's longitude, in degrees.
const ABERRATION: f64 = 0.00569;

/// A mode's number is its place.
#[derive(Debug, Clone, Copy, PartialEq, Eq)]
pub enum Mode {
    /// The true longitude, for tithis and for sun events: the Rust's.
    True,
    /// The apparent longitude.
    Apparent,
}

pub const MODES: [Mode; 2] = [Mode::True, Mode::Apparent];

impl Mode {
    /// 14.
    pub fn of(number: u16) -> Answer<Mode> {
        MODES.get(number as usize).copied().ok_or(14)
    }

    pub fn number(self) -> u16 {
        self as u16
    }

    /// The sun's longitude for a tithi, before it is brought into one turn: the sun's nutation is the
    /// moon's too.
    pub fn for_tithi(self, longitude: f64) -> f64 {
        match self {
            Mode::True => longitude,
            Mode::Apparent => longitude - ABERRATION,
        }
    }

    /// The sun's longitude at T for a sun event, before it is brought into one turn.
    pub fn for_events(self, longitude: f64, t: f64) -> f64 {
        match self {
            Mode::True => longitude,
            Mode::Apparent => longitude - ABERRATION - 0.00478 * sin((125.04 - 1934.136 * t) * DEG),
        }
    }
}
