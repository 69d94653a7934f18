//! Sine, cosine, the arcs, tangent and the powers: whatever the standard library leaves to the host.
use std::sync::atomic::{AtomicU8, Ordering};

/// docs/TRIG.md's sequences of f64 operations, as Rust.
mod recipe {
    include!(concat!(env!("OUT_DIR"), "/recipe.rs"));
}

/// Whose functions are asked.
#[derive(Debug, Clone, Copy, PartialEq, Eq)]
#[repr(u8)]
pub enum Mode {
    /// The recipes, under document 01's domain rules; its tangent and its powers.
    Recipe,
    /// The host's sine, cosine and arcs under the same rules; document 01's tangent and powers.
    Host,
    /// The host's functions as the Rust untouched calls them, no domain rule: its bits exactly.
    Untouched,
}

static MODE: AtomicU8 = AtomicU8::new(Mode::Recipe as u8);

pub fn set_mode(mode: Mode) {
    MODE.store(mode as u8, Ordering::Relaxed);
}

pub fn mode() -> Mode {
    match MODE.load(Ordering::Relaxed) {
        0 => Mode::Recipe,
        1 => Mode::Host,
        _ => Mode::Untouched,
    }
}

/// The recipe that was built in.
pub const RECIPE: &str = include_str!(concat!(env!("OUT_DIR"), "/recipe.rs"));

/// Whether there is a recipe.
pub fn has_recipe() -> bool {
    !RECIPE.starts_with("// no recipe")
}

fn answered(x: f64, bound: f64, recipe: fn(f64) -> f64, host: fn(f64) -> f64) -> f64 {
    let inside = x >= -bound && x <= bound;
    match mode() {
        Mode::Untouched => host(x),
        _ if !inside => 0.0,
        Mode::Host => host(x),
        Mode::Recipe => recipe(x),
    }
}

pub fn sin(x: f64) -> f64 {
    answered(x, 100000.0, recipe::sin, f64::sin)
}

pub fn cos(x: f64) -> f64 {
    answered(x, 100000.0, recipe::cos, f64::cos)
}

pub fn asin(x: f64) -> f64 {
    answered(x, 1.0, recipe::asin, f64::asin)
}

pub fn acos(x: f64) -> f64 {
    answered(x, 1.0, recipe::acos, f64::acos)
}

pub fn tan(x: f64) -> f64 {
    match mode() {
        Mode::Untouched => x.tan(),
        _ => sin(x) / cos(x),
    }
}

/// Powers from the zeroth to the fifth, as document 01 fixes them.
pub fn powi(x: f64, n: i32) -> f64 {
    if mode() == Mode::Untouched {
        return x.powi(n);
    }
    let square = x * x;
    match n {
        0 => 1.0,
        1 => x,
        2 => square,
        3 => square * x,
        4 => square * square,
        5 => square * square * x,
        _ => unreachable!("no formula has such a power"),
    }
}
