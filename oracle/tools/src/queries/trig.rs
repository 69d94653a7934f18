//! Sine, cosine, the arcs and tangent.
use super::Maker;
use crate::random::neighbour;
use std::f64::consts::FRAC_PI_4;

const ANGLES: [&str; 3] = ["sin", "cos", "tan"];
const ARCS: [&str; 2] = ["asin", "acos"];

/// A float and its neighbours, of either sign.
fn both_signs(maker: &mut Maker, tag: &str, x: f64, places: i64) {
    maker.around(tag, x, places);
    maker.around(tag, -x, places);
}

/// Small numbers down to the subnormal ones, and large ones.
const SIZES: [f64; 16] = [
    5e-324,
    1e-323,
    1e-310,
    f64::MIN_POSITIVE,
    1e-300,
    1e-200,
    1e-100,
    1e-20,
    1e-17,
    1e-16,
    1e-9,
    1e-8,
    1e-5,
    1e10,
    1e300,
    f64::MAX,
];

fn edges(maker: &mut Maker) {
    for tag in ANGLES.into_iter().chain(ARCS) {
        maker.odd_floats(tag);
        for size in SIZES {
            both_signs(maker, tag, size, 0);
        }
        for x in [f64::MIN_POSITIVE, 0.5, 1.0] {
            both_signs(maker, tag, x, 3);
        }
    }
    for tag in ANGLES {
        both_signs(maker, tag, 100000.0, 3);
        both_signs(maker, tag, 100001.0, 0);
        both_signs(maker, tag, 63100.0, 0);
    }
    for tag in ARCS {
        for x in [0.25, 0.75, 0.7071067811865476, 0.8660254037844386, 2.0, 1.0 - 1e-9] {
            both_signs(maker, tag, x, 1);
        }
        for steps in [4, 10, 100, 1000, 1_000_000] {
            both_signs(maker, tag, neighbour(1.0, -steps), 0);
            both_signs(maker, tag, neighbour(0.5, -steps), 0);
            both_signs(maker, tag, neighbour(0.5, steps), 0);
        }
    }
}

/// Multiples of a quarter turn, of half of one, and their neighbours.
fn quarter_turns(maker: &mut Maker) {
    let mut eighths: Vec<i64> = (1..=16).collect();
    eighths.extend([100, 101, 1000, 4001, 31415, 100000, 127322, 127323, 127324]);
    for eighth in eighths {
        for tag in ["sin", "cos"] {
            both_signs(maker, tag, eighth as f64 * FRAC_PI_4, 2);
        }
        maker.around("tan", eighth as f64 * FRAC_PI_4, 1);
    }
}

fn random_values(maker: &mut Maker) {
    for tag in ANGLES {
        for size in [0.8, 7.0, 100.0, 3000.0, 65000.0, 100000.0, 110000.0] {
            for _ in 0..90 {
                let x = maker.random.between(-size, size);
                maker.at(tag, x);
            }
        }
        // Any exponent up to a million.
        for _ in 0..60 {
            let exponent = maker.random.between(-60.0, 20.0);
            let sign = maker.random.one_of(&[1.0, -1.0]);
            let digits = maker.random.between(1.0, 2.0);
            maker.at(tag, sign * digits * f64::powi(2.0, exponent as i32));
        }
    }
    for tag in ARCS {
        for size in [1.0, 0.5, 1.01, 0.01] {
            for _ in 0..100 {
                let x = maker.random.between(-size, size);
                maker.at(tag, x);
            }
        }
        // Close to one, where an arc is steep.
        for _ in 0..100 {
            let exponent = maker.random.whole(1, 53) as i32;
            let gap = maker.random.between(1.0, 2.0) * f64::powi(2.0, -exponent);
            let sign = maker.random.one_of(&[1.0, -1.0]);
            maker.at(tag, sign * (1.0 - gap));
        }
    }
}

fn out_of_form(maker: &mut Maker) {
    maker.out_of_form("sin 0x3ff0000000000000");
    for line in [
        "cos",
        "cos 1",
        "cos 1.0",
        "asin 0x3ff",
        "acos 0x3FF0000000000000",
        "tan nan",
        "sine 0x3ff0000000000000",
    ] {
        maker.line(line);
    }
}

pub fn sample(maker: &mut Maker) {
    edges(maker);
    quarter_turns(maker);
    random_values(maker);
    out_of_form(maker);
}
