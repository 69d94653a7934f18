// See `run`. Exits with 1 if a difference from the host passes 1e-9, a bit differs from the recipe, or sine takes more than 1.1 of the host's time.
use std::time::Instant;

mod recipe {
    include!("../../oracle/recipes/trig.rs");
    pub fn tan(x: f64) -> f64 {
        sin(x) / cos(x)
    }
}

mod port {
    extern "C" {
        fn panel_sine(x: f64, value: &mut f64) -> u16;
        fn panel_cosine(x: f64, value: &mut f64) -> u16;
        fn panel_arcsine(x: f64, value: &mut f64) -> u16;
        fn panel_arccosine(x: f64, value: &mut f64) -> u16;
        fn panel_tangent(x: f64, value: &mut f64) -> u16;
    }
    macro_rules! over {
        ($($name:ident $export:ident)*) => {
            $(pub fn $name(x: f64) -> f64 {
                let mut value = 0.0;
                unsafe { $export(x, &mut value) };
                value
            })*
        };
    }
    over!(sin panel_sine cos panel_cosine asin panel_arcsine acos panel_arccosine tan panel_tangent);
}

const MILLION: usize = 1_000_000;

// Marsaglia's xorshift, from a fixed seed: each run has the same numbers.
struct Dice(u64);

impl Dice {
    fn bits(&mut self) -> u64 {
        self.0 ^= self.0 << 13;
        self.0 ^= self.0 >> 7;
        self.0 ^= self.0 << 17;
        self.0
    }
    // from 0 to 1
    fn part(&mut self) -> f64 {
        (self.bits() >> 11) as f64 / (1u64 << 53) as f64
    }
    // from -1 to 1
    fn either(&mut self) -> f64 {
        2.0 * self.part() - 1.0
    }
    // a size of any order of magnitude down to the smallest f64, with either sign
    fn any_size(&mut self, largest: f64) -> f64 {
        let size = largest * 2f64.powf(-1090.0 * self.part());
        if self.bits() & 1 == 0 {
            size
        } else {
            -size
        }
    }
}

// x moved by some f64 steps away from or towards zero
fn stepped(x: f64, steps: i64) -> f64 {
    f64::from_bits((x.to_bits() as i64 + steps) as u64)
}

// Half of them anywhere in range, the others at or near a multiple of a quarter turn, or of any size.
fn angles(dice: &mut Dice) -> Vec<f64> {
    let mut xs = vec![0.0, -0.0, 100000.0, -100000.0];
    while xs.len() < MILLION {
        let x = match xs.len() % 8 {
            0..=3 => 100000.0 * dice.either(),
            4 | 5 => {
                let n = (63662.0 * dice.either()).floor();
                let near = n * std::f64::consts::FRAC_PI_2;
                let steps = (dice.bits() % 9) as i64 - 4;
                if n == 0.0 {
                    0.0
                } else {
                    stepped(near, steps)
                }
            }
            6 => {
                let n = (63662.0 * dice.either()).floor();
                n * std::f64::consts::FRAC_PI_2 + dice.any_size(0.01)
            }
            _ => dice.any_size(100000.0),
        };
        if x.abs() <= 100000.0 {
            xs.push(x);
        }
    }
    xs
}

// Half of them anywhere from -1 to 1, the others near an end, near where the recipe changes, or of any size.
fn arc_arguments(dice: &mut Dice) -> Vec<f64> {
    let mut xs = vec![0.0, -0.0, 0.5, -0.5, 1.0, -1.0];
    while xs.len() < MILLION {
        let x = match xs.len() % 8 {
            0..=3 => dice.either(),
            4 => 1.0 - 2f64.powf(-53.0 * dice.part()),
            5 => 2f64.powf(-53.0 * dice.part()) - 1.0,
            6 => {
                let side = if dice.bits() & 1 == 0 { 0.5 } else { -0.5 };
                side + 0.1 * dice.either() * dice.part()
            }
            _ => dice.any_size(1.0),
        };
        xs.push(x);
    }
    xs
}

// Any f64 at all.
fn patterns(dice: &mut Dice) -> Vec<f64> {
    let mut xs = vec![f64::NAN, f64::INFINITY, f64::NEG_INFINITY, f64::MAX, f64::MIN];
    for end in [100000.0, 1.0, 0.5] {
        for steps in -2..=2 {
            xs.push(stepped(end, steps));
            xs.push(-stepped(end, steps));
        }
    }
    while xs.len() < MILLION {
        xs.push(f64::from_bits(dice.bits()));
    }
    xs
}

type Function = fn(f64) -> f64;

fn same(a: f64, b: f64) -> bool {
    a.to_bits() == b.to_bits() || (a.is_nan() && b.is_nan())
}

struct Report {
    good: bool,
}

impl Report {
    fn held_to(&mut self, name: &str, xs: &[f64], port: Function, recipe: Function, host: Function) {
        let (mut largest, mut place) = (0.0, 0.0);
        let mut other_bits = 0;
        for &x in xs {
            let value = port(x);
            let error = (value - host(x)).abs();
            if !(error <= largest) {
                largest = error;
                place = x;
            }
            if !same(value, recipe(x)) {
                other_bits += 1;
            }
        }
        println!("{name}: {} arguments, largest difference from the host {largest:.3e} at {place:?}; {other_bits} differ from the recipe", xs.len());
        self.good &= largest <= 1e-9 && other_bits == 0;
    }

    fn bits_only(&mut self, name: &str, xs: &[f64], port: Function, recipe: Function) {
        let other_bits = xs.iter().filter(|&&x| !same(port(x), recipe(x))).count();
        println!("{name}: {} arguments; {other_bits} differ from the recipe", xs.len());
        self.good &= other_bits == 0;
    }

    fn timed(&mut self, name: &str, xs: &[f64], port: Function, host: Function, most: f64) {
        let mut ratios = Vec::new();
        let mut times = (Vec::new(), Vec::new());
        for _ in 0..51 {
            let h = seconds(xs, host);
            let p = seconds(xs, port);
            ratios.push(p / h);
            times.0.push(h);
            times.1.push(p);
        }
        let ratio = median(&mut ratios);
        let each = 1e9 / xs.len() as f64;
        println!("{name}: host {:.1} ns, Rattle {:.1} ns, ratio {ratio:.2}", median(&mut times.0) * each, median(&mut times.1) * each);
        self.good &= ratio <= most;
    }
}

fn seconds(xs: &[f64], f: Function) -> f64 {
    let began = Instant::now();
    let mut sum = 0.0;
    for &x in xs {
        sum += f(x);
    }
    assert!(!sum.is_nan());
    began.elapsed().as_secs_f64()
}

fn median(xs: &mut [f64]) -> f64 {
    xs.sort_by(|a, b| a.total_cmp(b));
    xs[xs.len() / 2]
}

fn main() {
    let mut dice = Dice(88172645463325252);
    let mut report = Report { good: true };

    let xs = angles(&mut dice);
    report.held_to("sine", &xs, port::sin, recipe::sin, f64::sin);
    report.held_to("cosine", &xs, port::cos, recipe::cos, f64::cos);
    report.bits_only("tangent", &xs, port::tan, recipe::tan);
    let xs = arc_arguments(&mut dice);
    report.held_to("arcsine", &xs, port::asin, recipe::asin, f64::asin);
    report.held_to("arccosine", &xs, port::acos, recipe::acos, f64::acos);
    let xs = patterns(&mut dice);
    for (name, port, recipe) in [
        ("sine, any bits", port::sin as Function, recipe::sin as Function),
        ("cosine, any bits", port::cos, recipe::cos),
        ("arcsine, any bits", port::asin, recipe::asin),
        ("arccosine, any bits", port::acos, recipe::acos),
        ("tangent, any bits", port::tan, recipe::tan),
    ] {
        report.bits_only(name, &xs, port, recipe);
    }

    let whole: Vec<f64> = (0..MILLION).map(|_| 100000.0 * dice.either()).collect();
    let turn: Vec<f64> = (0..MILLION).map(|_| std::f64::consts::PI * dice.either()).collect();
    let unit: Vec<f64> = (0..MILLION).map(|_| dice.either()).collect();
    report.timed("sine, up to 100,000 radians either way", &whole, port::sin, f64::sin, 1.1);
    report.timed("sine, within one turn", &turn, port::sin, f64::sin, 1.1);
    report.timed("cosine, up to 100,000 radians either way", &whole, port::cos, f64::cos, 1.1);
    report.timed("arcsine", &unit, port::asin, f64::asin, f64::INFINITY);
    report.timed("arccosine", &unit, port::acos, f64::acos, f64::INFINITY);
    report.timed("tangent, up to 100,000 radians either way", &whole, port::tan, f64::tan, f64::INFINITY);

    if !report.good {
        println!("outside what docs/TRIG.md promises");
        std::process::exit(1);
    }
}
