//! Makes query lines.
//!
//!   queries sample|full SET > lines
use parameterised::trig::{self, Mode};
use std::io::{BufWriter, Write};
use std::process::ExitCode;
use tools::queries::{self, Maker};

/// The seed of every set; a set's own name is mixed in.
const SEED: u64 = 2081;

fn main() -> ExitCode {
    let words: Vec<String> = std::env::args().skip(1).collect();
    let [scale, name] = &words[..] else {
        eprintln!("queries: sample SET or full SET");
        return ExitCode::from(2);
    };
    let Some(make) = queries::maker(scale, name) else {
        eprintln!("queries: there is no set {scale} {name}");
        return ExitCode::from(2);
    };
    // Instants near a tithi's start are looked for by the recipe, which is the same everywhere.
    trig::set_mode(if trig::has_recipe() { Mode::Recipe } else { Mode::Host });
    let seed = name.bytes().fold(SEED, |seed, byte| seed.wrapping_mul(31) + byte as u64);
    let mut out = BufWriter::new(std::io::stdout());
    make(&mut Maker::new(seed, &mut out));
    out.flush().map_or(ExitCode::FAILURE, |()| ExitCode::SUCCESS)
}
