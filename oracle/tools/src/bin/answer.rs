//! Oracle P at the command line: answers lines of the line language.
//!
//!   answer [recipe|host|untouched] < queries      (recipe where no word is given)
//!   answer convert < lines                        the program `convert`
//!   answer source                                 the recipe that was built in
use parameterised::convert;
use parameterised::trig::{self, Mode};
use std::io::{Read, Write};
use std::process::ExitCode;
use tools::answers;
use tools::lines::{self, Lent};

fn answer_lines(mode: Mode) -> ExitCode {
    if mode == Mode::Recipe && !trig::has_recipe() {
        eprintln!("answer: built without oracle/recipes/trig.rs; the modes are host and untouched");
        return ExitCode::from(2);
    }
    trig::set_mode(mode);
    let mut lent = Lent::default();
    let answered = lines::answer_all(|line| match lines::parse(line) {
        Some(line) => lent.take(line).map(|query| answers::answer(&mut lent, query)),
        None => Some("?".into()),
    });
    if answered.is_ok() { ExitCode::SUCCESS } else { ExitCode::FAILURE }
}

fn convert_lines() -> std::io::Result<()> {
    let mut input = Vec::new();
    std::io::stdin().read_to_end(&mut input)?;
    std::io::stdout().write_all(convert::run(&input).as_bytes())
}

fn main() -> ExitCode {
    match std::env::args().nth(1).as_deref() {
        None | Some("recipe") => answer_lines(Mode::Recipe),
        Some("host") => answer_lines(Mode::Host),
        Some("untouched") => answer_lines(Mode::Untouched),
        Some("convert") => convert_lines().map_or(ExitCode::FAILURE, |()| ExitCode::SUCCESS),
        Some("source") => {
            print!("{}", trig::RECIPE);
            ExitCode::SUCCESS
        }
        Some(word) => {
            eprintln!("answer: {word}: recipe, host, untouched, convert or source");
            ExitCode::from(2)
        }
    }
}
