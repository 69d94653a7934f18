//! Holds the kept state of oracle P against document 02.
//!
//!   kept check < queries     after each line that asks the state, the answer must be the one without a
//!                            state, and each stored year what the table and the rules now held resolve to
//!   kept faults < queries    keeps the state wrongly in several ways, one at a time: each must show in
//!                            an answer
use parameterised::kept::Kept;
use parameterised::trig::{self, Mode};
use std::io::Read;
use std::process::ExitCode;
use tools::answers::{answer, state_line};
use tools::kept::{FAULTS, wrong};
use tools::lines::{self, Lent, Line, Operation, Query};

/// Answers the lines that matter to a state; `after` sees each operation.
fn run(
    lines: &[Line],
    mut after: impl FnMut(&Kept, &[u16], &Operation, &str, &mut Kept),
) -> Vec<String> {
    let mut lent = Lent::default();
    let mut answers = Vec::new();
    for line in lines {
        match lent.take(line.clone()) {
            Some(Query::State(operation)) => {
                let Some(state) = &mut lent.state else {
                    answers.push("?".into());
                    continue;
                };
                let before = state.clone();
                let answer = state_line(state, &lent.rules, operation.clone());
                after(&before, &lent.rules, &operation, &answer, state);
                answers.push(answer);
            }
            Some(Query::Start(year, day)) => {
                answers.push(answer(&mut lent, Query::Start(year, day)))
            }
            _ => {}
        }
    }
    answers
}

/// How many answers are not the ones without a state, or leave a state that is not the one due.
fn check(lines: &[Line]) -> usize {
    let (mut seen, mut faulty) = (0, 0);
    run(lines, |before, rules, operation, line, after| {
        seen += 1;
        if let Some(words) = wrong(before, rules, operation, line, after) {
            println!("kept: {operation:?}: {words}");
            faulty += 1;
        }
    });
    println!("kept: {seen} answers of a state seen, {faulty} are not those without one");
    faulty
}

/// How many ways to keep a state wrongly show in no answer.
fn faults(lines: &[Line]) -> usize {
    let answers = run(lines, |_, _, _, _, _| {});
    let mut missed = 0;
    for (words, fault) in FAULTS {
        let others = run(lines, fault);
        let differ = answers.iter().zip(&others).filter(|(a, b)| a != b).count();
        println!("kept: {words}: {differ} answers differ");
        missed += (differ == 0) as usize;
    }
    missed
}

fn main() -> ExitCode {
    trig::set_mode(if trig::has_recipe() { Mode::Recipe } else { Mode::Host });
    let mut text = Vec::new();
    std::io::stdin().read_to_end(&mut text).expect("standard input can be read");
    let lines: Vec<Line> = text.split(|byte| *byte == b'\n').filter_map(lines::parse).collect();
    let found = match std::env::args().nth(1).as_deref() {
        Some("check") => check(&lines),
        Some("faults") => faults(&lines),
        _ => {
            eprintln!("kept: check or faults");
            return ExitCode::from(2);
        }
    };
    if found == 0 { ExitCode::SUCCESS } else { ExitCode::FAILURE }
}
