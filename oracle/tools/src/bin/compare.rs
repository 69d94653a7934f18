//! Holds two files of answers to the same queries against each other, word by word.
//!
//!   compare [--floats bits|near|any] [--listed FILE] QUERIES ANSWERS ORACLE
//!
//! An oracle's answer `-` is not compared, and a word `*` of it is any word. Floats are equal in bits,
//! or (near) within 1e-9, or (any) only held to be numbers on both sides; the largest difference is
//! told. A difference is listed where FILE has the query between backticks. The end is 0 where every
//! difference is listed, else 1.
use std::collections::{BTreeMap, HashSet};
use std::fs;
use std::io;
use std::process::ExitCode;
use tools::lines::{self, Line};

/// How many differences of one kind of query are printed.
const SHOWN: usize = 200;
/// Document 01's bound on the recipes.
const NEAR: f64 = 1e-9;

#[derive(Clone, Copy, PartialEq)]
enum Floats {
    Bits,
    Near,
    Any,
}

/// What was seen of one kind of query.
#[derive(Default)]
struct Tally {
    compared: usize,
    left_out: usize,
    listed: usize,
    differ: usize,
    largest: f64,
}

struct Job {
    floats: Floats,
    listed: HashSet<String>,
    files: Vec<String>,
}

fn job() -> Option<Job> {
    let mut job = Job { floats: Floats::Bits, listed: HashSet::new(), files: Vec::new() };
    let mut words = std::env::args().skip(1);
    while let Some(word) = words.next() {
        match word.as_str() {
            "--floats" => {
                job.floats = match words.next()?.as_str() {
                    "bits" => Floats::Bits,
                    "near" => Floats::Near,
                    "any" => Floats::Any,
                    _ => return None,
                }
            }
            "--listed" => {
                let text = fs::read_to_string(words.next()?).unwrap_or_default();
                job.listed.extend(text.split('`').skip(1).step_by(2).map(String::from));
            }
            _ => job.files.push(word),
        }
    }
    (job.files.len() == 3).then_some(job)
}

fn float(word: &str) -> Option<f64> {
    let bits = u64::from_str_radix(word.strip_prefix("0x")?, 16).ok()?;
    Some(f64::from_bits(bits))
}

/// Whether two words agree; `largest` grows to the difference of two floats.
fn agree(word: &str, oracle: &str, floats: Floats, largest: &mut f64) -> bool {
    if word == oracle || oracle == "*" {
        return true;
    }
    let (Some(a), Some(b)) = (float(word), float(oracle)) else {
        return false;
    };
    let difference = (a - b).abs();
    *largest = largest.max(difference);
    match floats {
        Floats::Bits => false,
        Floats::Near => difference <= NEAR,
        Floats::Any => difference.is_finite(),
    }
}

fn lines_agree(line: &str, oracle: &str, floats: Floats, largest: &mut f64) -> bool {
    let (words, others) = (line.split(' '), oracle.split(' '));
    words.clone().count() == others.clone().count()
        && words
            .zip(others)
            .fold(true, |all, (word, other)| agree(word, other, floats, largest) && all)
}

/// A long line's beginning, for print.
fn cut(line: &str) -> String {
    let most = 160;
    let start: String = line.chars().take(most).collect();
    if start.len() == line.len() { start } else { format!("{start} ..") }
}

/// The first word in which two lines differ, with its place.
fn first_difference(line: &str, oracle: &str) -> String {
    let pairs = line.split(' ').zip(oracle.split(' '));
    match pairs.enumerate().find(|(_, (a, b))| a != b && *b != "*") {
        Some((place, (a, b))) => format!("word {place}: {a}, oracle {b}"),
        None => "one line is longer".into(),
    }
}

/// The kind of a line that is answered: its tag; nothing for a control line.
fn kind(query: &[u8]) -> Option<&str> {
    match lines::parse(query) {
        Some(Line::Query(_)) => std::str::from_utf8(query).ok()?.split(' ').next(),
        Some(_) => None,
        None => Some("(out of form)"),
    }
}

fn print_tallies(tallies: &BTreeMap<&str, Tally>) {
    println!(
        "  {:<14} {:>9} {:>9} {:>7} {:>7}  largest",
        "", "compared", "left out", "listed", "differ"
    );
    for (kind, t) in tallies {
        let largest = if t.largest > 0.0 { format!("{:e}", t.largest) } else { "-".into() };
        println!(
            "  {kind:<14} {:>9} {:>9} {:>7} {:>7}  {largest}",
            t.compared, t.left_out, t.listed, t.differ
        );
    }
}

/// Compares and prints; whether every difference is listed.
fn compare(job: &Job) -> io::Result<bool> {
    let queries = fs::read(&job.files[0])?;
    let text =
        |file: &String| Ok::<_, io::Error>(String::from_utf8_lossy(&fs::read(file)?).into_owned());
    let (answers, oracle) = (text(&job.files[1])?, text(&job.files[2])?);
    let (mut answers, mut oracle) = (answers.split_terminator('\n'), oracle.split_terminator('\n'));
    let mut tallies: BTreeMap<&str, Tally> = BTreeMap::new();
    for query in queries.strip_suffix(b"\n").unwrap_or(&queries).split(|byte| *byte == b'\n') {
        let Some(kind) = kind(query) else {
            continue;
        };
        let tally = tallies.entry(kind).or_default();
        let (line, other) = (answers.next(), oracle.next());
        if other == Some("-") {
            tally.left_out += 1;
            continue;
        }
        tally.compared += 1;
        let (line, other) = (line.unwrap_or("(no answer)"), other.unwrap_or("(no answer)"));
        if lines_agree(line, other, job.floats, &mut tally.largest) {
            continue;
        }
        let query = String::from_utf8_lossy(query);
        if job.listed.contains(&*query) {
            tally.listed += 1;
            continue;
        }
        tally.differ += 1;
        if tally.differ <= SHOWN {
            println!("  {}: {}, oracle {}", cut(&query), cut(line), cut(other));
            println!("    {}", first_difference(line, other));
        }
    }
    print_tallies(&tallies);
    let more = answers.count();
    if more > 0 {
        println!("  {more} answers more than queries");
    }
    let differ: usize = tallies.values().map(|tally| tally.differ).sum();
    let compared: usize = tallies.values().map(|tally| tally.compared).sum();
    println!("  {compared} answers compared, {differ} differ");
    Ok(differ == 0 && more == 0)
}

fn main() -> ExitCode {
    let Some(job) = job() else {
        eprintln!("compare [--floats bits|near|any] [--listed FILE] QUERIES ANSWERS ORACLE");
        return ExitCode::from(2);
    };
    match compare(&job) {
        Ok(true) => ExitCode::SUCCESS,
        Ok(false) => ExitCode::from(1),
        Err(error) => {
            eprintln!("compare: {error}");
            ExitCode::from(2)
        }
    }
}
