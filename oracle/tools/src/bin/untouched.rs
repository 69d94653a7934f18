//! The Rust untouched at the command line: answers lines of the line language, `-` where it cannot.
//!
//!   untouched < queries
use tools::lines::{self, Lent};
use tools::untouched::Untouched;

fn main() -> std::io::Result<()> {
    let (mut lent, rust) = (Lent::default(), Untouched::default());
    lines::answer_all(|line| match lines::parse(line) {
        Some(line) => {
            let query = lent.take(line)?;
            Some(rust.answer(&mut lent, query).unwrap_or("-".into()))
        }
        None => Some("-".into()),
    })
}
