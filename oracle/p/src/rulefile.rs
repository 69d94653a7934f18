//! The rule list as a text file (docs/RULES.md), by document 02.
use crate::convert::number;
use crate::festivals::check_rules;
use crate::{Answer, Refusal};

/// The keys of a rule's lines, in their order.
pub const KEYS: [&str; 8] = ["kind", "year", "month", "day", "half", "kala", "name", "holiday"];

/// The number of a line with its line feed, where it is the line of a key.
fn value(line: &[u8], key: &str) -> Option<u16> {
    number(line.strip_suffix(b"\n")?.strip_prefix(key.as_bytes())?.strip_prefix(b"=")?)
}

/// The numbers of a text in form, eight to a rule; else the number of the first line out of form, or
/// of the line after the last where the text ends inside a group.
pub fn numbers(text: &[u8]) -> Result<Vec<u16>, usize> {
    let lines = text.split_inclusive(|c| *c == b'\n').zip(KEYS.iter().cycle());
    let read = lines.enumerate().map(|(at, (line, key))| value(line, key).ok_or(at + 1));
    let numbers: Vec<u16> = read.collect::<Result<_, _>>()?;
    if numbers.len() % 8 == 0 { Ok(numbers) } else { Err(numbers.len() + 1) }
}

/// The lines of a rule list, whatever its numbers are.
pub fn text(rules: &[u16]) -> Vec<u8> {
    let lines = KEYS.iter().cycle().zip(rules).map(|(key, number)| format!("{key}={number}\n"));
    lines.collect::<String>().into_bytes()
}

/// Puts all of a list at the front of a buffer. 9.
fn put<T: Copy>(all: &[T], out: &mut [T]) -> Answer<()> {
    out.get_mut(..all.len()).ok_or(9u16)?.copy_from_slice(all);
    Ok(())
}

/// Reads a rule file; the number of rules. 12 with a line, 2, 9.
pub fn read_rules(text: &[u8], out: &mut [u16]) -> Result<usize, Refusal> {
    let rules = numbers(text).map_err(Refusal::OutOfForm)?;
    check_rules(&rules)?;
    put(&rules, out)?;
    Ok(rules.len() / 8)
}

/// Writes a rule file; the number of bytes. 2, 9.
pub fn write_rules(rules: &[u16], out: &mut [u8]) -> Answer<usize> {
    check_rules(rules)?;
    let text = text(rules);
    put(&text, out)?;
    Ok(text.len())
}
