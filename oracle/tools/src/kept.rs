//! Holds the kept state of oracle P against what document 02 says of it, by calls that know no state;
//! and states that are kept wrongly, to see that their answers are noticed.
use crate::answers::{answer, state_line};
use crate::lines::{Grid, Lent, Operation, Query};
use parameterised::conversion::{Table, ad_to_bs};
use parameterised::festivals::{Resolved, check_rules, computed_for_year, of_kind};
use parameterised::kept::Kept;

/// The question without a state that an ask must be answered as, and the BS year and month it is on;
/// nothing for the other operations.
fn plain(table: &Table, operation: &Operation) -> Option<(Query, Option<(u16, u16)>)> {
    match *operation {
        Operation::AskBs(bs, length) => {
            Some((Query::ListBs(bs, length), Some((bs.year, bs.month))))
        }
        Operation::AskAd(ad, length) => {
            let bs = ad_to_bs(table, ad).ok();
            Some((Query::ListAd(ad, length), bs.map(|bs| (bs.year, bs.month))))
        }
        Operation::AskGrid(asked) => Some((Query::Grid(asked), Some((asked.year, asked.month)))),
        _ => None,
    }
}

/// The answer and its buffers without a state: over the table, the rules and the mode that are held.
fn without_state(state: &Kept, query: Query) -> String {
    let (table, rules, mode) = (state.table.clone(), state.rules.clone(), state.mode.number());
    answer(&mut Lent { table, rules, mode, ..Lent::default() }, query)
}

/// The table years that a day or a month draws computed rules from.
fn drawn(table: &Table, (year, month): (u16, u16)) -> Vec<u16> {
    let from = if month <= 2 { year - 1 } else { year };
    (from..=year).filter(|year| *year >= table.first_year).collect()
}

/// Whether an answer refuses.
fn refuses(line: &str) -> bool {
    line.split(' ').next() != Some("0")
}

/// The state that must follow, with its store left out, and the years that must be stored in it.
fn due(before: &Kept, rules: &[u16], operation: &Operation, line: &str) -> (Kept, Vec<u16>) {
    let (mut after, mut years) = (before.clone(), before.stored_years());
    if !refuses(line) {
        match operation {
            Operation::Take => {
                after.rules = rules.to_vec();
                years.clear();
            }
            Operation::Append(row) => after.table.rows.extend(row),
            Operation::Forget => years.clear(),
            Operation::Stored => {}
            ask => {
                let asked = plain(&before.table, ask).and_then(|(_, month)| month);
                years = drawn(&before.table, asked.expect("an answered day or month"));
            }
        }
    }
    (after, years)
}

/// The answer that document 02 asks for.
fn due_line(before: &Kept, rules: &[u16], operation: &Operation) -> String {
    let checked =
        |refusal: Result<(), u16>| refusal.map_or_else(|n| n.to_string(), |()| "0".into());
    match operation {
        Operation::Take => checked(check_rules(rules)),
        Operation::Append(row) => {
            let mut longer = before.table.clone();
            longer.rows.extend(row);
            checked(if row.len() == 13 { longer.check() } else { Err(1) })
        }
        Operation::Forget => "0".into(),
        Operation::Stored => {
            before.stored_years().iter().fold("0".into(), |line, year| format!("{line} {year}"))
        }
        ask => {
            let (query, _) = plain(&before.table, ask).expect("an ask");
            let line = without_state(before, query);
            // Without a row the table is refused with 1, before all else and with the same buffers.
            match line.strip_prefix('1') {
                Some(rest) if before.table.rows.is_empty() => format!("13{rest}"),
                _ => line,
            }
        }
    }
}

/// What is wrong with an operation's answer or with the state after it.
pub fn wrong(
    before: &Kept,
    rules: &[u16],
    operation: &Operation,
    line: &str,
    after: &Kept,
) -> Option<String> {
    let expected = due_line(before, rules, operation);
    if line != expected {
        return Some(format!("answered {line}, without a state {expected}"));
    }
    let (state, years) = due(before, rules, operation, line);
    if (&state.table, &state.rules, state.mode) != (&after.table, &after.rules, after.mode) {
        return Some("another table, other rules or another mode are held".into());
    }
    if after.stored_years() != years {
        return Some(format!("{:?} are stored, not {years:?}", after.stored_years()));
    }
    if refuses(line) && after != before {
        return Some("a refusal changed the state".into());
    }
    (after.stored != after.afresh()).then(|| "a stored year is not what it resolves to".into())
}

/// Ways to keep a state wrongly.
pub const FAULTS: [(&str, Fault); 14] = [
    ("an append does not work the stored years out anew", append_leaves),
    ("an append empties the store", append_empties),
    ("taking rules leaves the store", take_leaves),
    ("refused rules empty the store", refused_take_empties),
    ("a refused row empties the store", refused_row_empties),
    ("forgetting leaves the store", forget_leaves),
    ("a list that does not fit is stored", short_stores),
    ("the year before is not stored", before_not_stored),
    ("the year before is stored in month 3", month_three),
    ("the year before is stored that the table has not", before_the_first),
    ("years without computed rules are not stored", empty_not_stored),
    ("what was stored stays beside what is drawn", stays_beside),
    ("two stored years are exchanged", exchanged),
    ("the state follows the lent rules", follows_lent),
];

/// Alters the state after an operation: what was before it, the lent rules, the operation, its answer.
type Fault = fn(&Kept, &[u16], &Operation, &str, &mut Kept);

fn append_leaves(before: &Kept, _: &[u16], operation: &Operation, _: &str, after: &mut Kept) {
    if matches!(operation, Operation::Append(_)) {
        after.stored = before.stored.clone();
    }
}

fn append_empties(_: &Kept, _: &[u16], operation: &Operation, line: &str, after: &mut Kept) {
    if matches!(operation, Operation::Append(_)) && !refuses(line) {
        after.forget();
    }
}

fn take_leaves(before: &Kept, _: &[u16], operation: &Operation, _: &str, after: &mut Kept) {
    if *operation == Operation::Take {
        after.stored = before.stored.clone();
    }
}

fn refused_take_empties(_: &Kept, _: &[u16], operation: &Operation, line: &str, after: &mut Kept) {
    if *operation == Operation::Take && refuses(line) {
        after.forget();
    }
}

fn refused_row_empties(_: &Kept, _: &[u16], operation: &Operation, line: &str, after: &mut Kept) {
    if matches!(operation, Operation::Append(_)) && refuses(line) {
        after.forget();
    }
}

fn forget_leaves(before: &Kept, _: &[u16], operation: &Operation, _: &str, after: &mut Kept) {
    if *operation == Operation::Forget {
        after.stored = before.stored.clone();
    }
}

fn short_stores(_: &Kept, rules: &[u16], operation: &Operation, line: &str, after: &mut Kept) {
    let longer = match *operation {
        Operation::AskBs(bs, _) => Operation::AskBs(bs, 768),
        Operation::AskAd(ad, _) => Operation::AskAd(ad, 768),
        Operation::AskGrid(asked) => {
            Operation::AskGrid(Grid { cells: 504, festivals: 24576, ..asked })
        }
        _ => return,
    };
    if line.starts_with("9 ") {
        state_line(after, rules, longer);
    }
}

fn before_not_stored(_: &Kept, _: &[u16], _: &Operation, _: &str, after: &mut Kept) {
    if after.stored.len() == 2 {
        after.stored.remove(0);
    }
}

/// The month that was answered, of an ask.
fn answered(state: &Kept, operation: &Operation, line: &str) -> Option<(u16, u16)> {
    plain(&state.table, operation).and_then(|(_, month)| month).filter(|_| !refuses(line))
}

fn resolve_before(after: &mut Kept, year: u16) {
    let entries = computed_for_year(&after.table, &after.rules, after.mode, year);
    after.stored.insert(0, (year, entries));
}

fn month_three(_: &Kept, _: &[u16], operation: &Operation, line: &str, after: &mut Kept) {
    if let Some((year, 3)) = answered(after, operation, line) {
        if year > after.table.first_year {
            resolve_before(after, year - 1);
        }
    }
}

fn before_the_first(_: &Kept, _: &[u16], operation: &Operation, line: &str, after: &mut Kept) {
    if let Some((year, 1 | 2)) = answered(after, operation, line) {
        if year == after.table.first_year {
            after.stored.insert(0, (year - 1, Resolved::new()));
        }
    }
}

fn empty_not_stored(_: &Kept, _: &[u16], _: &Operation, _: &str, after: &mut Kept) {
    if of_kind(&after.rules, 3).next().is_none() {
        after.forget();
    }
}

fn stays_beside(before: &Kept, _: &[u16], operation: &Operation, line: &str, after: &mut Kept) {
    if answered(after, operation, line).is_some() && after.stored.len() == 1 {
        let year = after.stored[0].0;
        after.stored.extend(before.stored.iter().filter(|(known, _)| *known != year).cloned());
        after.stored.truncate(2);
        after.stored.sort_by_key(|(year, _)| *year);
    }
}

fn exchanged(before: &Kept, _: &[u16], _: &Operation, _: &str, after: &mut Kept) {
    if before.stored_years() != after.stored_years() && after.stored.len() == 2 {
        let (first, second) = (after.stored[0].0, after.stored[1].0);
        after.stored.swap(0, 1);
        (after.stored[0].0, after.stored[1].0) = (first, second);
    }
}

fn follows_lent(_: &Kept, rules: &[u16], _: &Operation, _: &str, after: &mut Kept) {
    if check_rules(rules).is_ok() {
        after.rules = rules.to_vec();
    }
}
