//! Where the two modes of the sun disagree over a year table and a rule list: the days whose tithi at
//! sunrise or whose list is another, each with both, and how many days show another minute.
//!
//!   modes TABLE RULES
use parameterised::conversion::{BsDate, Table};
use parameterised::gregorian::{Date, date};
use parameterised::kept::Kept;
use parameterised::mode::{MODES, Mode};
use std::process::ExitCode;
use tools::tables::{rules_of, table_of};

/// A day as a month's cell shows it, and its list.
struct Day {
    bs: BsDate,
    ad: Date,
    /// The tithi at sunrise, then the minutes of its end, of sunrise and of sunset.
    reading: [u16; 4],
    /// Names and holiday marks.
    list: Vec<[u16; 2]>,
}

/// The days of a month, from its cells and its festivals.
fn days_of((year, month): (u16, u16), cells: &[u16], festivals: &[u16]) -> Vec<Day> {
    let mut rest = festivals.chunks_exact(2).map(|entry| [entry[0], entry[1]]);
    let shown = cells.chunks_exact(12).filter(|cell| cell[0] > 0);
    let day = |cell: &[u16]| Day {
        bs: BsDate { year, month, day: cell[0] },
        ad: date(cell[1], cell[2], cell[3]),
        reading: [cell[7], cell[8], cell[9], cell[10]],
        list: rest.by_ref().take(cell[11] as usize).collect(),
    };
    shown.map(day).collect()
}

/// Every day of the table by a mode.
fn all_days(table: &Table, rules: &[u16], mode: Mode) -> Vec<Day> {
    let mut state =
        Kept::start(table.first_year, table.first_day, mode.number()).expect("a first day");
    state.take_rules(rules).expect("rules that are accepted");
    table.rows.chunks(13).for_each(|row| state.append_row(row).expect("a year row"));
    let (mut cells, mut festivals) = (vec![0; 504], vec![0; 24576]);
    let years = table.first_year..=table.last_year();
    let months = years.flat_map(|year| (1..=12).map(move |month| (year, month)));
    months
        .flat_map(|asked| {
            let buffers = [&mut cells[..], &mut festivals[..]];
            let month = state.ask_month(table.first_day, asked, buffers).expect("a month");
            days_of(asked, &cells[..12 * month.cells], &festivals[..2 * month.festivals])
        })
        .collect()
}

/// A list as names, with a star behind that of a holiday.
fn list_words(list: &[[u16; 2]]) -> String {
    let word = |[name, holiday]: &[u16; 2]| format!("{name}{}", ["", "*"][*holiday as usize]);
    let words: Vec<String> = list.iter().map(word).collect();
    if words.is_empty() { "none".into() } else { words.join(", ") }
}

fn row(day: &Day, what: &str, by_mode: [String; 2]) {
    let (Date { year, month, day: ad_day }, bs) = (day.ad, day.bs);
    let ad = format!("{year}-{month:02}-{ad_day:02}");
    println!("| {ad} | {}-{}-{} | {what} | {} |", bs.year, bs.month, bs.day, by_mode.join(" | "));
}

fn compare(table: &Table, rules: &[u16]) {
    let [plain, apparent] = MODES.map(|mode| all_days(table, rules, mode));
    let pairs = || plain.iter().zip(&apparent);
    println!("| date | BS | what | mode 0 | mode 1 |\n|---|---|---|---|---|");
    for (a, b) in pairs() {
        if a.reading[0] != b.reading[0] {
            row(a, "tithi", [a.reading[0].to_string(), b.reading[0].to_string()]);
        }
        if a.list != b.list {
            row(a, "list", [list_words(&a.list), list_words(&b.list)]);
        }
    }
    let lists = pairs().filter(|(a, b)| a.list != b.list).count();
    let [tithis, ends, rises, sets] =
        [0, 1, 2, 3].map(|i| pairs().filter(|(a, b)| a.reading[i] != b.reading[i]).count());
    println!(
        "\n{} days; another tithi at sunrise on {tithis}, another list on {lists}",
        plain.len()
    );
    println!(
        "another minute of the tithi's end on {ends}, of sunrise on {rises}, of sunset on {sets}"
    );
}

fn main() -> ExitCode {
    let words: Vec<String> = std::env::args().skip(1).collect();
    let [table, rules] = &words[..] else {
        eprintln!("modes: TABLE RULES");
        return ExitCode::from(2);
    };
    let table = std::fs::read_to_string(table).expect("the table can be read");
    let rules = std::fs::read(rules).expect("the rules can be read");
    compare(&table_of(&table), &rules_of(&rules));
    ExitCode::SUCCESS
}
