//! Rule files: texts in form and out of it, and what is written of lent rules.
use super::Maker;
use super::festivals::{GOOD_RULES, changed_rules, random_rules, some_length};
use crate::tables::{nepal_rules, stress_rules};
use parameterised::convert::own_table;
use parameterised::rulefile::{KEYS, text};

fn read(maker: &mut Maker, length: usize) {
    maker.line(format_args!("readrules {length}"));
}

fn write(maker: &mut Maker, length: usize) {
    maker.line(format_args!("writerules {length}"));
}

/// Lends a text and reads it.
fn read_text(maker: &mut Maker, text: &[u8], length: usize) {
    maker.text(text);
    read(maker, length);
}

/// The lines of a text, each with its line feed.
fn lines(text: &[u8]) -> Vec<Vec<u8>> {
    text.split_inclusive(|c| *c == b'\n').map(<[u8]>::to_vec).collect()
}

/// A good rule of each kind as a text.
fn good_text() -> Vec<u8> {
    text(&GOOD_RULES.concat())
}

/// What is lent before the first line: no text and no rules.
fn nothing(maker: &mut Maker) {
    for length in [0, 1, 8] {
        read(maker, length);
        write(maker, length);
    }
    maker.line("text");
    read(maker, 2);
}

/// A group lent byte by byte and three groups line by line, read after each piece.
fn pieces(maker: &mut Maker) {
    maker.line("text");
    for byte in text(&GOOD_RULES[3]) {
        maker.octets(&[byte]);
        read(maker, 8);
    }
    maker.line("text");
    for line in lines(&text(&GOOD_RULES[..3].concat())) {
        maker.octets(&line);
        read(maker, 24);
    }
}

/// What may stand in a number's place; a few are in form.
const VALUES: [&str; 34] = [
    "", "0", "00", "01", "007", "9", "65535", "65536", "65540", "66000", "99999", "655350", "4294967296",
    "18446744073709551616", "340282366920938463463374607431768211456", "-0", "-1", "+1", "x", "0x1", "1x",
    "1.0", "1,000", "1 000", "1_000", "1e3", "1#", "\"1\"", "1;", "१", "１", "1\u{a0}", "1\0", "\01",
];

/// What may stand in the place of the line `key=number`.
fn shapes(key: &str, next: &str, number: u16) -> Vec<String> {
    let line = format!("{key}={number}\n");
    let shorter = &key[..key.len() - 1];
    let mut shapes: Vec<String> = VALUES.iter().map(|value| format!("{key}={value}\n")).collect();
    shapes.extend([
        String::new(),
        "\n".into(),
        format!("\n{line}"),
        format!("{line}\n"),
        format!("{line}{line}"),
        format!("{key}={number}"),
        format!("{key}={number}\r\n"),
        format!("{key}={number}\r"),
        format!("{key}={number} \n"),
        format!("{key}={number}\t\n"),
        format!("{key}= {number}\n"),
        format!("{key} ={number}\n"),
        format!("{key}\t={number}\n"),
        format!(" {line}"),
        format!("\t{line}"),
        format!("\u{feff}{line}"),
        format!("#{line}"),
        format!("# {key}\n{line}"),
        format!("{key}={number} # {key}\n"),
        format!("{key}\n"),
        format!("={number}\n"),
        format!("{number}\n"),
        format!("{key}{number}\n"),
        format!("{key}:{number}\n"),
        format!("{key}=={number}\n"),
        format!("{key}={number}={number}\n"),
        format!("{next}={number}\n"),
        format!("{next}={number}\n{line}"),
        format!("{}={number}\n", key.to_uppercase()),
        format!("{key}s={number}\n"),
        format!("{shorter}={number}\n"),
        format!("{key}{key}={number}\n"),
    ]);
    shapes
}

/// Each shape in the place of each of a rule's lines, every fourth time behind a whole rule.
fn odd_lines(maker: &mut Maker) {
    let rule = GOOD_RULES[2];
    for (at, key) in KEYS.iter().enumerate() {
        for (turn, shape) in shapes(key, KEYS[(at + 1) % 8], rule[at]).into_iter().enumerate() {
            let mut group = lines(&text(&rule));
            group[at] = shape.into_bytes();
            let before = if turn % 4 == 3 { text(&GOOD_RULES[0]) } else { Vec::new() };
            read_text(maker, &[before, group.concat()].concat(), 16);
        }
    }
}

/// Every byte in the place of a digit and behind it.
fn odd_bytes(maker: &mut Maker) {
    for byte in 0..=255 {
        for before in [&b"kind="[..], b"kind=6"] {
            read_text(maker, &[before, &[byte], b"\n"].concat(), 0);
        }
    }
}

/// Lines in another order.
fn exchanged(maker: &mut Maker) {
    let group = lines(&text(&GOOD_RULES[2]));
    for first in 0..8 {
        for second in first + 1..8 {
            let mut group = group.clone();
            group.swap(first, second);
            read_text(maker, &group.concat(), 8);
        }
        let mut group = group.clone();
        group.rotate_left(first);
        read_text(maker, &group.concat(), 8);
    }
    let reversed: Vec<Vec<u8>> = group.into_iter().rev().collect();
    read_text(maker, &reversed.concat(), 8);
}

/// A whole file as other editors and hands leave it.
fn odd_files(maker: &mut Maker) {
    let good = String::from_utf8(good_text()).expect("a text in form");
    let wide = |bytes: fn(u16) -> [u8; 2]| good.encode_utf16().flat_map(bytes).collect::<Vec<u8>>();
    let files = [
        good.clone().into_bytes(),
        good.replace('\n', "\r\n").into_bytes(),
        good.replace('\n', "\r").into_bytes(),
        good.replace('\n', "\n\r").into_bytes(),
        good.replace('\n', " ").into_bytes(),
        good.replace('\n', "\n\n").into_bytes(),
        good.replace('\n', "\0").into_bytes(),
        good.replace("kind", "\nkind").into_bytes(),
        good.replace("\nkind", "\n\nkind").into_bytes(),
        good.replace('=', " = ").into_bytes(),
        good.replace('=', ":").into_bytes(),
        good.to_uppercase().into_bytes(),
        good.trim_end().into(),
        format!("{good}\n").into_bytes(),
        format!("{good} ").into_bytes(),
        format!("{good}\t\n").into_bytes(),
        format!("{good}\0").into_bytes(),
        format!("{good}\u{1a}").into_bytes(),
        format!("\u{feff}{good}").into_bytes(),
        format!("{good}\u{feff}").into_bytes(),
        format!("# rules\n{good}").into_bytes(),
        format!("{good}# rules\n").into_bytes(),
        format!("{good}kind").into_bytes(),
        format!("{good}kind=1").into_bytes(),
        format!("{good}kind=1\n").into_bytes(),
        wide(u16::to_le_bytes),
        wide(u16::to_be_bytes),
        b"1 0 1 1 0 0 1 1\n".to_vec(),
        b"\n".to_vec(),
        b"\r\n".to_vec(),
        b" ".to_vec(),
        b"\0".to_vec(),
        b"\xef\xbb\xbf".to_vec(),
        b"=".to_vec(),
        b"kind=\n".to_vec(),
    ];
    for file in files {
        read_text(maker, &file, 32);
    }
}

/// Refusals that meet: 12 before 2 before 9.
fn orders(maker: &mut Maker) {
    let good = &good_text()[..];
    let bad = &text(&[9, 0, 1, 1, 0, 0, 1, 1])[..];
    let many = &text(&GOOD_RULES[0].repeat(65))[..];
    let (odd, cut) = (&b"year=0\n"[..], &b"kind=1\nyear=0\n"[..]);
    let files = [
        vec![good, odd],
        vec![good, cut],
        vec![bad, odd],
        vec![bad, cut],
        vec![odd, bad],
        vec![bad, good, odd, bad],
        vec![many, cut],
        vec![good, bad],
        vec![bad, good],
        vec![many],
        vec![good],
    ];
    for file in files {
        maker.text(&file.concat());
        for length in [0, 31, 40] {
            read(maker, length);
        }
    }
    for rules in [vec![9; 8], GOOD_RULES.concat()[..31].to_vec(), GOOD_RULES.concat()] {
        let most = text(&rules).len();
        maker.rules(&rules);
        for length in [0, 1, most - 1, most, most + 1] {
            write(maker, length);
        }
    }
    for count in [1, 7, 9, 15] {
        maker.rules(&GOOD_RULES.concat()[..count]);
        write(maker, 140);
    }
}

/// Each number of each kind at its bounds and past them, read and written.
fn bounds(maker: &mut Maker) {
    for (_, rule) in changed_rules() {
        let text = text(&rule);
        read_text(maker, &text, 8);
        maker.rules(&rule);
        write(maker, text.len());
    }
}

/// As many rules of a kind as are accepted, and one more.
fn counts(maker: &mut Maker) {
    for (rule, most) in GOOD_RULES.iter().zip([64, 64, 64, 128]) {
        let rules = rule.repeat(most);
        maker.text(&text(&rules));
        for length in [8 * most, 8 * most - 1] {
            read(maker, length);
        }
        maker.octets(&text(rule));
        read(maker, 8 * most + 8);
        maker.rules(&rules);
        write(maker, text(&rules).len());
        maker.rules(&rule.repeat(most + 1));
        write(maker, 9);
    }
}

/// Writes rules, lends what is written, and reads it back into buffers of several lengths.
fn round_trip(maker: &mut Maker, rules: &[u16], spare: &[usize]) {
    let text = text(rules);
    maker.rules(rules);
    maker.text(&text);
    for more in spare {
        write(maker, text.len() + more);
        read(maker, rules.len() + more);
    }
    if !rules.is_empty() {
        write(maker, text.len() - 1);
        read(maker, rules.len() - 1);
    }
}

/// Lists of no rule to eleven, and the two lists of oracle/rules; the second has no room for one more.
fn round_trips(maker: &mut Maker) {
    for count in 0..12 {
        let rules = random_rules(maker, &own_table(), count);
        round_trip(maker, &rules, &[0, 1, 9]);
    }
    round_trip(maker, &nepal_rules(), &[0]);
    let stress = stress_rules();
    read_text(maker, &text(&stress), stress.len());
    maker.octets(&text(&GOOD_RULES[1]));
    read(maker, 3);
    maker.rules(&stress);
    write(maker, text(&stress).len());
}

/// A question changes nothing that is lent: the rules are not those that were read, the text is not what was written.
fn kept(maker: &mut Maker) {
    let [first, second, ..] = GOOD_RULES;
    maker.rules(&first);
    maker.text(&text(&second));
    for _ in 0..2 {
        read(maker, 8);
        write(maker, text(&first).len());
        maker.line("checkrules");
    }
    maker.line("rules");
    read(maker, 8);
    maker.rules(&first);
    maker.line("text");
    write(maker, text(&first).len());
    read(maker, 8);
}

fn some_byte(maker: &mut Maker) -> u8 {
    match maker.random.below(4) {
        0 => maker.random.below(256) as u8,
        1 => maker.random.whole(b'0' as i64, b'9' as i64) as u8,
        2 => maker.random.one_of(b"=\n\r\t #-"),
        _ => maker.random.whole(b'a' as i64, b'z' as i64) as u8,
    }
}

/// A text with a byte changed, left out or put in.
fn with_odd_byte(maker: &mut Maker, text: &[u8]) -> Vec<u8> {
    let at = maker.random.below(text.len() + 1);
    let after = (at + 1).min(text.len());
    let byte = some_byte(maker);
    match maker.random.below(3) {
        0 => [&text[..at], &[byte], &text[after..]].concat(),
        1 => [&text[..at], &text[after..]].concat(),
        _ => [&text[..at], &[byte], &text[at..]].concat(),
    }
}

/// A text with a line left out, doubled or exchanged with the next.
fn with_odd_line(maker: &mut Maker, text: &[u8]) -> Vec<u8> {
    let mut lines = lines(text);
    if lines.len() > 1 {
        let at = maker.random.below(lines.len() - 1);
        match maker.random.below(3) {
            0 => lines[at].clear(),
            1 => lines.insert(at, lines[at].clone()),
            _ => lines.swap(at, at + 1),
        }
    }
    lines.concat()
}

/// A text with one damage.
fn damaged(maker: &mut Maker, text: &[u8]) -> Vec<u8> {
    match maker.random.below(3) {
        0 => with_odd_line(maker, text),
        _ => with_odd_byte(maker, text),
    }
}

/// Few random rules, one number of which is now and then any.
fn some_rules(maker: &mut Maker) -> Vec<u16> {
    let count = maker.random.below(6);
    let mut rules = random_rules(maker, &own_table(), count);
    if count > 0 && maker.random.below(4) == 0 {
        let at = maker.random.below(rules.len());
        rules[at] = match maker.random.below(2) {
            0 => maker.random.one_of(&[0, 1, 2, 3, 4, 5, 6, 12, 13, 15, 16, 31, 32, 33, 65535]),
            _ => maker.random.below(65536) as u16,
        };
    }
    rules
}

/// Reads the lent text into a buffer that mostly has room for so many numbers.
fn read_some(maker: &mut Maker, numbers: usize) {
    let length = some_length(maker, numbers);
    read(maker, length);
}

/// Random rules written and read back, then what was written with damages.
fn random_texts(maker: &mut Maker, rounds: usize, damages: usize) {
    for _ in 0..rounds {
        let rules = some_rules(maker);
        let text = text(&rules);
        maker.rules(&rules);
        let length = some_length(maker, text.len());
        write(maker, length);
        maker.text(&text);
        read_some(maker, rules.len());
        for _ in 0..damages {
            let damaged = damaged(maker, &text);
            maker.text(&damaged);
            read_some(maker, rules.len());
        }
    }
}

fn out_of_form(maker: &mut Maker) {
    let rule = GOOD_RULES[1];
    let length = text(&rule).len();
    maker.rules(&rule);
    maker.text(&text(&rule));
    for good in ["text", "octets 6b", "readrules 8", "writerules 60"] {
        maker.out_of_form(good);
    }
    for line in [
        "octets",
        "octets ",
        "octets 6",
        "octets 6b6",
        "octets 6B",
        "octets 6g",
        "octets 0x6b",
        "octets 6b 69",
        "octets -6b",
        "octets kind",
        "readrules",
        "readrules -1",
        "readrules 08",
        "readrules 65536",
        "readrules 0x0000000000000008",
        "writerules",
        "writerules 60 8",
        "writerules 65536",
    ] {
        maker.line(line);
    }
    for digits in [127, 128, 129, 130, 256] {
        maker.line(format_args!("octets {}", "g".repeat(digits)));
    }
    for digits in [127, 129, 130, 256] {
        maker.line(format_args!("octets {}", "6".repeat(digits)));
    }
    // Nothing of it was lent.
    read(maker, 8);
    write(maker, length);
    maker.line(format_args!("octets {}", "6".repeat(128)));
    read(maker, 8);
    maker.line("text");
}

pub fn sample(maker: &mut Maker) {
    nothing(maker);
    pieces(maker);
    odd_lines(maker);
    odd_bytes(maker);
    exchanged(maker);
    odd_files(maker);
    orders(maker);
    bounds(maker);
    counts(maker);
    round_trips(maker);
    kept(maker);
    random_texts(maker, 12, 8);
    out_of_form(maker);
}

/// Texts of 500,000 bytes, and buffers as long as a line can ask for.
fn longest(maker: &mut Maker) {
    const LONGEST: usize = 500_000;
    let group = text(&GOOD_RULES[3]);
    let groups = group.repeat(LONGEST / group.len());
    let stress = stress_rules();
    for text in [
        group.repeat(LONGEST / group.len() + 1)[..LONGEST].to_vec(),
        [&groups[..groups.len() - 1], b"\r\n"].concat(),
        groups,
        [text(&stress), vec![b'\n'; LONGEST]].concat()[..LONGEST].to_vec(),
        [b"kind=".to_vec(), vec![b'1'; LONGEST]].concat()[..LONGEST].to_vec(),
        vec![0; LONGEST],
    ] {
        read_text(maker, &text, 8);
    }
    maker.rules(&stress);
    maker.text(&text(&stress));
    for length in [65535, stress.len()] {
        read(maker, length);
    }
    for length in [65535, text(&stress).len()] {
        write(maker, length);
    }
}

/// The sample's texts, 10,000 random lists with five damages each, and the longest texts. The port
/// begins with the rules of a file, the oracle with none: they are taken back first.
pub fn full(maker: &mut Maker) {
    maker.line("rules");
    sample(maker);
    random_texts(maker, 10_000, 5);
    longest(maker);
}
