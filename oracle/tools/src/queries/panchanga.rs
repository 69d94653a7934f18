//! Sun, moon, tithi, searches, sun events, clock and readings.
use super::{BAD_DATES, Maker, NO_NUMBERS};
use crate::lines::bits_word;
use crate::random::neighbour;
use parameterised::gregorian::{Date, date};
use parameterised::mode::Mode;
use parameterised::panchanga::{self as panchanga, Ut};

/// Meeus 25.a and 47.a first: the sun at JDE 2448908.5, the moon at JDE 2448724.5.
fn examples(maker: &mut Maker) {
    maker.at("sun", 2448908.5);
    maker.at("moon", 2448724.5);
    maker.at("clock", 2451544.5);
    maker.at("minutes", 0.9998);
    for elongation in [0.0, neighbour(12.0, -1), 12.0, 348.0, 360.0] {
        maker.at("tithiof", elongation);
    }
}

/// The years where one polynomial of ΔT gives way to the next.
pub const JOINTS: [f64; 6] = [1920.0, 1941.0, 1961.0, 1986.0, 2005.0, 2050.0];

fn delta_t(maker: &mut Maker) {
    for joint in JOINTS {
        maker.around("deltat", joint, 2);
        // The instants whose year is the joint or stands beside it.
        maker.around("tt", 2451545.0 + (joint - 2000.0) * 365.25, 3);
    }
    maker.odd_floats("deltat");
    for year in [1858.9, 1860.0, 1900.0, 1950.0, 1975.0, 2000.0, 2149.99, 2150.0, 2160.0] {
        maker.at("deltat", year);
    }
    for year in [1.0, -1900.0, 1e5, 1e60, 1e80, 1e110, 1e155, 1e308, -1e60, -1e103, -1e308, 5e-324]
    {
        maker.at("deltat", year);
    }
    for _ in 0..100 {
        let year = maker.random.between(1850.0, 2170.0);
        maker.at("deltat", year);
    }
    for _ in 0..100 {
        let instant = maker.random_instant();
        maker.at("tt", instant);
    }
}

fn range_ends(maker: &mut Maker) {
    for tag in ["tt", "elong", "tithi", "clock", "end"] {
        maker.around(tag, 2400000.0, 2);
        maker.around(tag, 2510000.0, 2);
        maker.odd_floats(tag);
        maker.at(tag, 2451545.0);
        maker.at(tag, -2451545.0);
    }
    for tag in ["sun", "moon"] {
        maker.around(tag, 2399999.0, 2);
        maker.around(tag, 2510001.0, 2);
        maker.odd_floats(tag);
        maker.at(tag, 2451545.0);
        maker.at(tag, 2451545.0 + 36525.0);
    }
    maker.around("end", 2509997.5, 4);
}

fn random_instants(maker: &mut Maker) {
    for _ in 0..150 {
        let (tt, ut) = (maker.random.between(2399999.0, 2510001.0), maker.random_instant());
        maker.at("sun", tt);
        maker.at("moon", tt);
        maker.at("elong", ut);
        maker.at("tithi", ut);
        maker.at("clock", ut);
    }
    for _ in 0..120 {
        let ut = maker.random.between(2400000.0, 2509997.5);
        maker.at("end", ut);
    }
}

/// Some start of a tithi after a random instant, by a mode.
pub fn some_start(maker: &mut Maker, mode: Mode, tithi: u16) -> f64 {
    let from = maker.random.between(2400000.0, 2509960.0);
    let start = panchanga::first_start(mode, tithi, Ut(from), Ut(from + 31.0)).expect("a search");
    start.expect("a tithi in each lunation").0
}

/// Instants within three places of a tithi's start.
fn tithi_boundaries(maker: &mut Maker) {
    for tithi in 1..=30 {
        let start = some_start(maker, Mode::True, tithi);
        maker.around("tithi", start, 3);
        maker.around("elong", start, 1);
        maker.at("end", start);
        maker.at("end", neighbour(start, -1));
        maker.at("end", neighbour(start, 1));
    }
}

fn tithis_of(maker: &mut Maker) {
    for k in 0..=31 {
        maker.around("tithiof", k as f64 * 12.0, 1);
    }
    maker.odd_floats("tithiof");
    for x in [-1.0, -12.0, -360.0, 6.0, 359.999, 361.0, 720.0, 3072.0, 1e10, 1e308, 5e-324] {
        maker.at("tithiof", x);
    }
    for _ in 0..60 {
        let x = maker.random.between(-10.0, 370.0);
        maker.at("tithiof", x);
    }
}

pub fn search(maker: &mut Maker, tithi: u16, from: f64, to: f64, buffer: usize) {
    let (from, to) = (bits_word(from), bits_word(to));
    maker.line(format_args!("starts {tithi} {from} {to} {buffer}"));
}

/// How many starts a search finds.
fn found(tithi: u16, from: f64, to: f64) -> usize {
    panchanga::tithi_starts(Mode::True, tithi, Ut(from), Ut(to)).expect("a search").0.len()
}

pub fn searches(maker: &mut Maker) {
    for tithi in 1..=30 {
        let from = maker.random.between(2400000.0, 2509900.0);
        let to = from + maker.random.between(1.0, 95.0);
        let count = found(tithi, from, to);
        search(maker, tithi, from, to, count);
        search(maker, tithi, from, to, count + 2);
        if count > 0 {
            search(maker, tithi, from, to, count - 1);
        }
    }
    for tithi in [1, 15, 16, 30] {
        let from = maker.random.between(2400000.0, 2509600.0);
        search(maker, tithi, from, from + 365.25, 14);
        search(maker, tithi, from, from + 365.25, 11);
    }
    // Short windows of a whole or a broken number of steps.
    for days in [0.0, 1e-9, 0.1, 0.5, 0.75, 1.0, 1.5, 2.25, 2.4, 2.5, 29.5, 30.0] {
        let from = maker.random.between(2400000.0, 2509900.0);
        let tithi = maker.random.whole(1, 30) as u16;
        search(maker, tithi, from, from + days, 3);
    }
    // A start at either end of the window, and beside it.
    for tithi in [1, 2, 12, 29, 30] {
        let start = some_start(maker, Mode::True, tithi);
        for steps in -3..=3 {
            search(maker, tithi, start - 0.75, neighbour(start, steps), 1);
            search(maker, tithi, neighbour(start, steps), start + 1.5, 1);
        }
        search(maker, tithi, start, start, 1);
    }
    // The whole of the range's first and last month.
    search(maker, 7, 2400000.0, 2400031.0, 2);
    search(maker, 7, 2509969.0, 2510000.0, 2);
}

pub fn search_refusals(maker: &mut Maker) {
    let (from, to) = (2451545.0, 2451575.0);
    for tithi in [0, 31, 32, 255, 256, 257, 286, 65535] {
        search(maker, tithi, from, to, 2);
        search(maker, tithi, to, from, 0);
    }
    for bits in NO_NUMBERS {
        search(maker, 1, f64::from_bits(bits), to, 1);
        search(maker, 1, from, f64::from_bits(bits), 1);
    }
    for odd in
        [f64::INFINITY, f64::NEG_INFINITY, 0.0, neighbour(2400000.0, -1), neighbour(2510000.0, 1)]
    {
        search(maker, 1, odd, to, 1);
        search(maker, 1, from, odd, 1);
    }
    // From not below to: none, and no step; both are tested first.
    search(maker, 1, to, from, 0);
    search(maker, 1, from, from, 0);
    search(maker, 1, from, neighbour(from, -1), 2);
    search(maker, 1, from, 1.0, 2);
    search(maker, 31, from, 1.0, 2);
    // Exactly 1,024 steps, and one step more, which comes before a short buffer.
    for from in [2400000.0, 2455000.25, 2509232.0] {
        let to = from + 768.0;
        let count = found(30, from, to);
        search(maker, 30, from, to, count);
        search(maker, 30, from, to, count - 1);
        search(maker, 30, from, to, 0);
        search(maker, 30, from, neighbour(to, -1), count);
        search(maker, 30, from, neighbour(to, 1), 40);
        search(maker, 30, from, neighbour(to, 1), 0);
    }
    search(maker, 30, 2400000.0, 2400769.0, 0);
    search(maker, 1, 2400000.0, 2510000.0, 3);
    search(maker, 0, 2400000.0, 2510000.0, 3);
}

/// The questions on a date but reading.
pub fn of_date(maker: &mut Maker, date: Date) {
    for tag in ["events", "rise", "set", "nishita"] {
        maker.on(tag, date);
    }
    for kala in 0..=5 {
        maker.line(format_args!("kala {} {} {} {kala}", date.year, date.month, date.day));
    }
}

fn dates(maker: &mut Maker) {
    let mut dates = vec![
        date(1900, 1, 1),
        date(1900, 1, 2),
        date(2000, 6, 21),
        date(2000, 12, 21),
        date(2149, 12, 30),
        date(2149, 12, 31),
    ];
    for _ in 0..60 {
        dates.push(maker.random_date());
    }
    dates.extend(BAD_DATES);
    for date in dates {
        of_date(maker, date);
    }
}

fn minutes(maker: &mut Maker) {
    maker.odd_floats("minutes");
    maker.around("minutes", 0.49999999999999994 / 1440.0, 2);
    for minute in [0.5, 1.5, 2.5, 344.5, 719.5, 720.5, 1438.5, 1439.5] {
        maker.around("minutes", minute / 1440.0, 2);
    }
    for x in [1.0, neighbour(1.0, -1), 1.25, 2.0, 45.6, 100.0, -1e-20, -0.0003, -0.5, -1.0, -2.5] {
        maker.at("minutes", x);
    }
    for x in [3e6, 1e10, 1e300, -1e300, 5e-324] {
        maker.at("minutes", x);
    }
    for _ in 0..100 {
        let x = maker.random.unit();
        maker.at("minutes", x);
    }
    // Instants within three places of the half minute, where the clock turns.
    for _ in 0..40 {
        let day = maker.random.whole(2415021, 2506331) as f64;
        let minute = maker.random.whole(0, 1439) as f64 + 0.5;
        maker.around("clock", day - 0.5 - panchanga::NPT_OFFSET + minute / 1440.0, 3);
    }
}

fn readings(maker: &mut Maker) {
    // The tithi's end is shown as 0 on the first: it comes in the day's last half minute.
    for day in [date(2000, 1, 6), date(1900, 1, 1), date(2149, 12, 31), date(1943, 4, 14)] {
        maker.on("read", day);
    }
    for bad in BAD_DATES {
        maker.on("read", bad);
    }
    for _ in 0..1100 {
        let date = maker.random_date();
        maker.on("read", date);
    }
}

fn out_of_form(maker: &mut Maker) {
    maker.out_of_form("read 2000 1 1");
    maker.out_of_form("tithi 0x4142b42c80000000");
    maker.out_of_form("starts 1 0x4142b42c80000000 0x4142b44a80000000 2");
    for line in [
        "kala 2000 1 1",
        "kala 2000 1 1 6",
        "kala 2000 1 1 255",
        "kala 2000 1 1 256",
        "kala 2000 1 1 00",
        "kala 2000 1 1 -1",
        "kala 1900 2 29 6",
        "starts 1 0x4142b42c80000000 0x4142b44a80000000",
        "starts 1 0x4142b42c80000000 0x4142b44a80000000 -1",
        "starts 65536 0x4142b42c80000000 0x4142b44a80000000 1",
        "starts 1 2451545 2451575 1",
        "starts 1 0x4142b42c80000000 2",
        "moon 2451545.0",
        "sun",
        "deltat 2000",
        "minutes 0.5",
        "events 2000 1",
        "nishita 2000 1 1 1",
        "clock nan",
    ] {
        maker.line(line);
    }
}

pub fn sample(maker: &mut Maker) {
    examples(maker);
    delta_t(maker);
    range_ends(maker);
    random_instants(maker);
    tithi_boundaries(maker);
    tithis_of(maker);
    searches(maker);
    search_refusals(maker);
    dates(maker);
    minutes(maker);
    readings(maker);
    out_of_form(maker);
}
