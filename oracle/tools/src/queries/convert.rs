//! The input of the program `convert`: lines of every form and of every malformed shape.
use super::conversion::outside;
use super::{BAD_DATES, Maker};
use parameterised::conversion::BsDate;
use parameterised::conversion::bs_to_ad;
use parameterised::convert::own_table;
use parameterised::gregorian::date;

/// Document 01's example, then its other dates.
const EXAMPLES: [&str; 13] = [
    "bs=100-12-30",
    "ad=1952-01-02",
    "bs=100-1-1",
    "bs=100-2-29",
    "bs=100-4-1",
    "bs=101-1-1",
    "bs=101-12-31",
    "bs=100-12-31",
    "bs=100-13-40",
    "bs=102-13-1",
    "ad=1949-12-31",
    "ad=1900-02-29",
    "ad=2150-01-01",
];

/// In form, and most of them refused.
const AT_THE_EDGE: [&str; 24] = [
    "bs=0-0-0",
    "bs=99-1-1",
    "bs=102-1-1",
    "bs=100-0-1",
    "bs=100-13-1",
    "bs=100-257-1",
    "bs=100-65535-1",
    "bs=100-1-0",
    "bs=100-1-31",
    "bs=100-1-32",
    "bs=100-1-257",
    "bs=100-1-65535",
    "bs=65535-65535-65535",
    "bs=10000-1-1",
    "ad=1950-01-01",
    "ad=1952-01-01",
    "ad=1952-01-02",
    "ad=0000-00-00",
    "ad=9999-99-99",
    "ad=1899-12-31",
    "ad=1900-01-01",
    "ad=2149-12-31",
    "ad=1950-02-29",
    "ad=1951-13-01",
];

/// Skipped.
const OUT_OF_FORM: [&[u8]; 91] = [
    b"",
    b" ",
    b"\r",
    b"\t",
    b"\0",
    b"b",
    b"bs",
    b"bs=",
    b"ad",
    b"ad=",
    b"=",
    b"bs=100-1-1\r",
    b"ad=1950-01-01\r",
    b" bs=100-1-1",
    b"bs=100-1-1 ",
    b"bs =100-1-1",
    b"bs= 100-1-1",
    b"bs=100 -1-1",
    b"bs=100- 1-1",
    b"bs=100-1 -1",
    b"bs=100-1- 1",
    b"\tbs=100-1-1",
    b"BS=100-1-1",
    b"Bs=100-1-1",
    b"bs:100-1-1",
    b"bs==100-1-1",
    b"bs=bs=100-1-1",
    b"xbs=100-1-1",
    b"bd=100-1-1",
    b"as=100-1-1",
    b"bs=00-1-1",
    b"bs=0100-1-1",
    b"bs=100-01-1",
    b"bs=100-1-01",
    b"bs=100-00-1",
    b"bs=100-1-00",
    b"bs=+100-1-1",
    b"bs=-100-1-1",
    b"bs=100-+1-1",
    b"bs=100--1-1",
    b"bs=100-1-+1",
    b"bs=100-1--1",
    b"bs=65536-1-1",
    b"bs=100-65536-1",
    b"bs=100-1-65536",
    b"bs=99999-1-1",
    b"bs=100000-1-1",
    b"bs=100-100000-1",
    b"bs=100-1-100000",
    b"bs=100-1-65537",
    b"bs=100-1-4294967297",
    b"bs=100-1-18446744073709551617",
    b"bs=100-1",
    b"bs=100-1-",
    b"bs=100--1",
    b"bs=-1-1",
    b"bs=--",
    b"bs=-",
    b"bs=100",
    b"bs=100-1-1-",
    b"bs=100-1-1-1",
    b"bs=100-1-1x",
    b"bs=100-1-1\0",
    b"bs=100-1\0-1",
    b"bs=100-1-1\x80",
    b"bs=\xd9\xa1\xd9\xa0\xd9\xa0-1-1",
    b"bs=\xe0\xa5\xa7-1-1",
    b"\xef\xbb\xbfbs=100-1-1",
    b"bs=100/1/1",
    b"bs=100.0-1-1",
    b"bs=1e2-1-1",
    b"bs=0x64-1-1",
    b"bs=a-b-c",
    b"ad=1950-1-1",
    b"ad=1950-01-1",
    b"ad=1950-1-01",
    b"ad=950-01-01",
    b"ad=01950-01-01",
    b"ad=1950-001-01",
    b"ad=1950-01-001",
    b"ad=1950-01-01 ",
    b"ad=1950-01-01x",
    b"ad=1950/01/01",
    b"ad=19500101",
    b"ad=1950-01_01",
    b"ad=+950-01-01",
    b"ad=1950--1-01",
    b"ad=1950-01-\xd9\xa1",
    b"ad=195o-01-01",
    b"ad=1950-01-01-01",
    b"ad= 1950-01-01",
];

/// Lines that are too long for any form, and a good one behind each.
fn long_lines(maker: &mut Maker) {
    let shapes: [(&[u8], u8, usize); 8] = [
        (b"bs=100-1-1", b'0', 10_000),
        (b"bs=100-1-1", b' ', 12_000),
        (b"ad=1950-01-01", b'1', 11_000),
        (b"", b'b', 65_536),
        (b"bs=", b'9', 4_096),
        (b"bs=", b'9', 4_093),
        (b"", 0, 10_000),
        (b"", 0xff, 10_001),
    ];
    for (start, fill, count) in shapes {
        maker.bytes(start);
        maker.bytes(&vec![fill; count]);
        maker.bytes(b"\nbs=100-12-30\n");
    }
    // The end of a long line looks like a line.
    maker.bytes(&[b'x'; 20_000]);
    maker.bytes(b"bs=100-12-30\n");
}

fn random_lines(maker: &mut Maker) {
    let table = own_table();
    for _ in 0..80 {
        let (year, month, day) = (
            maker.random.whole(100, 101) as u16,
            maker.random.whole(1, 12) as u16,
            maker.random.whole(1, 32) as u16,
        );
        maker.line(format_args!("bs={year}-{month}-{day}"));
        if let Ok(ad) = bs_to_ad(&table, BsDate { year, month, day }) {
            maker.line(format_args!("ad={:04}-{:02}-{:02}", ad.year, ad.month, ad.day));
        }
    }
    for _ in 0..60 {
        let (year, month, day) = (
            maker.random.whole(0, 9999) as u16,
            maker.random.whole(0, 99) as u16,
            maker.random.whole(0, 99) as u16,
        );
        maker.line(format_args!("ad={year:04}-{month:02}-{day:02}"));
        maker.line(format_args!("bs={year}-{month}-{day}"));
    }
    // A good line with one byte altered, dropped or put in; no line feed among them.
    for _ in 0..200 {
        let mut line = maker.random.one_of(&EXAMPLES).as_bytes().to_vec();
        let at = maker.random.below(line.len());
        let byte = match maker.random.whole(0, 255) as u8 {
            b'\n' => b'-',
            byte => byte,
        };
        match maker.random.below(4) {
            0 => line[at] = byte,
            1 => drop(line.remove(at)),
            2 => line.insert(at, byte),
            _ => line.insert(at, b'0' + byte % 10),
        }
        line.push(b'\n');
        maker.bytes(&line);
    }
}

pub fn sample(maker: &mut Maker) {
    for line in EXAMPLES.iter().chain(&AT_THE_EDGE) {
        maker.line(line);
    }
    for bad in BAD_DATES.iter().chain(&[date(1951, 2, 28)]) {
        if bad.year <= 9999 && bad.month <= 99 && bad.day <= 99 {
            maker.line(format_args!("ad={:04}-{:02}-{:02}", bad.year, bad.month, bad.day));
        }
    }
    for ad in outside(&own_table()) {
        maker.line(format_args!("ad={:04}-{:02}-{:02}", ad.year, ad.month, ad.day));
    }
    for line in OUT_OF_FORM {
        maker.bytes(line);
        maker.bytes(b"\n");
    }
    random_lines(maker);
    long_lines(maker);
    // The last line needs no line feed.
    maker.bytes(b"ad=1950-03-01");
}
