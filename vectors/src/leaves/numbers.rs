//! `v m k`: the value words of the digits m with k of them after the point.
//! `n HEX start`: the number whose first digit stands at start, and its value words.
//!
//! The judge of values is Rust's own `parse`, on the decimal text; that of sizes a direct reading
//! of rule 4, which is compared with the original.

use crate::leaves::FAR;
use crate::sheet::{hex, Sheet};
use expected::dice::Dice;
use expected::records::sort;
use oracle::token::Literal;
use oracle::Stop;

/// The largest m and k whose value is given.
const MOST_DIGITS: u64 = 1 << 53;
const MOST_PLACES: usize = 22;

/// The value words, sort, low and high, of a number with digits m and k places, of which the text
/// is known.
fn words(m: u64, k: usize, text: &str) -> String {
    if m > MOST_DIGITS || k > MOST_PLACES {
        return format!("{} 0 0", sort::LONG);
    }
    let bits = text.parse::<f64>().expect("a decimal").to_bits();
    format!("{} {} {}", sort::NUMBER, bits & 0xffff_ffff, bits >> 32)
}

/// The digits m with the point before the last k of them.
fn decimal(m: u64, k: usize) -> String {
    let digits = format!("{m:0width$}", width = k + 1);
    let (whole, fraction) = digits.split_at(digits.len() - k);
    format!("{whole}.{fraction}")
}

fn add_value(sheet: &mut Sheet, m: u64, k: usize) {
    let text = if k <= MOST_PLACES {
        decimal(m, k)
    } else {
        String::new()
    };
    sheet.add('v', &[&m, &k], &[&words(m, k, &text)]);
}

/// A number by rule 4: digits, then if a point follows, the point and further digits.
pub(crate) struct Numeral {
    size: usize,
    /// A point was read, and the number runs to the last byte.
    pub(crate) cut: bool,
    /// All its digits as one whole number, and 2^53 + 1 for a larger one.
    whole: u64,
    places: usize,
}

impl Numeral {
    /// Whether its value is not given.
    pub(crate) fn is_long(&self) -> bool {
        self.whole > MOST_DIGITS || self.places > MOST_PLACES
    }
}

/// How many digits stand at the front.
fn digits(bytes: &[u8]) -> usize {
    bytes.iter().take_while(|b| b.is_ascii_digit()).count()
}

pub(crate) fn numeral(bytes: &[u8]) -> Numeral {
    let whole = digits(bytes);
    let (size, places) = match bytes[whole..].split_first() {
        Some((b'.', rest)) => (whole + 1 + digits(rest), digits(rest)),
        _ => (whole, 0),
    };
    let all: String = bytes[..size]
        .iter()
        .filter(|b| **b != b'.')
        .map(|b| char::from(*b))
        .collect();
    let all = all.trim_start_matches('0');
    let capped = match all.len() {
        0 => 0,
        1..=18 => all.parse().expect("18 digits fit a u64"),
        _ => u64::MAX,
    };
    Numeral {
        size,
        cut: size > whole && size == bytes.len(),
        whole: capped.min(MOST_DIGITS + 1),
        places,
    }
}

/// Compares a number at the front with the original's reading of the bytes.
fn compare(bytes: &[u8], number: &Numeral) {
    let Ok(script) = std::str::from_utf8(bytes) else {
        return;
    };
    let reading = oracle::read(script);
    if number.cut {
        assert_eq!(reading.stop, Stop::Lexing, "the original stops in {script}");
        return;
    }
    if number.size > 0 && reading.stop != Stop::Lexing {
        let text = &script[..number.size];
        let value = text.parse().expect("a decimal");
        assert_eq!(reading.tokens[0].lexeme, text);
        assert_eq!(reading.tokens[0].literal, Some(Literal::Number(value)));
    }
}

fn add_number(sheet: &mut Sheet, bytes: &[u8], start: usize) {
    let rest = bytes.get(start..).unwrap_or(&[]);
    let number = numeral(rest);
    compare(rest, &number);
    let text = match std::str::from_utf8(&rest[..number.size]) {
        Ok("") => "0",
        Ok(text) => text,
        Err(_) => unreachable!("digits and a point are ASCII"),
    };
    let Numeral {
        size,
        cut,
        whole,
        places,
    } = number;
    let words = words(whole, places, text);
    sheet.add(
        'n',
        &[&hex(bytes), &start],
        &[&size, &(cut as u32), &whole, &places, &words],
    );
}

pub fn add(sheet: &mut Sheet) {
    add_values(sheet);
    add_texts(sheet);
    add_places(sheet);
    add_random_texts(sheet);
}

/// Digits and places on both sides of each bound, places far over theirs, and random ones.
fn add_values(sheet: &mut Sheet) {
    let edge = MOST_DIGITS;
    let near = [edge - 1, edge, edge + 1, edge + 2];
    for m in [&[0, 1, 5, 15][..], &near, &[10_u64.pow(19), u64::MAX]].concat() {
        for k in [0, 1, 21, 22, 23] {
            add_value(sheet, m, k);
        }
    }
    for k in [32, 64, 86, 256, 65_536, FAR[0], FAR[1], FAR[1] + 1, FAR[2]] {
        add_value(sheet, 3, k);
    }
    for k in 0..=MOST_PLACES {
        add_value(sheet, 1, k);
    }
    let mut dice = Dice::new(0x6e75_6d62);
    for _ in 0..150 {
        let size = dice.roll(53) + 1;
        let m = dice.roll(1 << size);
        let k = dice.roll(23) as usize;
        add_value(sheet, m, k);
    }
}

/// Number texts with whole numbers and fractions on both sides of each bound.
pub(crate) const TEXTS: &str = "
    0 7 9 00 007 10 0.1 1.5 0.3 123456.789 1. 0. 00.50 3.14159265358979
    9007199254740991 9007199254740992 9007199254740993 9007199254740994 09007199254740992
    900719925474099.2 900719925474099.3 0.9007199254740992 0.9007199254740993
    1000000000000000 10000000000000000 1.000000000000000 1.0000000000000000
    0.0000000000000000000001 0.0000000000000000000000 0.00000000000000000000000
    0000000000000000000000000000000000000000.5 4503599627370496.5 4503599627370497.5
    18446744073709551616 18446744073709551617.0 99999999999999999999
    340282366920938463463374607431768211456";

/// Each text at the end and before a newline, and a few before other bytes.
fn add_texts(sheet: &mut Sheet) {
    for text in TEXTS.split_whitespace() {
        add_number(sheet, text.as_bytes(), 0);
        add_number(sheet, format!("{text}\n").as_bytes(), 0);
    }
    for text in ["1", "1.5"] {
        for tail in [".", ".2", "a", "e5", " .5", "/", ":", "é"] {
            add_number(sheet, format!("{text}{tail}").as_bytes(), 0);
        }
    }
}

/// Numbers inside a longer text, from the middle of one, before other bytes, and past the end.
fn add_places(sheet: &mut Sheet) {
    for (text, start) in [
        ("a 12.5 b", 2),
        ("12345.678\n", 2),
        ("12345.678\n", 7),
        ("x=1", 2),
        ("1.5", 2),
    ] {
        add_number(sheet, text.as_bytes(), start);
    }
    for bytes in [
        &b"1\x80"[..],
        b"1.\xff",
        b"1.5\xc3\xa9",
        b"1.5.2",
        b"1..2",
        b"1.a",
        b"1.5\n",
    ] {
        add_number(sheet, bytes, 0);
    }
    add_number(sheet, &[b'0'; 64], 0);
    add_number(sheet, &[b'9'; 256], 0);
    for start in [3, 4, FAR[0], FAR[1], FAR[2]] {
        add_number(sheet, b"1.5", start);
    }
    add_number(sheet, b"", 0);
}

/// Random digits, most of them with a point, before the end or another byte.
fn add_random_texts(sheet: &mut Sheet) {
    const DIGITS: [&[u8]; 10] = [b"0", b"1", b"2", b"3", b"4", b"5", b"6", b"7", b"8", b"9"];
    let mut dice = Dice::new(0x7465_7874_6e75);
    for _ in 0..15 {
        let mut text = dice.string(&DIGITS, 11);
        text.extend(*dice.pick(&DIGITS));
        if dice.roll(4) > 0 {
            text.push(b'.');
            text.extend(dice.string(&DIGITS, 8));
        }
        text.extend(*dice.pick(&[&b"\n"[..], b" ", b"", b";"]));
        add_number(sheet, &text, 0);
    }
}
