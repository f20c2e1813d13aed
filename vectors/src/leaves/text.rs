//! `x HEX`: the text test.
//!
//! The judge is Rust itself: what it takes as a `str` passes, and nothing else.

use crate::sheet::{hex, Sheet};
use expected::dice::Dice;
use expected::lexing::{Row, WELL_FORMED};

fn add_bytes(sheet: &mut Sheet, bytes: &[u8]) {
    let passes = std::str::from_utf8(bytes).is_ok();
    sheet.add('x', &[&hex(bytes)], &[&(passes as u32)]);
}

pub fn add(sheet: &mut Sheet) {
    for row in WELL_FORMED {
        add_row(sheet, row);
    }
    for first in [0x80, 0xbf, 0xc0, 0xc1, 0xf5, 0xff] {
        for count in 0..=4 {
            add_bytes(sheet, &[&[first][..], &vec![0x80; count]].concat());
        }
    }
    add_edges(sheet);
    add_texts(sheet);
}

/// The first and the last sequence of a row, with bytes after it, cut, and with each byte just
/// outside its range.
fn add_row(sheet: &mut Sheet, row: Row) {
    let first: Vec<u8> = row.iter().map(|range| *range.start()).collect();
    let last: Vec<u8> = row.iter().map(|range| *range.end()).collect();
    for right in [first, last] {
        add_bytes(sheet, &right);
        add_bytes(sheet, &[&right[..], b"a"].concat());
        add_bytes(sheet, &[&right[..], b"\x80"].concat());
        add_bytes(sheet, &[&right[..], &right[..]].concat());
        for (at, range) in row.iter().enumerate() {
            let beside = [range.start().checked_sub(1), range.end().checked_add(1)];
            for wrong in beside.into_iter().flatten() {
                let mut bytes = right.clone();
                bytes[at] = wrong;
                add_bytes(sheet, &bytes);
            }
        }
        for at in 1..right.len() {
            // Cut in the middle, by the end and by another sequence.
            add_bytes(sheet, &right[..at]);
            add_bytes(sheet, &[&right[..at], &right[..]].concat());
        }
    }
}

/// Surrogates, overlong forms and numbers that are too large, letters of each size in a row, and
/// long texts.
fn add_edges(sheet: &mut Sheet) {
    for bytes in [
        &b""[..],
        b"\xed\xa0\x80",
        b"\xed\xbf\xbf",
        b"\xe0\x80\x80",
        b"\xe0\x9f\xbf",
        b"\xf0\x80\x80\x80",
        b"\xf0\x8f\xbf\xbf",
        b"\xf4\x90\x80\x80",
        b"\xf4\xbf\xbf\xbf",
        b"\xc2\x80\xe2\x82\xac\xf0\x9f\x98\x80",
        b"a\xc3\xa9b\xe2\x82\xacc\xf0\x9f\x98\x80d",
        b"a\xc3\xa9\xa9",
        b"\xe2\x82\xac\xe2\x82",
        b"\xef\xbb\xbflet a = 1\n",
    ] {
        add_bytes(sheet, bytes);
    }
    let mut long = [b'a'; 64];
    add_bytes(sheet, &long);
    long[63] = 0x80;
    add_bytes(sheet, &long);
    long[62] = 0xc3;
    add_bytes(sheet, &long);
    add_bytes(sheet, &[b'a'; 256]);
}

/// Random texts, and the same with a stray byte.
fn add_texts(sheet: &mut Sheet) {
    const LETTERS: [&[u8]; 9] = [
        b"a",
        b"\n",
        b"\x7f",
        b"\xc2\x80",
        b"\xdf\xbf",
        b"\xe0\xa0\x80",
        b"\xed\x9f\xbf",
        b"\xf0\x90\x80\x80",
        b"\xf4\x8f\xbf\xbf",
    ];
    const STRAY: [&[u8]; 8] = [
        b"\x80", b"\xbf", b"\xc1", b"\xc2", b"\xe0", b"\xed", b"\xf4", b"\xf5",
    ];
    let mut dice = Dice::new(0x7465_7874);
    for _ in 0..10 {
        let mut text = dice.string(&LETTERS, 8);
        add_bytes(sheet, &text);
        text.extend(*dice.pick(&STRAY));
        text.extend(dice.string(&LETTERS, 2));
        add_bytes(sheet, &text);
    }
}
