//! `k HEX a e`: the kind of the name that the bytes from a up to e spell.
//!
//! The original is the judge: the part is read as a script, and its first token has the kind.

use crate::leaves::FAR;
use crate::sheet::{hex, Sheet};
use oracle::token::Token;

/// The 22 keywords, in the order of their kinds.
pub(crate) const KEYWORDS: [&str; 22] = [
    "and", "class", "else", "false", "fn", "for", "if", "elif", "nil", "or", "return", "break",
    "continue", "super", "this", "true", "let", "while", "not", "in", "try", "catch",
];

/// The bytes of s from a up to e, as far as s has them.
fn part(s: &[u8], a: usize, e: usize) -> &[u8] {
    let e = e.min(s.len());
    s.get(a..e).unwrap_or(&[])
}

/// The kind of a name. Bytes that are no name spell none of the 22 words.
fn kind(name: &[u8]) -> u32 {
    let is_name = name.iter().all(|b| b.is_ascii_alphabetic() || *b == b'_');
    if name.is_empty() || !is_name {
        return Token::Identifier as u32;
    }
    let script = std::str::from_utf8(name).expect("a name is ASCII");
    let first = &oracle::read(script).tokens[0];
    assert_eq!(first.lexeme, script, "a name is one token");
    first.token as u32
}

fn add_part(sheet: &mut Sheet, s: &[u8], a: usize, e: usize) {
    sheet.add('k', &[&hex(s), &a, &e], &[&kind(part(s, a, e))]);
}

fn add_all(sheet: &mut Sheet, s: &[u8]) {
    add_part(sheet, s, 0, s.len());
}

pub fn add(sheet: &mut Sheet) {
    for (index, word) in KEYWORDS.iter().enumerate() {
        let word = word.as_bytes();
        assert_eq!(kind(word), Token::And as u32 + index as u32);
        add_near(sheet, word);
        add_parts(sheet, word);
    }
    for other in [
        &b""[..],
        b"_",
        b"a",
        b"identifier",
        b"fn1",
        b"i f",
        b"or\n",
        b"\xffin",
        b"an\0",
    ] {
        add_all(sheet, other);
    }
    add_all(sheet, &[b'x'; 256]);
    add_places(sheet);
}

/// A keyword, and what differs from it a little.
fn add_near(sheet: &mut Sheet, word: &[u8]) {
    add_all(sheet, word);
    add_all(sheet, &word[..word.len() - 1]);
    add_all(sheet, &word[1..]);
    for letter in *b"s_" {
        add_all(sheet, &[word, &[letter]].concat());
    }
    for at in [0, word.len() - 1] {
        let mut changed = word.to_vec();
        changed[at] = if changed[at] == b'z' {
            b'a'
        } else {
            changed[at] + 1
        };
        add_all(sheet, &changed);
    }
    add_all(sheet, &word.to_ascii_uppercase());
}

/// A keyword with neighbours, and an end past its own.
fn add_parts(sheet: &mut Sheet, word: &[u8]) {
    let n = word.len();
    let long = [b"let", word, b" in"].concat();
    add_part(sheet, &long, 3, 3 + n);
    add_part(sheet, &long, 2, 3 + n);
    add_part(sheet, word, 0, n + 1);
}

/// Parts of the shortest and of the longest keyword with both ends in all places.
fn add_places(sheet: &mut Sheet) {
    for word in [&b"fn"[..], b"continue"] {
        let n = word.len();
        for e in [0, n, FAR[2]] {
            for a in [0, 1, n, n + 1, FAR[1], FAR[2]] {
                add_part(sheet, word, a, e);
            }
        }
        add_part(sheet, word, FAR[1], FAR[1] + n);
    }
}
