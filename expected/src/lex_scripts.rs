//! Scripts for lexings: from random pieces, and damaged ones.

use crate::mixed_dice::Dice;

pub const KEYWORDS: [&str; 22] = [
    "and", "class", "else", "false", "fn", "for", "if", "elif", "nil", "or", "return", "break",
    "continue", "super", "this", "true", "let", "while", "not", "in", "try", "catch",
];

pub const MARKS: [&str; 24] = [
    "[", "]", "{", "}", "(", ")", ",", ".", "-", "+", "/", "%", "*", "^", ":", ";", "=", "==",
    "!=", "<", "<=", ">", ">=", "\n",
];

/// What gives a message, alone or broken up: a lone `!`, bytes that begin nothing, letters of two,
/// three and four bytes.
pub const WRONG: [&str; 16] = [
    "!", "@", "$", "&", "|", "~", "?", "'", "`", "\\", "\x0c", "\0", "\x7f", "é", "€", "😀",
];

const BLANKS: [&str; 5] = [" ", "\t", "\r", "  ", "\r\n"];

/// What stands in a string: plain letters, escapes, wrong ones too, newlines, marks of the lexer.
const INNER: [&str; 24] = [
    "a",
    "b c",
    "0",
    "",
    "\\n",
    "\\r",
    "\\t",
    "\\\\",
    "\\\"",
    "\n",
    "\r",
    "\t",
    "#",
    "é",
    "ß",
    "€",
    "\u{2028}",
    "😀",
    "\u{10ffff}",
    "\0",
    "\x7f",
    "!",
    "if",
    "1.5",
];

const WRONG_ESCAPES: [&str; 7] = ["\\q", "\\", "\\\n", "\\é", "\\😀", "\\0", "\\ "];

/// A script of so many pieces.
pub fn script(dice: &mut Dice, pieces: usize) -> Vec<u8> {
    let mut script = String::new();
    for _ in 0..pieces {
        piece(dice, &mut script);
        if dice.one_in(3) {
            script += dice.pick(&BLANKS);
        }
    }
    script.into_bytes()
}

/// A script of a random size: mostly some pieces, at times hundreds.
pub fn any_script(dice: &mut Dice) -> Vec<u8> {
    let most = match dice.below(1000) {
        0..800 => 12,
        800..985 => 60,
        985..999 => 300,
        _ => 1500,
    };
    let pieces = dice.below(most + 1);
    script(dice, pieces)
}

fn piece(dice: &mut Dice, script: &mut String) {
    match dice.below(12) {
        0 | 1 => *script += dice.pick(&KEYWORDS),
        2 | 3 => name(dice, script),
        4 | 5 => number(dice, script),
        6 | 7 => string(dice, script),
        8 => comment(dice, script),
        9 => *script += dice.pick(&WRONG),
        _ => *script += dice.pick(&MARKS),
    }
}

/// A name that is near a keyword: longer, shorter, with another letter or in capitals, or with a digit
/// in it or after it, which rule one doesn't have in names.
pub fn name(dice: &mut Dice, script: &mut String) {
    let keyword = dice.pick(&KEYWORDS);
    let letter = char::from(b"abfnstz_AZ"[dice.below(10)]);
    let digit = char::from(b"0189"[dice.below(4)]);
    let cut = dice.below(keyword.len());
    match dice.below(8) {
        0 => script.extend([keyword, dice.pick(&KEYWORDS)]),
        1 => script.extend(keyword.chars().chain([letter])),
        2 => *script += &keyword[cut..],
        3 => *script += &keyword[..cut],
        4 => *script += &keyword.to_uppercase(),
        5 => script.extend(keyword.chars().chain([digit])),
        6 => {
            *script += &keyword[..cut];
            script.push(digit);
            *script += &keyword[cut..];
        }
        _ => {
            *script += &keyword[..cut];
            script.push(letter);
            *script += &keyword[cut + 1..];
        }
    }
}

/// A number of any shape: its digits, perhaps with zeros before, and perhaps a point, after which
/// stand as many digits as may matter. Sometimes the point comes last.
fn number(dice: &mut Dice, script: &mut String) {
    const EXACT: u64 = 1 << 53;
    let m = match dice.below(10) {
        0 => 0,
        1 => EXACT - 1,
        2 => EXACT,
        3 => EXACT + 1,
        4 => 10u64.pow(dice.below(20) as u32),
        5 => EXACT - 1 - dice.below(1000) as u64,
        6 => EXACT + 1 + dice.below(1000) as u64,
        _ => dice.word() >> dice.below(64),
    };
    let zeros = match dice.below(8) {
        0..5 => 0,
        5 | 6 => dice.below(4),
        _ => dice.below(30),
    };
    let mut digits = "0".repeat(zeros) + &m.to_string();
    if dice.one_in(3) {
        *script += &digits;
        return;
    }
    let places = match dice.below(6) {
        0 => 0,
        1 => 21 + dice.below(3),
        2 => dice.below(30),
        _ => dice.below(digits.len()),
    };
    if digits.len() <= places {
        digits = "0".repeat(places - digits.len() + 1) + &digits;
    }
    let (whole, fraction) = digits.split_at(digits.len() - places);
    script.extend([whole, ".", fraction]);
}

/// A string; one in eight isn't closed, one in eight has a wrong escape.
pub fn string(dice: &mut Dice, script: &mut String) {
    script.push('"');
    for _ in 0..dice.below(6) {
        *script += dice.pick(&INNER);
    }
    if dice.one_in(8) {
        *script += dice.pick(&WRONG_ESCAPES);
    }
    if !dice.one_in(8) {
        script.push('"');
    }
}

/// A comment; one in four runs on into what follows.
fn comment(dice: &mut Dice, script: &mut String) {
    script.push('#');
    for _ in 0..dice.below(4) {
        *script += dice.pick(&INNER);
    }
    if !dice.one_in(4) {
        script.push('\n');
    }
}

/// One to three damages to a script: a byte removed, doubled or exchanged, a quote or a backslash
/// put in, the end cut off. What comes out needn't be text.
pub fn damaged(dice: &mut Dice, mut script: Vec<u8>) -> Vec<u8> {
    for _ in 0..1 + dice.below(3) {
        if script.is_empty() {
            break;
        }
        let at = dice.below(script.len());
        match dice.below(8) {
            0 => drop(script.remove(at)),
            1 => script.insert(at, script[at]),
            2 => {
                let other = dice.below(script.len());
                script.swap(at, other);
            }
            3 => script[at] = dice.below(128) as u8,
            4 => script[at] = dice.below(256) as u8,
            5 => script.insert(at, b'"'),
            6 => script.insert(at, b'\\'),
            _ => script.truncate(at),
        }
    }
    script
}
