//! What the library must answer, worked out from the original alone.
//!
//! The original keeps no places of its tokens. They are found by walking over the source: between
//! two tokens stand only blanks, comments and what its errors are about. So each record is known
//! in full before the library is asked.

use std::ops::RangeInclusive;

use oracle::state::InterpreterError;
use oracle::token::{Literal, TokenData};
use oracle::{message_number, Reading, Rule, Stop};

use crate::records::{self, message, outcome, sort};
pub use crate::records::{Error, Token, LONGEST};
use crate::rules;

/// What lexing comes to.
#[derive(Debug, Clone, PartialEq, Eq)]
pub struct Lexing {
    pub outcome: u32,
    pub tokens: Vec<Token>,
    pub errors: Vec<Error>,
}

/// What decoding comes to; a refusal has no bytes.
#[derive(Debug, Clone, PartialEq, Eq)]
pub struct Decoding {
    pub outcome: u32,
    pub bytes: Vec<u8>,
}

/// The text of a string token.
#[derive(Debug, Clone)]
pub struct Text {
    pub start: usize,
    pub bytes: Vec<u8>,
}

/// The answer to a rule's number and a source of any bytes if there is room enough, and the strings'
/// texts.
pub fn expect(rule: u32, source: &[u8]) -> (Lexing, Vec<Text>) {
    match readable(rule, source) {
        Ok((rule, script)) => Lexing::of(rule, script),
        Err(outcome) => (Lexing::refused(outcome), vec![]),
    }
}

/// What the original is given, or the outcome that refuses it: 13 is tested first, then 4, then 3.
pub fn readable(rule: u32, source: &[u8]) -> Result<(Rule, &str), u32> {
    let rule = rules::named(rule).ok_or(outcome::WRONG_RULE)?;
    if source.len() > LONGEST {
        Err(outcome::TOO_LONG)
    } else if !is_text(source) {
        Err(outcome::NO_TEXT)
    } else {
        Ok((rule, rust_string(source)))
    }
}

/// A row of the Unicode Standard's table of well-formed UTF-8 byte sequences (Table 3-7): what each
/// byte may be.
pub type Row = &'static [RangeInclusive<u8>];

/// The table, in the Standard's order.
pub const WELL_FORMED: [Row; 9] = [
    &[0x00..=0x7f],
    &[0xc2..=0xdf, 0x80..=0xbf],
    &[0xe0..=0xe0, 0xa0..=0xbf, 0x80..=0xbf],
    &[0xe1..=0xec, 0x80..=0xbf, 0x80..=0xbf],
    &[0xed..=0xed, 0x80..=0x9f, 0x80..=0xbf],
    &[0xee..=0xef, 0x80..=0xbf, 0x80..=0xbf],
    &[0xf0..=0xf0, 0x90..=0xbf, 0x80..=0xbf, 0x80..=0xbf],
    &[0xf1..=0xf3, 0x80..=0xbf, 0x80..=0xbf, 0x80..=0xbf],
    &[0xf4..=0xf4, 0x80..=0x8f, 0x80..=0xbf, 0x80..=0xbf],
];

/// The text test: the bytes are rows of the table, one after the other.
pub fn is_text(mut bytes: &[u8]) -> bool {
    while !bytes.is_empty() {
        let Some(row) = WELL_FORMED.iter().find(|row| begins_with(bytes, row)) else {
            return false;
        };
        bytes = &bytes[row.len()..];
    }
    true
}

fn begins_with(bytes: &[u8], row: Row) -> bool {
    bytes.len() >= row.len() && row.iter().zip(bytes).all(|(range, b)| range.contains(b))
}

/// What passes the text test, as the original takes it.
pub fn rust_string(source: &[u8]) -> &str {
    std::str::from_utf8(source).expect("what passes the text test is a Rust string")
}

impl Lexing {
    /// Outcomes 3, 4 and 13 keep nothing.
    fn refused(outcome: u32) -> Lexing {
        Lexing {
            outcome,
            tokens: vec![],
            errors: vec![],
        }
    }

    /// What the original does with a script by a rule, as records.
    pub fn of(rule: Rule, script: &str) -> (Lexing, Vec<Text>) {
        Lexing::of_reading(script, &oracle::lex_by(rule, script))
    }

    /// The same from the original's lexing of the script.
    pub fn of_reading(script: &str, reading: &Reading) -> (Lexing, Vec<Text>) {
        let errors: Vec<Error> = reading.errors.iter().map(error).collect();
        let mut walk = Walk::new(script.as_bytes(), &errors);
        let (mut tokens, mut texts) = (vec![], vec![]);
        for token in &reading.tokens {
            let start = walk.find(&token.lexeme);
            tokens.push(record(token, start));
            if let Some(Literal::String(text)) = &token.literal {
                let bytes = text.clone().into_bytes();
                texts.push(Text { start, bytes });
            }
        }
        let outcome = match reading.stop {
            Stop::Lexing => outcome::POINT_AT_END,
            _ => outcome::DONE,
        };
        let lexing = Lexing {
            outcome,
            tokens,
            errors,
        };
        (lexing, texts)
    }

    /// The same lexing within rooms for so many records: the first event that finds no room
    /// decides, 5 for a token, 6 for an error. Each event stands at a place of its own, save for
    /// the closing Newline and EOF, which come last.
    pub fn within(&self, token_room: usize, error_room: usize) -> Lexing {
        let (mut tokens, mut errors) = (0, 0);
        let outcome = loop {
            let token_next = match (self.tokens.get(tokens), self.errors.get(errors)) {
                (None, None) => break self.outcome,
                (Some(token), Some(error)) => {
                    token[records::token::START] < error[records::error::POS]
                }
                (Some(_), None) => true,
                (None, Some(_)) => false,
            };
            match token_next {
                true if tokens == token_room => break outcome::TOKEN_ROOM,
                true => tokens += 1,
                false if errors == error_room => break outcome::ERROR_ROOM,
                false => errors += 1,
            }
        };
        Lexing {
            outcome,
            tokens: self.tokens[..tokens].to_vec(),
            errors: self.errors[..errors].to_vec(),
        }
    }
}

/// A token of the original as a record, with where it starts: the one place that makes one.
fn record(token: &TokenData, start: usize) -> Token {
    let [sort, low, high] = value_words(&token.literal, &token.lexeme);
    let (kind, length) = (token.token as u32, token.lexeme.len() as u32);
    let (start, line) = (start as u32, token.line as u32);
    [kind, start, length, line, sort, low, high, begins(token)]
}

/// The line where a token begins, which the original doesn't keep: its counter was raised by the new
/// lines of the token since. (A string that closes has none after a backslash.)
fn begins(token: &TokenData) -> u32 {
    token.line as u32 - token.lexeme.matches('\n').count() as u32
}

/// An error of the original as a record.
pub fn error(e: &InterpreterError) -> Error {
    let message = message_number(&e.message).expect("a message of the original");
    [message, e.line as u32, e.pos as u32]
}

/// The value sort and the two value words.
fn value_words(literal: &Option<Literal>, lexeme: &str) -> [u32; 3] {
    match literal {
        None => [sort::NONE, 0, 0],
        Some(Literal::String(text)) => [sort::TEXT, text.len() as u32, 0],
        Some(Literal::Number(_)) if is_long(lexeme) => [sort::LONG, 0, 0],
        Some(Literal::Number(number)) => {
            let bits = number.to_bits();
            [sort::NUMBER, bits as u32, (bits >> 32) as u32]
        }
        Some(other) => panic!("the original's lexer gives no such literal: {other:?}"),
    }
}

/// Whether a number is long: m over 2^53 or k over 22, where m is all its digits as one whole
/// number and k is how many stand after the point.
fn is_long(lexeme: &str) -> bool {
    let (whole, fraction) = lexeme.split_once('.').unwrap_or((lexeme, ""));
    let digits = format!("{whole}{fraction}");
    let digits = digits.trim_start_matches('0');
    // 2^53 has 16 digits, so that a longer m is larger, and no other needs a large number.
    let large = digits.len() > 16 || digits.parse::<u64>().is_ok_and(|m| m > 1 << 53);
    large || fraction.len() > 22
}

/// A walk over a script from token to token.
struct Walk<'a> {
    source: &'a [u8],
    at: usize,
    /// The original's errors that haven't been passed.
    errors: &'a [Error],
}

impl<'a> Walk<'a> {
    fn new(source: &'a [u8], errors: &'a [Error]) -> Walk<'a> {
        Walk {
            source,
            at: 0,
            errors,
        }
    }

    /// The start of the next token, which must be the lexeme; it is passed. The added Newline and
    /// EOF are empty and must stand at the end.
    fn find(&mut self, lexeme: &str) -> usize {
        self.pass();
        let start = self.at;
        let here = &self.source[start..];
        let fits = if lexeme.is_empty() {
            here.is_empty() && self.errors.is_empty()
        } else {
            here.starts_with(lexeme.as_bytes())
        };
        let script = self.source.escape_ascii();
        assert!(
            fits,
            "the original's token {lexeme:?} isn't at {start} in \"{script}\""
        );
        self.at += lexeme.len();
        start
    }

    /// Passes blanks, comments and what the errors are about.
    fn pass(&mut self) {
        while let Some(&byte) = self.source.get(self.at) {
            match (self.errors, byte) {
                ([[number, _, pos], rest @ ..], _) if *pos as usize == self.at => {
                    self.errors = rest;
                    self.at += match *number {
                        message::UNCLOSED => self.broken(),
                        _ => 1,
                    };
                }
                (_, b' ' | b'\t' | b'\r') => self.at += 1,
                (_, b'#') => {
                    let rest = &self.source[self.at..];
                    let end = rest.iter().position(|&b| b == b'\n');
                    self.at += end.unwrap_or(rest.len());
                }
                _ => return,
            }
        }
    }

    /// The length of the broken string here: up to the byte after a wrong backslash, or the end.
    fn broken(&self) -> usize {
        let string = &self.source[self.at..];
        let mut length = 1;
        while length < string.len() {
            if string[length] != b'\\' {
                length += 1;
            } else if matches!(
                string.get(length + 1),
                Some(b'n' | b'r' | b't' | b'\\' | b'"')
            ) {
                length += 2;
            } else {
                return string.len().min(length + 2);
            }
        }
        length
    }
}

/// What decoding a string at a place comes to: 4 and 3 come first, then 9 unless a string stands
/// there, then 10 if the buffer is too short. The original reads the string as the first thing of
/// a script of its own.
pub fn expect_decoding(source: &[u8], start: u64, room: usize) -> Decoding {
    let refused = |outcome| Decoding {
        outcome,
        bytes: vec![],
    };
    if source.len() > LONGEST {
        return refused(outcome::TOO_LONG);
    }
    if !is_text(source) {
        return refused(outcome::NO_TEXT);
    }
    let script = rust_string(source);
    let from_start = usize::try_from(start).ok().and_then(|at| script.get(at..));
    let Some(from_start) = from_start.filter(|rest| rest.starts_with('"')) else {
        return refused(outcome::NO_STRING);
    };
    let reading = oracle::lex(from_start);
    if reading.errors.first().is_some_and(|error| error.pos == 0) {
        return refused(outcome::NO_STRING);
    }
    match reading.tokens.into_iter().next().and_then(|t| t.literal) {
        Some(Literal::String(text)) if text.len() > room => refused(outcome::BUFFER_ROOM),
        Some(Literal::String(text)) => Decoding {
            outcome: outcome::DONE,
            bytes: text.into_bytes(),
        },
        other => panic!("the original reads {other:?} in {from_start:?}"),
    }
}

#[cfg(test)]
mod tests {
    use super::*;

    /// The places are the test's own work: an example with each thing that can stand in between.
    #[test]
    fn places_of_tokens() {
        let script = "a #a\n \"\\q\"a\"@ 1.5.!";
        let (lexing, texts) = Lexing::of(Rule::One, script);
        assert_eq!(lexing.outcome, 0);
        let places: Vec<_> = lexing.tokens.iter().map(|t| (t[0], t[1], t[2])).collect();
        let expected = [
            (25, 0, 1),
            (1, 4, 1),
            (26, 9, 3),
            (27, 14, 3),
            (9, 17, 1),
            (1, 19, 0),
            (0, 19, 0),
        ];
        assert_eq!(places, expected);
        assert_eq!(lexing.errors, [[3, 2, 6], [2, 2, 12], [1, 2, 18]]);
        assert_eq!(texts[0].bytes, b"a");
    }

    #[test]
    fn long_numbers() {
        let cases = [
            ("9007199254740992", false),
            ("9007199254740993", true),
            ("900719925474099.2", false),
            ("0009007199254740.992", false),
            ("900719925474.0993", true),
            ("99999999999999999", true),
            ("0.0000000000000000000000", false),
            ("0.00000000000000000000000", true),
            ("00000000000000000000000000000000", false),
            ("1.", false),
        ];
        for (lexeme, long) in cases {
            assert_eq!(is_long(lexeme), long, "{lexeme}");
        }
    }

    #[test]
    fn the_first_event_decides() {
        let (full, _) = Lexing::of(Rule::One, "a@b");
        let outcome = |tokens, errors| {
            let l = full.within(tokens, errors);
            (l.outcome, l.tokens.len(), l.errors.len())
        };
        assert_eq!(outcome(0, 0), (5, 0, 0));
        assert_eq!(outcome(1, 0), (6, 1, 0));
        assert_eq!(outcome(1, 1), (5, 1, 1));
        assert_eq!(outcome(3, 1), (5, 3, 1));
        assert_eq!(outcome(4, 1), (0, 4, 1));
    }
}
