//! Token and error records as the original's own values.
//!
//! A record has the place of a token in its source, not its text. So these functions are given the
//! source that was read, and panic where a record can't be one of that source's.

use crate::border;
use crate::messages;
use crate::records::{self, message, outcome, sort};
use crate::state::InterpreterError;
use crate::token::{Literal, Token, TokenData};

/// The token of a record. Its text is the source's where it stands.
pub fn token(source: &[u8], record: &records::Token) -> TokenData {
    let &[kind, start, length, line, sort, low, high, ..] = record;
    let (start, length) = (start as usize, length as usize);
    let span = &source[start..start + length];
    let lexeme = text(span);
    let literal = match sort {
        sort::NONE => None,
        sort::TEXT => Some(Literal::String(decoded(span, low as usize))),
        sort::NUMBER => {
            let bits = u64::from(high) << 32 | u64::from(low);
            Some(Literal::Number(f64::from_bits(bits)))
        }
        // A long number is compared by its span: its value is what the original made of that.
        _ => Some(Literal::Number(lexeme.parse().expect("digits and a point"))),
    };
    TokenData {
        token: KINDS[kind as usize],
        lexeme,
        literal,
        line: line as i32,
    }
}

/// The text of a string, whose length is known. Only the string's own bytes are handed over, for
/// what is handed over goes through the text test each time.
fn decoded(string: &[u8], length: usize) -> String {
    let mut buffer = vec![0; length];
    let answer = border::decode(string, 0, &mut buffer);
    let whole = (outcome::DONE, length);
    assert_eq!((answer.outcome, answer.length), whole, "a string");
    text(&buffer)
}

/// A source that is read is a Rust string, and so are its tokens and what its strings stand for.
fn text(bytes: &[u8]) -> String {
    let text = std::str::from_utf8(bytes).expect("a part of a text");
    text.to_string()
}

/// The error of a record, as the original's state has it.
pub fn error(record: &records::Error) -> InterpreterError {
    let &[number, line, pos, ..] = record;
    InterpreterError {
        message: messages::message(number).expect("a message").to_string(),
        line: line as i32,
        pos: pos as usize,
    }
}

/// Whether an error record is the parser's.
pub fn is_parsers(record: &records::Error) -> bool {
    !message::LEXERS.contains(&record[records::error::MESSAGE])
}

/// The kinds by their numbers.
#[rustfmt::skip]
const KINDS: [Token; 50] = [
    Token::EOF, Token::Newline,
    Token::LeftParen, Token::RightParen, Token::LeftBrace, Token::RightBrace,
    Token::RightCurlyBrace, Token::LeftCurlyBrace, Token::Comma, Token::Dot, Token::Minus,
    Token::Plus, Token::Slash, Token::Mod, Token::Star, Token::Power, Token::Colon,
    Token::Semicolon,
    Token::BangEqual, Token::Equal, Token::EqualEqual, Token::Greater, Token::GreaterEqual,
    Token::Less, Token::LessEqual,
    Token::Identifier, Token::String, Token::Number,
    Token::And, Token::Class, Token::Else, Token::False, Token::Fn, Token::For, Token::If,
    Token::Elif, Token::Nil, Token::Or, Token::Return, Token::Break, Token::Continue,
    Token::Super, Token::This, Token::True, Token::Let, Token::While, Token::Not, Token::In,
    Token::Try, Token::Catch,
];

// A kind's number is its place in the enum.
const _: () = {
    let mut number = 0;
    while number < KINDS.len() {
        assert!(KINDS[number] as usize == number);
        number += 1;
    }
};
