//! Tokens that can be told apart in a tree.
//!
//! A tree has copies of tokens, without their places. So each token is marked with its place
//! before it is parsed: in its lexeme, which the parser only copies, and in its literal. True,
//! False and Nil, for which the parser makes literals of its own, are marked as texts, which it
//! treats alike, but for the number of tests by which it finds them.

use oracle::token::{Literal, Token, TokenData};

/// The token with its place as its mark.
fn marked(index: usize, t: &TokenData) -> TokenData {
    let mark = format!("#{index}");
    let text = || Some(Literal::String(mark.clone()));
    let (token, literal) = match t.token {
        Token::True | Token::False | Token::Nil => (Token::String, text()),
        Token::Number | Token::String => (t.token, text()),
        kind => (kind, None),
    };
    TokenData {
        token,
        lexeme: mark,
        literal,
        line: t.line,
    }
}

/// All tokens, marked.
pub fn all(tokens: &[TokenData]) -> Vec<TokenData> {
    let tokens = tokens.iter().enumerate();
    tokens.map(|(index, t)| marked(index, t)).collect()
}

/// Whether a token of a tree is one of the script, not one that the parser made up.
pub fn is_mark(t: &TokenData) -> bool {
    t.lexeme.starts_with('#')
}

/// The reference that a mark stands for.
pub fn read(mark: &str) -> u32 {
    let place = mark.strip_prefix('#').expect("a mark");
    place.parse::<u32>().expect("a place") + 1
}

/// The reference of a token.
pub fn reference(t: &TokenData) -> u32 {
    read(&t.lexeme)
}

/// The reference of a token that may be missing.
pub fn maybe(t: &Option<TokenData>) -> u32 {
    t.as_ref().map_or(0, reference)
}
