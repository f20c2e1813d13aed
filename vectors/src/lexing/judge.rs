//! The judge of lexing: the original's tokens and errors in reading order, and what tables of a
//! given size keep of them.

use crate::leaves::numbers::numeral;
use crate::leaves::strings::string;
use crate::sheet::hex;
use expected::records::message::{LEXERS, UNCLOSED};
use expected::records::token::SHOWN;
use expected::records::{outcome, sort, ERROR_WORDS, LONGEST, TOKEN_WORDS};
use expected::rules::named;
use oracle::state::InterpreterError;
use oracle::token::{Literal, TokenData};
use oracle::{message_number, read_by, Rule, Stop};
use std::ops::Range;

/// What lexing does, one thing after the other; a record is the fields of the answer.
enum Event {
    /// With the words of its record that an outline has.
    Token(String, [u32; SHOWN.len()]),
    Error(String),
    /// A number with a point runs to the last byte.
    Cut,
}

/// The whole answer to a rule's number and a source, with tables of so many words.
pub fn answer(rule: u32, source: &[u8], token_words: usize, error_words: usize) -> String {
    let (token_room, error_room) = (token_words / TOKEN_WORDS, error_words / ERROR_WORDS);
    let kept = keep(rule, source, token_room, error_room);
    let counts = format!(
        "{} {} {}",
        kept.outcome,
        kept.tokens.len(),
        kept.errors.len()
    );
    [vec![counts], kept.tokens, kept.errors, vec!["u 0".into()]]
        .concat()
        .join(" ")
}

/// How many tokens and errors a script has, with room for all.
pub fn counts(rule: u32, source: &[u8]) -> (usize, usize) {
    let all = keep(rule, source, usize::MAX, usize::MAX);
    (all.tokens.len(), all.errors.len())
}

#[derive(Default)]
struct Kept {
    outcome: u32,
    tokens: Vec<String>,
    errors: Vec<String>,
}

/// `docs/RULES.md`, 'Outcomes': 13 is tested first, then 4, then 3; after that the first event in reading
/// order decides, and what came before is kept.
fn keep(rule: u32, source: &[u8], token_room: usize, error_room: usize) -> Kept {
    let mut kept = Kept::default();
    let Some(rule) = named(rule) else {
        kept.outcome = outcome::WRONG_RULE;
        return kept;
    };
    if source.len() > LONGEST {
        kept.outcome = outcome::TOO_LONG;
        return kept;
    }
    let Ok(script) = std::str::from_utf8(source) else {
        kept.outcome = outcome::NO_TEXT;
        return kept;
    };
    for event in events(rule, script) {
        match event {
            Event::Cut => kept.outcome = outcome::POINT_AT_END,
            Event::Token(..) if kept.tokens.len() == token_room => {
                kept.outcome = outcome::TOKEN_ROOM
            }
            Event::Error(_) if kept.errors.len() == error_room => {
                kept.outcome = outcome::ERROR_ROOM
            }
            Event::Token(record, _) => kept.tokens.push(record),
            Event::Error(record) => kept.errors.push(record),
        }
        if kept.outcome != outcome::DONE {
            break;
        }
    }
    kept
}

/// The original's tokens and errors, each put where the source has it. The original tells where an
/// error stands but not where a token does, so the source is walked: the next token is the first
/// that no blank, comment or error takes, and its bytes must be there.
fn events(rule: Rule, script: &str) -> Vec<Event> {
    let source = script.as_bytes();
    let reading = read_by(rule, script);
    let mut tokens = reading.tokens.iter();
    let mut errors = reading
        .errors
        .iter()
        .filter(|e| LEXERS.contains(&message(e)))
        .peekable();
    let mut events = vec![];
    // The next byte, and the original's line counter there: the line of the last token or error.
    let (mut at, mut counter) = (0, 1);
    while at < source.len() {
        if let Some(error) = errors.next_if(|e| e.pos == at) {
            let message = message(error);
            counter = error.line as u32;
            events.push(Event::Error(format!("e {message} {} {at}", error.line)));
            at += match message {
                UNCLOSED => 1 + string(source, at + 1).size,
                _ => 1,
            };
        } else if b" \t\r".contains(&source[at]) {
            at += 1;
        } else if source[at] == b'#' {
            at += source[at..].iter().take_while(|b| **b != b'\n').count();
        } else if let Some(token) = tokens.next() {
            let end = at + token.lexeme.len();
            assert!(at < end, "a token before the end has bytes");
            assert_eq!(token.lexeme, script[at..end]);
            events.push(event(token, source, at..end, counter));
            (at, counter) = (end, token.line as u32);
        } else {
            assert!(numeral(&source[at..]).cut, "only a number stops the lexing");
            assert_eq!(reading.stop, Stop::Lexing);
            events.push(Event::Cut);
            return events;
        }
    }
    assert_ne!(reading.stop, Stop::Lexing);
    assert!(errors.next().is_none(), "every error has its place");
    for token in tokens {
        assert_eq!(token.lexeme, "", "only empty tokens stand at the end");
        events.push(event(token, source, at..at, counter));
    }
    events
}

/// A token that stands for these bytes of the source, and the line counter when they were met.
fn event(token: &TokenData, source: &[u8], place: Range<usize>, begins: u32) -> Event {
    let (start, length) = (place.start as u32, place.len() as u32);
    let words = [token.token as u32, start, length, token.line as u32, begins];
    Event::Token(record(token, &source[place], begins), words)
}

/// The words of each token of a text that an outline has.
pub fn token_words(rule: Rule, script: &str) -> Vec<[u32; SHOWN.len()]> {
    let words = |event| match event {
        Event::Token(_, words) => Some(words),
        _ => None,
    };
    events(rule, script).into_iter().filter_map(words).collect()
}

/// The number of an error's message.
fn message(error: &InterpreterError) -> u32 {
    message_number(&error.message).expect("a message of the original")
}

/// The fields of a token that stands for these bytes.
fn record(token: &TokenData, bytes: &[u8], begins: u32) -> String {
    let value = match &token.literal {
        None => format!("{} 0", sort::NONE),
        Some(Literal::String(text)) => format!("{} {}", sort::TEXT, hex(text.as_bytes())),
        Some(Literal::Number(_)) if numeral(bytes).is_long() => format!("{} 0", sort::LONG),
        Some(Literal::Number(value)) => {
            let bits = value.to_bits();
            format!("{} {} {}", sort::NUMBER, bits & 0xffff_ffff, bits >> 32)
        }
        Some(other) => panic!("lexing gives no {other:?}"),
    };
    let (kind, line) = (token.token as u32, token.line);
    format!("t {kind} {} {line} {begins} {value}", hex(bytes))
}
