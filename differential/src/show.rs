//! What the library makes of one script, for people.

use std::fmt::Write as _;

use crate::host::{Answer, DecodeCall, Host, LexAnswer, LexCall, Request};
use expected::records::{rule, sort, Error, Token, ERROR_WORDS, LONGEST, TOKEN_WORDS};

/// The outcome, the tokens and the errors.
pub fn show(host: &mut Host, source: &[u8]) -> Result<String, String> {
    // More than one byte too many makes no difference to the answer.
    let source = &source[..source.len().min(LONGEST + 1)];
    let answer = lex(host, source)?;
    let tokens: &[Token] = answer.token_table.as_chunks().0;
    let errors: &[Error] = answer.error_table.as_chunks().0;
    let tokens = &tokens[..answer.tokens as usize];
    let errors = &errors[..answer.errors as usize];

    let mut texts = texts(host, source, tokens)?.into_iter();
    let (outcome, t, e) = (answer.outcome, tokens.len(), errors.len());
    let mut out = format!("outcome {outcome}, {t} tokens, {e} errors\n");
    for [kind, start, length, line, sort, low, high, begins] in tokens {
        let lexeme = String::from_utf8_lossy(&source[*start as usize..][..*length as usize]);
        let value = match *sort {
            sort::TEXT => format!(", text {:?}", texts.next().unwrap_or_default()),
            sort::NUMBER => {
                let bits = u64::from(*high) << 32 | u64::from(*low);
                format!(", number {}", f64::from_bits(bits))
            }
            sort::LONG => ", long number".to_string(),
            _ => String::new(),
        };
        let lines = match begins == line {
            true => format!("line {line}"),
            false => format!("lines {begins} to {line}"),
        };
        let _ = writeln!(out, "token {kind} {lexeme:?}, {lines}{value}");
    }
    for [message, line, pos] in errors {
        let text = oracle::MESSAGES[*message as usize - 1];
        let _ = writeln!(out, "error {message}, line {line}, pos {pos}: {text}");
    }
    Ok(out)
}

/// Lexes with room enough: no token and no error has less than a byte, save for the closing
/// Newline and EOF.
fn lex(host: &mut Host, source: &[u8]) -> Result<LexAnswer, String> {
    let call = LexCall {
        rule: rule::ONE,
        token_words: TOKEN_WORDS * (source.len() + 2),
        error_words: ERROR_WORDS * source.len(),
        fill: 0,
    };
    let mut found = None;
    host.ask(&[set(source), Request::Lex(call)], |_, answer| {
        found = Some(answer)
    })?;
    match found {
        Some(Answer::Lex(answer)) => Ok(answer),
        _ => Err("no answer to a lexing".to_string()),
    }
}

/// The decoded strings, in the order of their tokens.
fn texts(host: &mut Host, source: &[u8], tokens: &[Token]) -> Result<Vec<String>, String> {
    let mut requests = vec![set(source)];
    for [_, start, _, _, sort, low, ..] in tokens {
        if *sort == sort::TEXT {
            requests.push(Request::Decode(DecodeCall {
                start: u64::from(*start),
                room: *low as usize,
                fill: 0,
            }));
        }
    }
    let mut texts = vec![];
    host.ask(&requests, |_, answer| {
        if let Answer::Decode(answer) = answer {
            texts.push(String::from_utf8_lossy(&answer.buffer).into_owned());
        }
    })?;
    Ok(texts)
}

fn set(bytes: &[u8]) -> Request<'_> {
    Request::Source { bytes, behind: 0 }
}
