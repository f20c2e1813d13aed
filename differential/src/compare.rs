//! Calls of the library with what they must answer, and the comparison of the two.

use std::fmt::{self, Write as _};
use std::slice;

use crate::host::{Answer, DecodeAnswer, DecodeCall, Host, LexAnswer, LexCall, ReadCall, Request};
use crate::whole::{read_differs, Wanted};
use expected::lexing::{expect, Decoding, Error, Lexing, Token, LONGEST};
use expected::mixed_dice::Dice;
use expected::records::{outcome, rule, ERROR_WORDS, TOKEN_WORDS};
use expected::rules::WRONG;

/// A source and the calls to make with it.
#[derive(Debug, Clone)]
pub struct Trial {
    pub source: Vec<u8>,
    /// Stands after the source, where nothing may look.
    pub behind: u8,
    pub calls: Vec<Call>,
}

#[derive(Debug, Clone)]
pub enum Call {
    Lex(LexCall, Lexing),
    Decode(DecodeCall, Decoding),
    Read(ReadCall, Wanted),
}

/// A call whose answer isn't the expected one.
#[derive(Debug)]
pub struct Difference {
    pub source: Vec<u8>,
    /// The call, the first thing that differs and both sides in full.
    pub text: String,
}

impl fmt::Display for Difference {
    fn fmt(&self, f: &mut fmt::Formatter) -> fmt::Result {
        let (length, source) = (self.source.len(), self.source.escape_ascii());
        writeln!(f, "script, {length} bytes: \"{source}\"")?;
        write!(f, "{}", self.text)
    }
}

impl Trial {
    pub fn new(source: &[u8], dice: &mut Dice) -> Trial {
        // A mark that makes a pair, parts of a number, a name and a letter, and a string's end.
        const BEHIND: &[u8] = b"=9.a\"\n\\\x80\xe9\0";
        Trial {
            source: source.to_vec(),
            behind: BEHIND[dice.below(BEHIND.len())],
            calls: vec![],
        }
    }

    /// One lexing by each rule with room enough, and the decoding of its strings, which are the same by
    /// both.
    pub fn whole(source: &[u8]) -> Trial {
        let mut dice = Dice::of(source);
        let mut trial = Trial::new(source, &mut dice);
        let mut texts = vec![];
        for rule in rules(source, &mut dice) {
            let (lexing, found) = expect(rule, source);
            texts = found;
            // Sometimes exactly enough, sometimes with records to spare.
            let token_room = lexing.tokens.len() + dice.below(3);
            let error_room = lexing.errors.len() + dice.below(3);
            let call = LexCall {
                rule,
                token_words: TOKEN_WORDS * token_room + dice.below(TOKEN_WORDS),
                error_words: ERROR_WORDS * error_room + dice.below(ERROR_WORDS),
                fill: dice.word() as u32,
            };
            trial.calls.push(Call::Lex(call, lexing));
        }
        // Each decoding tests the whole source first: in a long one that has thousands of strings,
        // some of them have to do.
        let step = if source.len() > 8192 {
            texts.len() / 32 + 1
        } else {
            1
        };
        for text in texts.into_iter().step_by(step) {
            let call = DecodeCall {
                start: text.start as u64,
                room: text.bytes.len() + dice.below(4),
                fill: dice.word() as u8,
            };
            let bytes = text.bytes;
            let outcome = outcome::DONE;
            let want = Decoding { outcome, bytes };
            trial.calls.push(Call::Decode(call, want));
        }
        trial
    }
}

/// The rules by which a source is tried: both of them, the second last; and before them, now and then and
/// where the source is too long, a number that names none.
pub fn rules(source: &[u8], dice: &mut Dice) -> Vec<u32> {
    let mut rules = vec![rule::ONE, rule::TWO];
    if source.len() > LONGEST || dice.one_in(16) {
        let any = 3 + dice.below(1 << 20) as u32;
        let wrong = [WRONG[0], WRONG[1], WRONG[2], any];
        rules.insert(0, wrong[dice.below(wrong.len())]);
    }
    rules
}

/// Makes the calls of all trials: the first difference, with its trial's index. A call that ends
/// the host is a difference too.
pub fn run(host: &mut Host, trials: &[Trial]) -> Option<(usize, Difference)> {
    let end = match ask(host, trials) {
        Ok(found) => return found,
        Err(end) => end,
    };
    *host = host.again();
    if let [trial] = trials {
        let source = trial.source.clone();
        let text = format!("the host ended without an answer: {end}\n");
        return Some((0, Difference { source, text }));
    }
    // Answers on their way were lost with the host: only one by one shows which call it was.
    for (index, trial) in trials.iter().enumerate() {
        if let Some((_, difference)) = run(host, slice::from_ref(trial)) {
            return Some((index, difference));
        }
    }
    panic!("the host ended ({end}), but not again with any one script");
}

/// The same with a host that must live on; else how it ended.
fn ask(host: &mut Host, trials: &[Trial]) -> Result<Option<(usize, Difference)>, String> {
    let mut requests = vec![];
    let mut calls = vec![];
    for (index, trial) in trials.iter().enumerate() {
        requests.push(Request::Source {
            bytes: &trial.source,
            behind: trial.behind,
        });
        calls.push(None);
        for call in &trial.calls {
            requests.push(match call {
                Call::Lex(call, _) => Request::Lex(*call),
                Call::Decode(call, _) => Request::Decode(*call),
                Call::Read(call, _) => Request::Read(*call),
            });
            calls.push(Some((index, call)));
        }
    }
    let mut found = None;
    host.ask(&requests, |request, answer| {
        let (trial, call) = calls[request].expect("an answer to a call");
        if found.is_some() {
            return;
        }
        found = check(call, &answer).map(|text| {
            let source = trials[trial].source.clone();
            (trial, Difference { source, text })
        });
    })?;
    Ok(found)
}

/// Compares one answer; if it differs, a text that shows how.
fn check(call: &Call, answer: &Answer) -> Option<String> {
    match (call, answer) {
        (Call::Lex(call, lexing), Answer::Lex(answer)) => {
            let what = lex_differs(call, lexing, answer)?;
            let mut text = format!("call: {call:?}\ndiffers: {what}\n");
            show(&mut text, "expected", lexing);
            show_answer(&mut text, call, answer);
            Some(text)
        }
        (Call::Decode(call, decoding), Answer::Decode(answer)) => {
            let what = decode_differs(call, decoding, answer)?;
            let Decoding { outcome, bytes } = decoding;
            let (expected, buffer) = (bytes.escape_ascii(), answer.buffer.escape_ascii());
            Some(format!(
                "call: {call:?}\ndiffers: {what}\n\
                 expected: outcome {outcome}, length {}, \"{expected}\"\n\
                 answered: outcome {}, length {}, the buffer afterwards \"{buffer}\"\n",
                bytes.len(),
                answer.outcome,
                answer.length
            ))
        }
        (Call::Read(call, wanted), Answer::Read(answer)) => read_differs(call, wanted, answer),
        _ => panic!("an answer to another call"),
    }
}

fn lex_differs(call: &LexCall, lexing: &Lexing, answer: &LexAnswer) -> Option<String> {
    let Lexing {
        outcome,
        tokens,
        errors,
    } = lexing;
    let (token_words, error_words) = (tokens.as_flattened(), errors.as_flattened());
    if answer.outcome != *outcome {
        Some("the outcome".to_string())
    } else if answer.tokens as usize != tokens.len() {
        Some("the number of tokens".to_string())
    } else if answer.errors as usize != errors.len() {
        Some("the number of errors".to_string())
    } else if let Some(at) = table_differs(&answer.token_table, token_words, call.fill) {
        Some(format!(
            "the token table, word {} of record {}",
            at % TOKEN_WORDS,
            at / TOKEN_WORDS
        ))
    } else if let Some(at) = table_differs(&answer.error_table, error_words, call.fill) {
        Some(format!(
            "the error table, word {} of record {}",
            at % ERROR_WORDS,
            at / ERROR_WORDS
        ))
    } else {
        (!answer.intact).then(|| "the guards round the tables".to_string())
    }
}

/// A table must begin with these words and hold one word after them: where it doesn't.
pub fn table_differs(table: &[u32], words: &[u32], fill: u32) -> Option<usize> {
    if let Some(rest) = table.strip_prefix(words) {
        let at = rest.iter().position(|&word| word != fill)?;
        return Some(words.len() + at);
    }
    let same = table.iter().zip(words).take_while(|(a, b)| a == b);
    Some(same.count())
}

fn decode_differs(
    call: &DecodeCall,
    decoding: &Decoding,
    answer: &DecodeAnswer,
) -> Option<&'static str> {
    let Decoding { outcome, bytes } = decoding;
    let behind = answer.buffer.strip_prefix(bytes.as_slice());
    if answer.outcome != *outcome {
        Some("the outcome of decoding")
    } else if answer.length != bytes.len() as u64 {
        Some("the decoded length")
    } else if !behind.is_some_and(|rest| rest.iter().all(|&byte| byte == call.fill)) {
        Some("the buffer")
    } else {
        (!answer.intact).then_some("the guards round the buffer")
    }
}

/// The library's side in full: the records that it says it has kept, as far as they are in the
/// tables, and the words after them that have changed.
fn show_answer(text: &mut String, call: &LexCall, answer: &LexAnswer) {
    let (tokens, errors) = (answer.tokens as usize, answer.errors as usize);
    let token_records: &[Token] = answer.token_table.as_chunks().0;
    let error_records: &[Error] = answer.error_table.as_chunks().0;
    let kept = Lexing {
        outcome: answer.outcome,
        tokens: token_records.iter().copied().take(tokens).collect(),
        errors: error_records.iter().copied().take(errors).collect(),
    };
    show(text, "answered", &kept);
    let tables = [
        ("token", &answer.token_table, TOKEN_WORDS * tokens),
        ("error", &answer.error_table, ERROR_WORDS * errors),
    ];
    for (name, table, kept_words) in tables {
        for (at, word) in table.iter().enumerate().skip(kept_words) {
            if *word != call.fill {
                let _ = writeln!(text, "  after: word {at} of the {name} table is {word:#x}");
            }
        }
    }
}

/// One side in full.
fn show(text: &mut String, side: &str, lexing: &Lexing) {
    let Lexing {
        outcome,
        tokens,
        errors,
    } = lexing;
    let (t, e) = (tokens.len(), errors.len());
    let _ = writeln!(text, "{side}: outcome {outcome}, {t} tokens, {e} errors");
    for [kind, start, length, line, sort, low, high, begins] in tokens {
        let _ = writeln!(
            text,
            "  token: kind {kind}, start {start}, length {length}, line {line}, value {sort} {low:#x} {high:#x}, begins in {begins}"
        );
    }
    for [message, line, pos] in errors {
        let _ = writeln!(text, "  error: message {message}, line {line}, pos {pos}");
    }
}
