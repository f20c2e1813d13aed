//! The line in an error's record, beside the line of the file that its place is in.
//!
//! A record has the line of a token as the reader counts it: of a new line that is the line after it,
//! of a string the one that it ends in. And the reader's count can fall behind the file's, since a new
//! line after a backslash that makes no escape isn't counted (`docs/RULES.md`, 'Strings'). People look for
//! a line by its number in the file. So that number is shown, and the other is told where it may surprise.

use kettleplume::places::Places;
use kettleplume::records::{self, message, token};
use kettleplume::token::Token;

/// What is to be said of an error's line: where a string of several lines begins and ends, if the error
/// is about one, for it is recorded with the last; and that the reader's count has fallen behind. A new
/// line stands at the end of its line and is recorded with the next: nothing is said of that.
pub fn of_lines(
    script: &Places,
    tokens: &[records::Token],
    [number, recorded, pos]: records::Error,
) -> Vec<String> {
    // The reader's count when it met the place, and how many lines further a string there ends.
    let (met, further) = match message::LEXERS.contains(&number) {
        true => (recorded, 0),
        false => match token_at(tokens, pos) {
            None => return vec![],
            Some(token) => (token[token::BEGINS], further(&token)),
        },
    };
    let first = script.line(pos as usize);
    let counted = first == met as usize;
    let mut notes = vec![];
    if further > 0 {
        let last = first + further;
        let which = if counted {
            ", with which it is recorded"
        } else {
            ""
        };
        notes.push(format!(
            "the string begins in line {first} and ends in line {last}{which}"
        ));
    }
    if !counted && first != recorded as usize {
        notes.push(format!(
            "recorded with line {recorded}: a new line behind a backslash isn't counted"
        ));
    }
    notes
}

/// The token that starts at a place. An added new line and EOF start at the end, with one line.
fn token_at(tokens: &[records::Token], pos: u32) -> Option<records::Token> {
    let first = tokens.partition_point(|token| token[token::START] < pos);
    tokens.get(first).copied()
}

/// How many lines after the one where it begins a string ends.
fn further(token: &records::Token) -> usize {
    match token[token::KIND] == Token::String as u32 {
        true => (token[token::LINE] - token[token::BEGINS]) as usize,
        false => 0,
    }
}

/// The backslash at which the reading of a string that isn't closed properly was given up, unless that
/// was at the end of the script.
pub fn broken_escape(source: &[u8], quote: usize) -> Option<usize> {
    let mut at = quote + 1;
    loop {
        match source.get(at..)? {
            [b'\\', b'n' | b'r' | b't' | b'\\' | b'"', ..] => at += 2,
            [b'\\', _, ..] => return Some(at),
            [] => return None,
            _ => at += 1,
        }
    }
}

#[cfg(test)]
mod tests {
    use super::*;
    use kettleplume::{Options, Tables};

    /// The place whose line a token's record has (`docs/RULES.md`, 'Records'): after a new line, at the
    /// closing quote of a string.
    fn line_place(token: &records::Token) -> usize {
        const NEWLINE: u32 = Token::Newline as u32;
        const STRING: u32 = Token::String as u32;
        let (start, length) = (token[token::START], token[token::LENGTH]);
        let place = match token[token::KIND] {
            NEWLINE => start + length,
            STRING => start + length - 1,
            _ => start,
        };
        place as usize
    }

    /// The new lines of a script that the reader doesn't count.
    fn uncounted(source: &[u8], errors: &[records::Error]) -> Vec<usize> {
        let unclosed = errors.iter().filter(|e| e[0] == message::UNCLOSED);
        let escapes = unclosed.filter_map(|e| broken_escape(source, e[2] as usize));
        escapes
            .map(|at| at + 1)
            .filter(|at| source[*at] == b'\n')
            .collect()
    }

    /// Every line that is recorded is the file's where it was counted, less the new lines before it
    /// that aren't.
    fn holds_for(source: &[u8]) {
        let mut tables = Tables::new();
        let records = tables.read_as(Options::ORIGINAL, source);
        let script = Places::new(source);
        let uncounted = uncounted(source, records.errors);
        let stands = |at: usize, line: u32| {
            let behind = uncounted.iter().filter(|newline| **newline < at).count();
            assert_eq!(script.line(at), line as usize + behind, "{source:?} {at}");
        };
        for token in records.tokens {
            stands(line_place(token), token[token::LINE]);
            stands(token[token::START] as usize, token[token::BEGINS]);
        }
        for [number, line, pos] in records.errors.iter().copied() {
            stands(
                match number {
                    message::UNCLOSED => {
                        broken_escape(source, pos as usize).unwrap_or(source.len())
                    }
                    1..message::UNCLOSED => pos as usize,
                    _ => line_place(&token_at(records.tokens, pos).expect("a token")),
                },
                line,
            );
        }
    }

    #[test]
    fn lines_agree_with_the_reader() {
        const PARTS: [&str; 14] = [
            "\n", "\n", "\"", "\"", "\\", "n", "a", "é", "!", " ", "#", "\"\\\n", "(", "break",
        ];
        let mut state = 1u64;
        for _ in 0..4000 {
            let mut source = vec![];
            for _ in 0..12 {
                state = state.wrapping_mul(6364136223846793005).wrapping_add(1);
                source.extend(PARTS[(state >> 33) as usize % PARTS.len()].as_bytes());
            }
            holds_for(&source);
        }
    }

    fn remarks(source: &str) -> Vec<Vec<String>> {
        let mut tables = Tables::new();
        let records = tables.read_as(Options::ORIGINAL, source.as_bytes());
        let script = Places::new(source.as_bytes());
        let errors = records.errors.iter();
        errors
            .map(|e| of_lines(&script, records.tokens, *e))
            .collect()
    }

    #[test]
    fn what_is_said_of_a_line() {
        // A new line, the end of the script, and a string of one line.
        assert_eq!(remarks("(a\n\nb\n"), [[""; 0]]);
        assert_eq!(remarks("\n"), [[""; 0]]);
        assert_eq!(remarks("a \"b\"\n"), [[""; 0]]);
        let string = "the string begins in line 1 and ends in line 3, with which it is recorded";
        assert_eq!(remarks("a \"b\n\nc\"\n"), [[string]]);
        // The first error is the string itself, of which something else is said.
        let behind = "recorded with line 1: a new line behind a backslash isn't counted";
        assert_eq!(remarks("\"\\\na b\n")[1..], [[behind]]);
    }

    /// A string of several lines after a new line that isn't counted: its lines are the file's.
    #[test]
    fn what_is_said_of_a_string_behind_a_miscount() {
        let string = "the string begins in line 2 and ends in line 4";
        let behind = "recorded with line 3: a new line behind a backslash isn't counted";
        assert_eq!(remarks("\"\\\na \"b\n\nc\"\n")[1..], [[string, behind]]);
        // Here the count, which is one too low, is that of the file's line all the same.
        let string = "the string begins in line 2 and ends in line 3";
        assert_eq!(remarks("\"\\\na \"b\nc\"\n")[1..], [[string]]);
    }
}
