//! What came of a reading, for people: each recorded error at its place, then the outcome.

use std::fmt::Write as _;

use kettleplume::places::Places;
use kettleplume::records::{self, message};
use kettleplume::{Error, Records};

use super::counted::{broken_escape, of_lines};
use super::excerpt;
use super::letters;

/// The report of one script, under the name of its file.
pub fn report(name: &str, source: &[u8], records: &Records) -> String {
    let script = Places::new(source);
    let mut out = String::new();
    for error in records.errors {
        out += &recorded(name, &script, records.tokens, *error);
    }
    // Writing to a string doesn't fail.
    let _ = writeln!(out, "{name}: {}", outcome(source, records));
    out
}

/// An error has one place, and the line and the column are those of that place.
fn recorded(
    name: &str,
    script: &Places,
    tokens: &[records::Token],
    error: records::Error,
) -> String {
    let [number, _, pos] = error;
    let text = kettleplume::message(number).unwrap_or("a message without a text");
    let at = pos as usize;
    let (line, column) = (script.line(at), script.column(at));
    let head = format!("{name}:{line}:{column}: {text}\n");
    head + &excerpt::marked(script, at) + &remarks(script, tokens, error)
}

/// What the line and the mark don't tell.
fn remarks(script: &Places, tokens: &[records::Token], error: records::Error) -> String {
    let [number, line, pos] = error;
    let at = pos as usize;
    let mut notes = vec![];
    match number {
        message::UNCLOSED => notes.push(unclosed(script, line, at)),
        message::ILLEGAL => notes.extend(character(script.source(), at)),
        _ => (),
    }
    if at == script.source().len() {
        notes.push("the script ends here".to_string());
    }
    if number != message::UNCLOSED {
        notes.extend(of_lines(script, tokens, error));
    }
    notes.iter().map(|text| excerpt::note(text)).collect()
}

/// A character by its number, unless it is plain to see, and which byte of it is meant: each has an
/// error of its own.
fn character(source: &[u8], pos: usize) -> Option<String> {
    let start = letters::start(source, pos);
    let letter = letters::first(&source[start..])?;
    let what = match letter.char {
        ' '..='~' => return None,
        c => format!("U+{:04X}", c as u32),
    };
    Some(match letter.length {
        1 => what,
        length => format!("{what}, byte {} of {length}", pos - start + 1),
    })
}

/// Where a string that isn't closed properly was given up. The line recorded is the one there, while
/// the place is the quote's.
fn unclosed(script: &Places, counted: u32, quote: usize) -> String {
    let why = match broken_escape(script.source(), quote) {
        None => "is not closed up to the end of the script".to_string(),
        Some(backslash) => format!(
            "breaks off at line {}, column {}: the backslash there makes no escape",
            script.line(backslash),
            script.column(backslash)
        ),
    };
    let recorded = match script.line(quote) == counted as usize {
        true => String::new(),
        false => format!(" (recorded with line {counted})"),
    };
    format!("the string that begins here {why}{recorded}")
}

/// The outcome in words.
fn outcome(source: &[u8], records: &Records) -> String {
    let errors = counted(records.errors.len(), "error");
    let statements = counted(statements(records), "statement");
    let Some(why) = Error::of(records.answer.outcome) else {
        return format!("read, {statements}, {errors}");
    };
    let kept = match why {
        Error::TooLong => return format!("not read: {why}"),
        Error::NoText => return format!("not read: {why}{}", first_refused(source)),
        Error::NotParsed => return unparsed(records.errors.len()),
        Error::Stopped => {
            let which = match records.errors.len() {
                1 => "which",
                _ => "the last of which",
            };
            format!("{errors}, {which} stopped it; {statements} before it kept")
        }
        _ => format!("{errors}, {statements} before it kept"),
    };
    format!("not read to its end: {why} ({kept})")
}

/// The reader has just seen why.
fn unparsed(errors: usize) -> String {
    let mistakes = match errors {
        1 => "the mistake".to_string(),
        _ => format!("the {errors} mistakes"),
    };
    format!("its statements were not read, because of {mistakes} above")
}

/// The line of the first bytes that are not UTF-8.
fn first_refused(source: &[u8]) -> String {
    match std::str::from_utf8(source) {
        Ok(_) => String::new(),
        Err(error) => {
            let before = &source[..error.valid_up_to()];
            let line = 1 + before.iter().filter(|byte| **byte == b'\n').count();
            format!(", first in line {line}")
        }
    }
}

/// How many top-level statements are kept: a list that is linked by reference.
fn statements(records: &Records) -> usize {
    let node = |reference: u32| records.nodes.get((reference as usize).checked_sub(1)?);
    let next = |record: &&records::Node| node(record[records::node::NEXT]);
    std::iter::successors(node(records.answer.first), next).count()
}

fn counted(count: usize, what: &str) -> String {
    match count {
        0 => format!("no {what}s"),
        1 => format!("1 {what}"),
        _ => format!("{count} {what}s"),
    }
}

#[cfg(test)]
mod tests {
    use super::*;
    use kettleplume::{Options, Tables};

    /// Scripts of parts that are hard to show, each other than the last.
    fn hard_scripts() -> impl Iterator<Item = Vec<u8>> {
        const PARTS: [&[u8]; 22] = [
            b"\n",
            b"\r\n",
            b"\t",
            b"\"",
            b"\\",
            b"\x1b",
            b"\0",
            b"\x7f",
            b"!",
            b"a",
            b" ",
            b"#",
            b"(",
            b"{",
            b"let",
            b"\xe6\xb0\xb4",
            b"\xc3\xbb",
            b"u\xcc\x82",
            b"\xed\x9f\xbf",
            b"\xf4\x8f\xbf\xbf",
            b"\xe2\x80\xae",
            b"\"\\\n",
        ];
        let mut state = 1u64;
        (0..600).map(move |n| {
            let mut part = || {
                state = state.wrapping_mul(6364136223846793005).wrapping_add(1);
                PARTS[(state >> 33) as usize % PARTS.len()]
            };
            (0..n % 150).flat_map(|_| part().to_vec()).collect()
        })
    }

    #[test]
    fn every_error_is_told_and_nothing_unsafe_is_printed() {
        let mut tables = Tables::new();
        let mut unparsed = 0;
        let ways = [Options::default(), Options::ORIGINAL];
        for (source, options) in hard_scripts().flat_map(|s| ways.map(|way| (s.clone(), way))) {
            let records = tables.read_as(options, &source);
            let report = report("s", &source, &records);
            let lines = report.lines().filter(|line| line.starts_with("s:"));
            assert_eq!(lines.count(), records.errors.len() + 1);
            let unsafe_char = |c: char| c.is_control() && c != '\n' && c != '\t';
            assert!(!report.contains(unsafe_char), "{source:?}");
            assert!(!report.contains('\u{202e}'), "{source:?}");
            unparsed += usize::from(report.contains("its statements were not read"));
        }
        assert!(unparsed > 300, "{unparsed}");
    }

    /// What stands over a mark is what stands at the place; nothing does at an end.
    #[test]
    fn marks_are_under_their_letters() {
        let mut tables = Tables::new();
        let (mut lexers, mut parsers, mut ends) = (0, 0, 0);
        for source in hard_scripts() {
            let script = Places::new(&source);
            let records = tables.read_as(Options::ORIGINAL, &source);
            for [number, _, pos] in records.errors {
                let at = letters::start(&source, *pos as usize);
                let excerpt = excerpt::marked(&script, at);
                let (line, mark) = excerpt.split_once('\n').expect("two lines");
                let under = under(line, mark);
                let right = match letters::first(&source[at..]) {
                    None => under.is_none(),
                    // A carriage return within a line is shown by another character.
                    Some(letter) if "\r\n".contains(letter.char) => {
                        under.is_none() || under == Some(letter.shown)
                    }
                    // Accents take no cell; one that has a mark is found by its letter.
                    Some(letter) => under == Some(letter.shown) || letter.cells == 0,
                };
                assert!(right, "{excerpt}");
                match (message::LEXERS.contains(number), under) {
                    (true, _) => lexers += 1,
                    (false, Some(_)) => parsers += 1,
                    (false, None) => ends += 1,
                }
            }
        }
        let counts = (lexers, parsers, ends);
        assert!(lexers > 5_000 && parsers > 200 && ends > 200, "{counts:?}");
    }

    /// The letter in the cell over a mark, if there is one.
    fn under(line: &str, mark: &str) -> Option<char> {
        let cells = |c: char| letters::first(c.to_string().as_bytes()).map_or(0, |l| l.cells);
        let mut left: usize = mark.chars().take_while(|c| *c != '^').map(cells).sum();
        for c in line.chars().filter(|c| cells(*c) > 0) {
            if left == 0 {
                return Some(c);
            }
            left = left
                .checked_sub(cells(c))
                .expect("a mark begins with a letter");
        }
        None
    }
}
