//! `s HEX from`: the string whose opening quote stands before from.
//! `d HEX start room`: the string at start, decoded into a buffer of room bytes.
//! `u n`: decoding a source of 65,535 + n bytes.
//!
//! The judge is a direct rendering of `docs/RULES.md`, 'Strings' and 'Decoding'. What it says of a valid
//! text is compared with the original.

use crate::leaves::FAR;
use crate::sheet::{hex, Sheet};
use expected::dice::Dice;
use expected::records::{message, outcome, LONGEST};
use oracle::token::{Literal, Token, TokenData};
use oracle::{message_number, Reading, Stop};

/// What fills a buffer before a decoding.
const FILLER: u8 = 0xaa;

/// A string, read from the byte after its opening quote.
pub(crate) struct Reach {
    /// The bytes passed, the closing quote among them.
    pub(crate) size: usize,
    /// The newlines passed that no backslash escapes.
    lines: usize,
    /// What a closed string stands for.
    decoded: Option<Vec<u8>>,
}

/// Rule 5, from the byte after an opening quote.
pub(crate) fn string(bytes: &[u8], from: usize) -> Reach {
    let mut rest = bytes.get(from..).unwrap_or(&[]).iter();
    let whole = rest.len();
    let mut lines = 0;
    let mut decoded = vec![];
    let closed = loop {
        match rest.next() {
            None => break false,
            Some(b'"') => break true,
            Some(b'\\') => match rest.next() {
                Some(b'n') => decoded.push(b'\n'),
                Some(b'r') => decoded.push(b'\r'),
                Some(b't') => decoded.push(b'\t'),
                Some(b'\\') => decoded.push(b'\\'),
                Some(b'"') => decoded.push(b'"'),
                _ => break false,
            },
            Some(&b) => {
                lines += usize::from(b == b'\n');
                decoded.push(b);
            }
        }
    };
    Reach {
        size: whole - rest.len(),
        lines,
        decoded: closed.then_some(decoded),
    }
}

/// Compares a string, whose opening quote stands before from, with the original's reading.
fn compare(bytes: &[u8], from: usize, reach: &Reach) {
    let Some(quote) = from.checked_sub(1) else {
        return;
    };
    let Some(script) = bytes.get(quote..).and_then(|s| std::str::from_utf8(s).ok()) else {
        return;
    };
    if !script.starts_with('"') {
        return;
    }
    let reading = oracle::read(script);
    let line = 1 + reach.lines as i32;
    match &reach.decoded {
        Some(decoded) => {
            let text = String::from_utf8(decoded.clone()).expect("escapes are ASCII");
            let token = TokenData {
                token: Token::String,
                lexeme: script[..=reach.size].to_string(),
                literal: Some(Literal::String(text)),
                line,
            };
            assert_eq!(reading.tokens[0], token);
        }
        None => {
            let error = &reading.errors[0];
            let place = (message_number(&error.message), error.line, error.pos);
            assert_eq!(place, (Some(message::UNCLOSED), line, 0));
            compare_rest(&reading, script, 1 + reach.size);
        }
    }
}

/// After a broken string the original goes on at that place: the tokens are those of the rest.
fn compare_rest(reading: &Reading, script: &str, at: usize) {
    // In the middle of a letter there is no script to compare with.
    let Some(rest) = script.get(at..) else {
        return;
    };
    let rest = oracle::read(rest);
    assert_eq!(rest.stop == Stop::Lexing, reading.stop == Stop::Lexing);
    let kinds = |r: &Reading| -> Vec<Token> { r.tokens.iter().map(|t| t.token).collect() };
    assert_eq!(kinds(&rest), kinds(reading), "what follows in {script:?}");
}

fn add_string(sheet: &mut Sheet, bytes: &[u8], from: usize) {
    let reach = string(bytes, from);
    compare(bytes, from, &reach);
    let fields: [&dyn std::fmt::Display; 2] = [&hex(bytes), &from];
    let Reach { size, lines, .. } = reach;
    match reach.decoded {
        Some(decoded) => sheet.add('s', &fields, &[&1, &size, &lines, &decoded.len()]),
        None => sheet.add('s', &fields, &[&0, &size, &lines]),
    }
}

/// The outcome of a decoding, and the decoded bytes.
fn decode(source: &[u8], start: usize, room: usize) -> (u32, Vec<u8>) {
    if source.len() > LONGEST {
        return (outcome::TOO_LONG, vec![]);
    }
    if std::str::from_utf8(source).is_err() {
        return (outcome::NO_TEXT, vec![]);
    }
    if source.get(start) != Some(&b'"') {
        return (outcome::NO_STRING, vec![]);
    }
    match string(source, start + 1).decoded {
        None => (outcome::NO_STRING, vec![]),
        Some(decoded) if decoded.len() > room => (outcome::BUFFER_ROOM, vec![]),
        Some(decoded) => (outcome::DONE, decoded),
    }
}

fn add_decode(sheet: &mut Sheet, source: &[u8], start: usize, room: usize) {
    if start < source.len() {
        compare(source, start + 1, &string(source, start + 1));
    }
    let (outcome, decoded) = decode(source, start, room);
    let mut buffer = vec![FILLER; room];
    buffer[..decoded.len()].copy_from_slice(&decoded);
    sheet.add(
        'd',
        &[&hex(source), &start, &room],
        &[&outcome, &decoded.len(), &hex(&buffer)],
    );
}

/// A source with an opening quote in front: read, and decoded with just enough room, with one byte
/// less and with more.
fn add_both(sheet: &mut Sheet, source: &[u8]) {
    let reach = string(source, 1);
    add_string(sheet, source, 1);
    add_decode(sheet, source, 0, 4);
    if let Some(decoded) = reach.decoded {
        add_decode(sheet, source, 0, decoded.len());
        add_decode(sheet, source, 0, decoded.len().saturating_sub(1));
        add_decode(sheet, source, 0, decoded.len() + 3);
    }
}

pub fn add(sheet: &mut Sheet) {
    add_texts(sheet);
    add_escapes(sheet);
    add_places(sheet);
    add_no_texts(sheet);
    add_large(sheet);
    add_random(sheet);
}

/// Strings from the first byte on that are closed.
pub(crate) const CLOSED: [&str; 20] = [
    r#""""#,
    r#""a""#,
    r#""abc""#,
    r#""a b" c"#,
    r#"""""#,
    r#""\n\r\t\\\"""#,
    r#""\n""#,
    r#""\nb""#,
    r#""a\\""#,
    r#""a\"""#,
    r#""\\\"""#,
    r#""é""#,
    r#""aé\n€b😀"é"#,
    r##""#" # ""##,
    "\"a\nb\n\nc\"\n",
    "\"\n\"",
    "\"\0\"",
    "\"a\rb\"",
    "\"a\r\nb\"",
    "\"\t'\"",
];

/// Strings that the end leaves open, or a backslash before a byte that is no escape.
pub(crate) const BROKEN: [&str; 20] = [
    r#"""#,
    r#""a"#,
    r#""a\"#,
    r#""\"#,
    r#""a\""#,
    r#""a\\\"#,
    r#""a\q""#,
    r#""\q"#,
    r#""\qa" b"#,
    r#""\é""#,
    r#""a\éb" c"#,
    r#""a\ ""#,
    r#""\0""#,
    "\"a\n",
    "\"a\n\nb",
    "\"\n\\",
    "\"\\\na\"",
    "\"\n\\\n\"",
    "\"\n\\\n\n\"",
    "\"\\\0\"",
];

/// All of them, read and decoded.
fn add_texts(sheet: &mut Sheet) {
    for source in CLOSED {
        assert!(string(source.as_bytes(), 1).decoded.is_some(), "{source}");
        add_both(sheet, source.as_bytes());
    }
    for source in BROKEN {
        assert!(string(source.as_bytes(), 1).decoded.is_none(), "{source}");
        add_both(sheet, source.as_bytes());
    }
}

/// A backslash before each kind of byte, the neighbours of the escapes among them.
fn add_escapes(sheet: &mut Sheet) {
    for c in *b"nrt\\\"moqsuNRT!#[]0 \n\x00\x7f\x80\xdc\xff" {
        add_string(sheet, &[b'"', b'a', b'\\', c, b'b', b'"'], 1);
    }
}

/// Quotes elsewhere, no quote, and places at the end and past it.
fn add_places(sheet: &mut Sheet) {
    let source = b"x = \"a\\tb\" + \"c\"";
    for at in 0..source.len() + 3 {
        add_string(sheet, source, at);
        add_decode(sheet, source, at, 4);
    }
    for at in FAR {
        add_string(sheet, source, at);
        add_decode(sheet, source, at, 4);
        add_decode(sheet, b"\"\"", at, 0);
    }
    for room in [0, 4] {
        add_decode(sheet, b"", 0, room);
        add_decode(sheet, b"", FAR[2], room);
    }
    add_string(sheet, b"", 0);
    add_string(sheet, b"", 1);
}

/// Sources on both sides of the text test, which fails within the string or outside it. Where it
/// fails, nothing else counts.
fn add_no_texts(sheet: &mut Sheet) {
    for source in [
        &b"\"\x80\""[..],
        b"\"a\" \xc3",
        b"\xc3\"a\"",
        b"\"\\\xc3\xa9\"",
        b"\"\xc3\"",
        b"\"a\xed\xa0\x80\"",
        b"\"\xf5\x80\x80\x80\"",
        b"\"\xf4\x90\x80\x80\"",
        b"\"a\x80",
        b"\"a\\\x80\"",
    ] {
        for (start, room) in [(0, 4), (0, 0), (99, 4)] {
            add_decode(sheet, source, start, room);
        }
        add_string(sheet, source, 1);
    }
}

/// Long strings, up to the source that is too long.
fn add_large(sheet: &mut Sheet) {
    let mut source = vec![b'a'; 64];
    source[0] = b'"';
    add_string(sheet, &source, 1);
    source[63] = b'"';
    for room in [61, 62, 70] {
        add_decode(sheet, &source, 0, room);
    }
    source[62] = b'\\';
    add_string(sheet, &source, 1);
    for more in [0, 1] {
        let mut source = vec![b'a'; LONGEST + more];
        source[0] = b'"';
        let (outcome, decoded) = decode(&source, 0, 4);
        sheet.add('u', &[&more], &[&outcome, &decoded.len()]);
    }
}

/// Random pieces after an opening quote.
fn add_random(sheet: &mut Sheet) {
    const PIECES: [&[u8]; 12] = [
        b"a",
        b"b",
        b" ",
        b"n",
        b"\n",
        b"\\n",
        b"\\\"",
        b"\\\\",
        b"\\t",
        "é".as_bytes(),
        b"\\\n",
        b"\"",
    ];
    let mut dice = Dice::new(0x7374_7269);
    for _ in 0..20 {
        let source = [b"\"", &dice.string(&PIECES, 9)[..]].concat();
        add_string(sheet, &source, 1);
        let room = dice.roll(8) as usize;
        add_decode(sheet, &source, 0, room);
    }
}
