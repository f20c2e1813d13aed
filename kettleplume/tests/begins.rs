//! Where a token begins: the eighth word of its record, and room for eight words.

use kettleplume::border;
use kettleplume::records::{outcome, rule, token, TOKEN_WORDS};
use kettleplume::Tables;

/// A script and, of each of its tokens, kind, start, length, line, and the line where it begins.
type Tokens = (&'static str, &'static [[u32; 5]]);

#[rustfmt::skip]
const SCRIPTS: [Tokens; 8] = [
    ("a = 1\n", &[[25, 0, 1, 1, 1], [19, 2, 1, 1, 1], [27, 4, 1, 1, 1], [1, 5, 1, 2, 1], [0, 6, 0, 2, 2]]),
    // A string of several lines, and the new line after it.
    ("\"x\ny\nz\"\n", &[[26, 0, 7, 3, 1], [1, 7, 1, 4, 3], [0, 8, 0, 4, 4]]),
    // New lines of the script, and the added one.
    ("a\n\nb", &[
        [25, 0, 1, 1, 1], [1, 1, 1, 2, 1], [1, 2, 1, 3, 2], [25, 3, 1, 3, 3], [1, 4, 0, 3, 3], [0, 4, 0, 3, 3],
    ]),
    ("", &[[0, 0, 0, 1, 1]]),
    ("# a\r\n\t\"b\n\" c\r\n", &[
        [1, 4, 1, 2, 1], [26, 6, 4, 3, 2], [25, 11, 1, 3, 3], [1, 13, 1, 4, 3], [0, 14, 0, 4, 4],
    ]),
    // An escape for a new line is none.
    ("\"x\\ny\"\n", &[[26, 0, 6, 1, 1], [1, 6, 1, 2, 1], [0, 7, 0, 2, 2]]),
    // The count is the reader's: the new line after the first backslash isn't counted.
    ("\"\\\n\"\n\"", &[[26, 3, 3, 2, 1], [1, 6, 0, 2, 2], [0, 6, 0, 2, 2]]),
    // What isn't closed raises the count for what comes after it.
    ("\"a\n\\q b", &[[25, 6, 1, 2, 2], [1, 7, 0, 2, 2], [0, 7, 0, 2, 2]]),
];

#[test]
fn tokens_have_the_line_where_they_begin() {
    let mut tables = Tables::new();
    for (script, tokens) in SCRIPTS {
        let read: Vec<_> = tables.read(script.as_bytes()).tokens.to_vec();
        let scanned = tables.scan(script.as_bytes()).tokens;
        assert_eq!(read, scanned, "{script:?}");
        let shown: Vec<_> = read.iter().map(token::shown).collect();
        assert_eq!(shown, tokens, "{script:?}");
    }
}

#[test]
fn a_script_has_it_beside_its_tokens() {
    for (script, tokens) in SCRIPTS {
        let script = kettleplume::read(script);
        let lines = script.tokens.iter().map(|token| token.line);
        let shown: Vec<[i32; 2]> = lines.zip(&script.begins).map(|(l, b)| [l, *b]).collect();
        let expected = tokens
            .iter()
            .map(|[.., line, begins]| [*line as i32, *begins as i32]);
        assert_eq!(shown, expected.collect::<Vec<_>>());
        assert_eq!(script.clone().into_parts().begins, script.begins);
    }
}

/// One token, EOF, needs eight words; the words after them stay as they were.
#[test]
fn seven_words_have_no_room() {
    let mut table = [9; 15];
    let (less, one) = (&mut table[..TOKEN_WORDS - 1], TOKEN_WORDS);
    let full = border::scan(rule::ONE, b"", less, &mut []);
    assert_eq!((full.outcome, full.tokens), (outcome::TOKEN_ROOM, 0));
    assert_eq!(table, [9; 15]);
    let read = border::scan(rule::ONE, b"", &mut table, &mut []);
    assert_eq!((read.outcome, read.tokens), (outcome::DONE, 1));
    assert_eq!(table[..one], [0, 0, 0, 1, 0, 0, 0, 1]);
    assert_eq!(table[one..], [9; 7]);
}
