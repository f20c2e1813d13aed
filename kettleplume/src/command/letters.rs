//! Letters: the pieces of a text that count as one character, and what is shown of them.
//!
//! A script may hold control characters, and none of them may reach a terminal.

use std::char::REPLACEMENT_CHARACTER;

use kettleplume::places::{continues, first_char, is_drawn_over};

use super::wide::is_wide;

/// A letter at the beginning of some bytes.
#[derive(Debug, Clone, Copy, PartialEq, Eq)]
pub struct Letter {
    /// How many bytes it has.
    pub length: usize,
    /// Its character; U+FFFD for bytes that are none. Only a source that was not read has such bytes.
    pub char: char,
    /// What is shown for it: one character. A tab stays a tab.
    pub shown: char,
    /// How many cells of a terminal it takes: none, if it is drawn over the letter before it, two, if it
    /// is a wide one, else one.
    pub cells: usize,
}

/// The letter at the beginning, unless there are no bytes.
pub fn first(bytes: &[u8]) -> Option<Letter> {
    let (char, length) = first_char(bytes)?;
    Some(Letter::of(length, char))
}

impl Letter {
    fn of(length: usize, char: char) -> Letter {
        let (shown, cells) = match is_drawn_over(char) {
            true => (char, 0),
            false => (visible(char), 1 + usize::from(is_wide(visible(char)))),
        };
        Letter {
            length,
            char,
            shown,
            cells,
        }
    }
}

/// Where the letter begins that the byte at `at` belongs to.
pub fn start(bytes: &[u8], mut at: usize) -> usize {
    while at > 0 && bytes.get(at).is_some_and(|byte| continues(*byte)) {
        at -= 1;
    }
    at
}

/// A text in one line, with nothing in it that a terminal would act on.
pub fn escaped(text: &str) -> String {
    let mut out = String::new();
    for c in text.chars() {
        match c {
            ' '..='~' => out.push(c),
            _ if is_drawn_over(c) => out.push(c),
            _ => out.extend(c.escape_debug()),
        }
    }
    out
}

fn visible(c: char) -> char {
    match c {
        '\t' | ' '..='~' => c,
        // Unicode has a picture for each control character of ASCII.
        '\0'..='\x1f' => char::from_u32(0x2400 + c as u32).unwrap_or(REPLACEMENT_CHARACTER),
        '\x7f' => '\u{2421}',
        // The standard library knows what can be printed by what it escapes.
        _ if c.escape_debug().count() == 1 => c,
        _ => REPLACEMENT_CHARACTER,
    }
}

#[cfg(test)]
mod tests {
    use super::*;

    fn shown(bytes: &[u8]) -> String {
        let (mut out, mut at) = (String::new(), 0);
        while let Some(letter) = first(&bytes[at..]) {
            out.push(letter.shown);
            at += letter.length;
        }
        out
    }

    #[test]
    fn what_a_terminal_shows_is_shown() {
        let text = "let flûte = \"8'\\n\"\tи 水 \u{1f3b9}";
        assert_eq!(shown(text.as_bytes()), text);
    }

    #[test]
    fn controls_become_pictures() {
        assert_eq!(shown(b"\x00\x07\x1b[2J\r\x7f"), "␀␇␛[2J␍␡");
    }

    #[test]
    fn what_turns_or_hides_text_is_replaced() {
        // A control of the second set, right-to-left override, zero width space, byte order mark, nbsp.
        let text = "\u{9b}\u{202e}\u{200b}\u{feff}\u{a0}";
        assert_eq!(shown(text.as_bytes()), "\u{fffd}".repeat(5));
    }

    #[test]
    fn bytes_that_are_no_character_are_one_letter() {
        for bytes in [&b"\xed\xa0\x80"[..], b"\xf4\x90\x80\x80", b"\xff"] {
            let letter = first(bytes).expect("there are bytes");
            assert_eq!(letter.length, bytes.len());
            assert_eq!((letter.char, letter.shown), ('\u{fffd}', '\u{fffd}'));
            assert_eq!(letter.cells, 1);
        }
    }

    #[test]
    fn cells_of_a_terminal() {
        let cells = |c: char| first(c.to_string().as_bytes()).map(|letter| letter.cells);
        let counts = ['u', '\u{302}', 'û', '\t', '\u{a0}', '水', '\u{1f3b9}'].map(cells);
        assert_eq!(counts, [1, 0, 1, 1, 1, 2, 2].map(Some));
    }

    #[test]
    fn every_byte_finds_the_start_of_its_letter() {
        let bytes = "aé水b".as_bytes();
        let starts: Vec<usize> = (0..=bytes.len()).map(|at| start(bytes, at)).collect();
        assert_eq!(starts, [0, 1, 1, 3, 3, 3, 6, 7]);
    }

    #[test]
    fn names_are_escaped() {
        assert_eq!(
            escaped("Flûte d'amour\n\x1b[2J\u{202e}"),
            "Flûte d'amour\\n\\u{1b}[2J\\u{202e}"
        );
    }
}
