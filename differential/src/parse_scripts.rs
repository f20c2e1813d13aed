//! Scripts for whole readings.

use expected::dice::Dice as Rolls;
use expected::maker::Maker;
use expected::spellings::{BETWEEN, NUMBERS, STRINGS};
use oracle::{read, Stop};

use crate::lists::all_of_length;
use expected::lex_scripts::damaged;
use expected::mixed_dice::Dice;

/// One token of each kind but EOF, each with a blank so that no two run together.
pub const TOKENS: [&str; 49] = [
    "\n",
    "( ",
    ") ",
    "[ ",
    "] ",
    "} ",
    "{ ",
    ", ",
    ". ",
    "- ",
    "+ ",
    "/ ",
    "% ",
    "* ",
    "^ ",
    ": ",
    "; ",
    "!= ",
    "= ",
    "== ",
    "> ",
    ">= ",
    "< ",
    "<= ",
    "a ",
    "\"s\" ",
    "1 ",
    "and ",
    "class ",
    "else ",
    "false ",
    "fn ",
    "for ",
    "if ",
    "elif ",
    "nil ",
    "or ",
    "return ",
    "break ",
    "continue ",
    "super ",
    "this ",
    "true ",
    "let ",
    "while ",
    "not ",
    "in ",
    "try ",
    "catch ",
];

/// Those that begin, end or divide something.
pub const DIVIDING: [&str; 20] = [
    "\n", "( ", ") ", "[ ", "] ", "} ", "{ ", ", ", ". ", "- ", ": ", "; ", "= ", "a ", "1 ",
    "class ", "fn ", "for ", "return ", "super ",
];

/// Those about indexes, slices and what is assigned to.
pub const INDEXING: [&str; 8] = ["a ", "[ ", "] ", ": ", "\n", "= ", ". ", ", "];

/// Those about what the rules differ in: loops and what may only stand in one, a name with a digit, and
/// what is a number with a point at the end.
pub const RULING: [&str; 10] = [
    "for a in b ",
    "for ;a;b ",
    "while a ",
    "fn f() ",
    "{ ",
    "} ",
    "break ",
    "\n",
    "a1 ",
    "1.",
];

/// All sequences of up to so many tokens.
pub fn sequences(tokens: &'static [&str], most: u32) -> impl Iterator<Item = Vec<u8>> {
    (0..=most).flat_map(|n| all_of_length(tokens, n))
}

/// Scripts of the grammar, whole and with slips, as many as are wanted.
pub struct Scripts {
    maker: Maker,
    dice: Dice,
}

impl Scripts {
    pub fn new(seed: u64) -> Scripts {
        Scripts {
            // A xorshift generator needs a seed that isn't 0.
            maker: Maker {
                dice: Rolls::new(Dice::new(seed).word()),
            },
            dice: Dice::new(!seed),
        }
    }

    /// Statements of all forms, without a slip.
    pub fn grammar(&mut self) -> Vec<u8> {
        let mut tokens = vec![];
        for _ in 0..1 + self.dice.below(3) {
            tokens.extend(self.maker.lines());
        }
        self.joined(&tokens)
    }

    /// Statements and soups, most with slips: a token too many, too few or another, newlines.
    pub fn slips(&mut self) -> Vec<u8> {
        let tokens = self.maker.tokens();
        self.joined(&tokens)
    }

    /// Statements with bytes removed, doubled, exchanged and cut off.
    pub fn damaged(&mut self) -> Vec<u8> {
        let script = match self.dice.below(2) {
            0 => self.grammar(),
            _ => self.slips(),
        };
        damaged(&mut self.dice, script)
    }

    /// Statements with blank lines before, after and between the tokens.
    pub fn blank_lines(&mut self) -> Vec<u8> {
        let tokens = match self.dice.below(3) {
            0 => self.maker.lines(),
            _ => self.maker.tokens(),
        };
        let mut script = String::new();
        for token in tokens {
            script += token;
            script += match self.dice.below(8) {
                0..3 => " ",
                3 => "\n",
                4 => "\n\n",
                5 => "\n \n\n",
                6 => " # b\n",
                _ => "\r\n\n",
            };
        }
        script.into_bytes()
    }

    /// One of these four.
    pub fn any(&mut self) -> Vec<u8> {
        match self.dice.below(4) {
            0 => self.grammar(),
            1 => self.slips(),
            2 => self.damaged(),
            _ => self.blank_lines(),
        }
    }

    /// Hundreds of statements; the last ones, in half of the scripts, with slips.
    pub fn long(&mut self) -> Vec<u8> {
        let mut script = vec![];
        for _ in 0..50 + self.dice.below(400) {
            // A statement that stops the reading would make the rest idle.
            let more = self.grammar();
            if std::str::from_utf8(&more).is_ok_and(|text| read(text).stop == Stop::None) {
                script.extend(more);
            }
        }
        if self.dice.one_in(2) {
            script.extend(self.slips());
        }
        script
    }

    /// Tokens with blanks between them, and in half of the scripts after the last. Now and then a name,
    /// a number or a string is another, and a comment or something that is no token stands between two.
    fn joined(&mut self, tokens: &[&str]) -> Vec<u8> {
        let mut script = String::new();
        for &token in tokens {
            script += match token {
                "a" if self.dice.one_in(8) => self.dice.pick(&NAMES),
                "1" if self.dice.one_in(2) => self.dice.pick(&NUMBERS),
                "\"s\"" if self.dice.one_in(2) => self.dice.pick(&STRINGS),
                other => other,
            };
            if token != "\n" {
                script += match self.dice.below(160) {
                    0..4 => " # c\n",
                    4 => self.dice.pick(&BETWEEN),
                    _ => " ",
                };
            }
        }
        if self.dice.one_in(2) {
            script.truncate(script.trim_end_matches(' ').len());
        }
        script.into_bytes()
    }
}

const NAMES: [&str; 5] = ["name", "init", "self_", "ifs", "A"];
