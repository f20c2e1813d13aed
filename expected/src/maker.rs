//! A maker of random scripts: soups of tokens, and statements of the grammar, whole or with slips. Now
//! and then there is something that the rules read differently.

use crate::dice::Dice;

/// Tokens for soups; the more frequent ones stand more often.
const SOUP: [&str; 72] = [
    "a", "b", "c", "a", "b", "c", "a", "b", "1", "2", "\"s\"", "true", "false", "nil", "\n", "\n",
    "\n", "\n", "\n", "\n", "(", ")", "[", "]", "{", "}", "(", ")", "[", "]", "{", "}", ",", ".",
    "-", "+", "/", "%", "*", "^", ":", ":", ";", ";", "=", "=", "==", "!=", ">", ">=", "<", "<=",
    "and", "or", "not", "class", "else", "fn", "for", "if", "elif", "return", "break", "continue",
    "super", "this", "let", "while", "in", "try", "catch", "!",
];

/// Names that are one token by rule two, and more by rule one.
const WITH_DIGITS: [&str; 4] = ["a1", "b2c", "_0", "in9"];

/// Numbers that rule two alone has at the end.
const AT_END: [&str; 3] = ["1.5", "2.", "0.25"];

/// A maker of scripts, as lists of tokens.
pub struct Maker {
    pub dice: Dice,
}

impl Maker {
    pub fn roll(&mut self, below: usize) -> usize {
        self.dice.roll(below as u64) as usize
    }

    fn pick<'a>(&mut self, from: &[&'a str]) -> &'a str {
        from[self.roll(from.len())]
    }

    /// Tokens at random.
    fn soup(&mut self) -> Vec<&'static str> {
        let n = 1 + self.roll(12);
        (0..n).map(|_| self.pick(&SOUP)).collect()
    }

    fn several(
        &mut self,
        out: &mut Vec<&'static str>,
        depth: usize,
        mut one: impl FnMut(&mut Self, &mut Vec<&'static str>, usize),
    ) {
        for i in 0..self.roll(3) {
            if i > 0 {
                out.push(",");
            }
            one(self, out, depth);
        }
    }

    fn name(&mut self, out: &mut Vec<&'static str>, _: usize) {
        let name = match self.roll(40) {
            0 => self.pick(&WITH_DIGITS),
            _ => self.pick(&["a", "b", "c"]),
        };
        out.push(name);
    }

    /// Now and then an enhanced for, and then what may only stand in a loop.
    fn loop_left(&mut self, out: &mut Vec<&'static str>, depth: usize) {
        if self.roll(12) == 0 {
            self.enhanced_for(out, depth);
            out.extend(["\n", self.pick(&["break", "continue"]), "\n"]);
        }
    }

    fn enhanced_for(&mut self, out: &mut Vec<&'static str>, depth: usize) {
        out.extend(["for", "a"]);
        if self.roll(2) == 0 {
            out.extend([",", "b"]);
        }
        out.push("in");
        self.expr(out, depth);
        self.stmt(out, depth);
    }

    fn primary(&mut self, out: &mut Vec<&'static str>, depth: usize) {
        let forms = if depth == 0 { 4 } else { 12 };
        match self.roll(forms) {
            0..=2 => self.name(out, 0),
            3 => out.push(self.pick(&["1", "\"s\"", "true", "false", "nil"])),
            4 => {
                out.push("(");
                self.expr(out, depth - 1);
                out.push(")");
            }
            5 => {
                out.push("[");
                self.several(out, depth - 1, Self::expr);
                out.push("]");
            }
            6 => {
                out.push("{");
                self.several(out, depth - 1, |s, out, d| {
                    s.expr(out, d);
                    out.push(":");
                    s.expr(out, d);
                });
                out.push("}");
            }
            7 => {
                out.push("fn");
                self.function(out, depth - 1);
            }
            8 => out.push("this"),
            9 => {
                out.push("super");
                out.push(self.pick(&[".", "("]));
                if out.last() == Some(&".") {
                    self.name(out, 0);
                } else {
                    out.push(")");
                }
            }
            10 => {
                out.push(self.pick(&["-", "not"]));
                self.primary(out, depth - 1);
            }
            _ => {
                self.primary(out, depth - 1);
                self.tail(out, depth - 1);
            }
        }
    }

    fn tail(&mut self, out: &mut Vec<&'static str>, depth: usize) {
        match self.roll(4) {
            0 => {
                out.push("(");
                self.several(out, depth, Self::expr);
                out.push(")");
            }
            1 => {
                out.push(".");
                self.name(out, 0);
            }
            _ => {
                out.push("[");
                match self.roll(9) {
                    0..=2 => self.expr(out, depth),
                    form => {
                        let slice = ["e:", "e:e", "e:e:", "e:e:e", ":e", "::e"][form - 3];
                        for part in slice.chars() {
                            match part {
                                ':' => out.push(":"),
                                _ => self.expr(out, depth),
                            }
                        }
                    }
                }
                out.push("]");
            }
        }
    }

    fn expr(&mut self, out: &mut Vec<&'static str>, depth: usize) {
        if depth == 0 {
            return self.primary(out, 0);
        }
        let depth = depth - 1;
        match self.roll(9) {
            0..=1 => {
                self.primary(out, depth);
                self.tail(out, depth);
            }
            // Most of these may be assigned to.
            2..=3 => {
                self.name(out, 0);
                for _ in 0..self.roll(4) {
                    self.tail(out, depth);
                }
                out.push("=");
                self.expr(out, depth);
            }
            4..=5 => {
                let operators = [
                    "or", "and", "==", "!=", ">", ">=", "<", "<=", "+", "-", "/", "%", "*", "^",
                ];
                self.primary(out, depth);
                out.push(self.pick(&operators));
                self.expr(out, depth);
            }
            _ => self.primary(out, depth + 1),
        }
    }

    fn function(&mut self, out: &mut Vec<&'static str>, depth: usize) {
        out.push("(");
        self.several(out, 0, Self::name);
        out.push(")");
        if self.roll(2) == 0 {
            self.block(out, depth);
        } else {
            self.expr(out, depth);
        }
    }

    fn block(&mut self, out: &mut Vec<&'static str>, depth: usize) {
        out.push("{");
        for _ in 0..self.roll(3) {
            self.stmt(out, depth);
            if self.roll(2) == 0 {
                out.push("\n");
            }
        }
        self.loop_left(out, depth);
        out.push("}");
    }

    fn stmt(&mut self, out: &mut Vec<&'static str>, depth: usize) {
        if depth == 0 {
            return self.expr(out, 0);
        }
        let depth = depth - 1;
        match self.roll(14) {
            0..=2 => self.expr(out, depth + 1),
            3 => {
                out.extend(["class", "a"]);
                if self.roll(2) == 0 {
                    out.extend(["<", "b"]);
                }
                out.push("{");
                for _ in 0..self.roll(3) {
                    if self.roll(2) == 0 {
                        out.push("class");
                    }
                    self.name(out, 0);
                    self.function(out, depth);
                }
                out.push("}");
            }
            4 => {
                out.push("fn");
                self.name(out, 0);
                self.function(out, depth);
            }
            5 => {
                out.push("let");
                self.name(out, 0);
                if self.roll(2) == 0 {
                    out.push("=");
                    self.expr(out, depth);
                }
            }
            6 => {
                out.push("for");
                if self.roll(2) == 0 {
                    out.extend(["let", "a", "="]);
                    self.expr(out, depth);
                }
                out.push(";");
                self.expr(out, depth);
                out.push(";");
                self.expr(out, depth);
                self.stmt(out, depth);
            }
            7 => self.enhanced_for(out, depth),
            8 => {
                out.push("while");
                self.expr(out, depth);
                self.stmt(out, depth);
            }
            9 => {
                out.push("try");
                self.stmt(out, depth);
                out.extend(["catch", "a"]);
                self.stmt(out, depth);
            }
            10 => {
                out.push("if");
                self.expr(out, depth);
                self.block(out, depth);
                for _ in 0..self.roll(3) {
                    out.push("elif");
                    self.expr(out, depth);
                    self.block(out, depth);
                }
                if self.roll(2) == 0 {
                    out.push("else");
                    self.block(out, depth);
                }
            }
            11 => {
                out.push("return");
                if self.roll(2) == 0 {
                    out.push("\n");
                } else {
                    self.expr(out, depth);
                }
            }
            12 => out.push(self.pick(&["break", "continue"])),
            _ => self.block(out, depth),
        }
    }

    /// Statements of the grammar, each on a line.
    pub fn lines(&mut self) -> Vec<&'static str> {
        let mut out = vec![];
        for _ in 0..1 + self.roll(2) {
            let depth = 1 + self.roll(3);
            self.stmt(&mut out, depth);
            out.push("\n");
            self.loop_left(&mut out, depth - 1);
        }
        out
    }

    /// A token too many, too few or in another's place, or newlines.
    fn slip(&mut self, tokens: &mut Vec<&'static str>) {
        let at = self.roll(tokens.len());
        match self.roll(6) {
            0 => drop(tokens.remove(at)),
            1 => tokens.insert(at, self.pick(&SOUP)),
            2 => tokens[at] = self.pick(&SOUP),
            3 => tokens.truncate(at + 1),
            _ => tokens.insert(at, "\n"),
        }
        if tokens.is_empty() {
            tokens.push("\n");
        }
    }

    pub fn tokens(&mut self) -> Vec<&'static str> {
        let mut tokens = match self.roll(4) {
            0 => self.soup(),
            _ => self.lines(),
        };
        for _ in 0..self.roll(4) {
            self.slip(&mut tokens);
        }
        if self.roll(3) == 0 {
            // Newlines wherever a token begins.
            let with: Vec<_> = tokens
                .iter()
                .flat_map(|t| [vec![*t], vec!["\n"; [0, 0, 0, 1, 2][self.roll(5)]]].concat())
                .collect();
            tokens = with;
        }
        if self.roll(20) == 0 {
            tokens.push(self.pick(&AT_END));
        }
        tokens
    }

    /// The next script's text: its tokens stand apart by a space.
    pub fn text(&mut self) -> String {
        self.tokens().join(" ")
    }
}
