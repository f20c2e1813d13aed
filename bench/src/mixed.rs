//! Scripts of all forms, made at random but the same in every run. They are read without an error.

use expected::dice::Dice;

const NAMES: [&str; 24] = [
    "stop",
    "pipes",
    "rank",
    "ledger",
    "name",
    "swell",
    "great",
    "choir",
    "pitch",
    "i",
    "n",
    "x",
    "out",
    "entry",
    "found",
    "scale",
    "corrections",
    "builder",
    "year",
    "wind_chest",
    "mouth",
    "length",
    "key",
    "value",
];

const CLASSES: [&str; 4] = ["Stop", "Rank", "Division", "Case"];

const TEXTS: [&str; 8] = [
    "\"Open Diapason\"",
    "\"Stopt Diapason\"",
    "\"Gemfhorn\"",
    "\"Fifteenth\\n\"",
    "\"\"",
    "\" -> \"",
    "\"said \\\"borrowed\\\"\"",
    "\"8 ft\"",
];

const NUMBERS: [&str; 8] = ["0", "1", "2", "58", "1780", "2.5", "0.0625", "16"];

const COMMENTS: [&str; 4] = [
    "# The recogniser takes a long s for an f.",
    "# As the ledger has it.",
    "# Pipes that are borrowed are counted once.",
    "# 1780 to 1796",
];

const OPERATORS: [&str; 16] = [
    "or", "and", "==", "!=", ">", ">=", "<", "<=", "+", "-", "/", "%", "*", "^", "+", "==",
];

/// A script that is as long as so many bytes allow.
pub fn script(bytes: usize) -> String {
    let mut writer = Writer::new();
    let mut text = String::new();
    // What doesn't fit is left out, and something shorter tried.
    for _ in 0..bytes {
        writer.statement(4);
        let more = writer.taken();
        if text.len() + more.len() <= bytes {
            text += &more;
        } else if bytes - text.len() < 8 {
            break;
        }
    }
    text
}

/// One statement that is an expression as long as so many bytes allow.
pub fn expression(bytes: usize) -> String {
    let mut writer = Writer::new();
    let mut text = "let total = stop".to_string();
    loop {
        writer.operator();
        writer.operand(2);
        let more = writer.taken();
        if text.len() + more.len() >= bytes {
            return text + "\n";
        }
        text += &more;
    }
}

struct Writer {
    dice: Dice,
    text: String,
    indent: usize,
    loops: usize,
}

impl Writer {
    fn new() -> Writer {
        Writer {
            dice: Dice::new(0x5eed_0f57_0b5e),
            text: String::new(),
            indent: 0,
            loops: 0,
        }
    }

    /// What was written since.
    fn taken(&mut self) -> String {
        std::mem::take(&mut self.text)
    }

    fn roll(&mut self, below: u64) -> u64 {
        self.dice.roll(below)
    }

    fn put(&mut self, text: &str) {
        self.text += text;
    }

    fn put_one(&mut self, texts: &[&str]) {
        let text = *self.dice.pick(texts);
        self.put(text);
    }

    fn name(&mut self) {
        self.put_one(&NAMES);
    }

    /// Some things with commas between them.
    fn listed(&mut self, most: u64, mut one: impl FnMut(&mut Writer)) {
        for i in 0..self.roll(most + 1) {
            if i > 0 {
                self.put(", ");
            }
            one(self);
        }
    }

    /// A line from its indent to its end.
    fn line(&mut self, inner: impl FnOnce(&mut Writer)) {
        for _ in 0..self.indent {
            self.put("    ");
        }
        inner(self);
        self.put("\n");
    }

    /// Statements between braces. Only a loop's own may leave it.
    fn block(&mut self, depth: u64) {
        self.put("{\n");
        self.indent += 1;
        for _ in 0..1 + self.roll(3) {
            self.statement(depth);
        }
        self.indent -= 1;
        for _ in 0..self.indent {
            self.put("    ");
        }
        self.put("}");
    }

    fn body_of_loop(&mut self, depth: u64) {
        self.loops += 1;
        self.block(depth);
        self.loops -= 1;
    }

    /// The body of a function is inside no loop.
    fn body_of_function(&mut self, depth: u64) {
        let outer = std::mem::take(&mut self.loops);
        self.block(depth);
        self.loops = outer;
    }

    fn statement(&mut self, depth: u64) {
        let forms = if depth == 0 { 7 } else { 16 };
        match self.roll(forms) {
            0 | 1 => self.line(Writer::let_statement),
            2 | 3 => self.line(Writer::assignment),
            4 => self.line(|w| {
                w.called(2);
            }),
            5 => self.line(Writer::jump),
            6 => self.remark(),
            7 => self.line(|w| w.function(depth - 1)),
            8 => self.line(|w| w.class(depth - 1)),
            9 => self.line(|w| w.for_in(depth - 1)),
            10 => self.line(|w| w.for_c(depth - 1)),
            11 => self.line(|w| w.while_loop(depth - 1)),
            12 | 13 => self.line(|w| w.condition(depth - 1)),
            14 => self.line(|w| w.attempt(depth - 1)),
            _ => self.line(|w| w.block(depth - 1)),
        }
    }

    fn let_statement(&mut self) {
        self.put("let ");
        self.name();
        if self.roll(8) > 0 {
            self.put(" = ");
            self.expression(3);
        }
    }

    fn assignment(&mut self) {
        self.name();
        match self.roll(4) {
            0 => self.property(),
            1 => self.index(1),
            2 => {
                self.property();
                self.index(1);
            }
            _ => {}
        }
        self.put(" = ");
        self.expression(3);
    }

    /// `return` anywhere, the others inside a loop.
    fn jump(&mut self) {
        match self.roll(4) {
            0 if self.loops > 0 => self.put("break"),
            1 if self.loops > 0 => self.put("continue"),
            2 => self.put("return"),
            _ => {
                self.put("return ");
                self.expression(2);
            }
        }
    }

    /// A comment, or a blank line; but not as a block's only statement, so another follows.
    fn remark(&mut self) {
        if self.roll(2) == 0 {
            self.put("\n");
        } else {
            self.line(|w| w.put_one(&COMMENTS));
        }
        self.line(Writer::assignment);
    }

    fn function(&mut self, depth: u64) {
        self.put("fn ");
        self.method(depth);
    }

    fn method(&mut self, depth: u64) {
        self.name();
        self.put("(");
        self.listed(3, Writer::name);
        self.put(") ");
        // A body that begins with a brace is a block, so an expression has brackets about it.
        if self.roll(6) == 0 {
            self.grouped(2);
        } else {
            self.body_of_function(depth);
        }
    }

    fn class(&mut self, depth: u64) {
        self.put("class ");
        self.put_one(&CLASSES);
        if self.roll(2) == 0 {
            self.put(" < ");
            self.put_one(&CLASSES);
        }
        self.put(" {\n");
        self.indent += 1;
        for _ in 0..1 + self.roll(3) {
            self.line(|w| {
                if w.roll(4) == 0 {
                    w.put("class ");
                }
                w.method(depth);
            });
        }
        self.indent -= 1;
        for _ in 0..self.indent {
            self.put("    ");
        }
        self.put("}");
    }

    fn for_in(&mut self, depth: u64) {
        self.put("for ");
        self.name();
        if self.roll(2) == 0 {
            self.put(", ");
            self.name();
        }
        self.put(" in ");
        self.name();
        self.put(" ");
        self.body_of_loop(depth);
    }

    fn for_c(&mut self, depth: u64) {
        self.put("for ");
        if self.roll(4) > 0 {
            self.put("let i = 0");
        }
        self.put("; i < ");
        self.expression(1);
        self.put("; i = i + 1 ");
        self.body_of_loop(depth);
    }

    fn while_loop(&mut self, depth: u64) {
        self.put("while ");
        self.expression(2);
        self.put(" ");
        self.body_of_loop(depth);
    }

    fn condition(&mut self, depth: u64) {
        self.put("if ");
        self.expression(2);
        self.put(" ");
        self.block(depth);
        for _ in 0..self.roll(2) {
            self.put(" elif ");
            self.expression(2);
            self.put(" ");
            self.block(depth);
        }
        if self.roll(2) == 0 {
            self.put(" else ");
            self.block(depth);
        }
    }

    fn attempt(&mut self, depth: u64) {
        self.put("try ");
        self.block(depth);
        self.put(" catch missing ");
        self.block(depth);
    }

    fn expression(&mut self, depth: u64) {
        self.operand(depth);
        for _ in 0..self.roll(3) {
            self.operator();
            self.operand(depth.saturating_sub(1));
        }
    }

    fn operator(&mut self) {
        self.put(" ");
        self.put_one(&OPERATORS);
        self.put(" ");
    }

    fn operand(&mut self, depth: u64) {
        let forms = if depth == 0 { 8 } else { 18 };
        match self.roll(forms) {
            0..4 => self.name(),
            4 => self.put_one(&TEXTS),
            5 | 6 => self.put_one(&NUMBERS),
            7 => self.put_one(&["true", "false", "nil", "this"]),
            8 | 9 => {
                self.called(depth);
            }
            10 | 11 => {
                self.name();
                self.property();
            }
            12 | 13 => {
                self.name();
                self.index(depth - 1);
            }
            14 => self.grouped(depth),
            15 => self.prefixed(depth),
            16 => self.collection(depth),
            _ => self.rare(depth),
        }
    }

    fn called(&mut self, depth: u64) {
        self.name();
        for _ in 0..1 + self.roll(2) {
            if self.roll(2) == 0 {
                self.property();
            }
            self.put("(");
            self.listed(3, |w| w.expression(depth.saturating_sub(1)));
            self.put(")");
        }
    }

    fn property(&mut self) {
        self.put(".");
        self.name();
    }

    fn index(&mut self, depth: u64) {
        self.put("[");
        // `e` is an expression.
        let form = *self
            .dice
            .pick(&["e", "e", "e", "e", "e:", "e:e", ":e", "e:e:e", "::e"]);
        for part in form.chars() {
            match part {
                ':' => self.put(":"),
                _ => self.expression(depth.saturating_sub(1)),
            }
        }
        self.put("]");
    }

    fn grouped(&mut self, depth: u64) {
        self.put("(");
        self.expression(depth - 1);
        self.put(")");
    }

    fn prefixed(&mut self, depth: u64) {
        self.put_one(&["-", "not "]);
        self.operand(depth - 1);
    }

    fn collection(&mut self, depth: u64) {
        if self.roll(2) == 0 {
            self.put("[");
            self.listed(5, |w| w.expression(depth - 1));
            self.put("]");
        } else {
            self.put("{");
            self.listed(3, |w| {
                w.put_one(&TEXTS);
                w.put(": ");
                w.expression(depth - 1);
            });
            self.put("}");
        }
    }

    fn rare(&mut self, depth: u64) {
        match self.roll(3) {
            0 => {
                self.put("super.");
                self.name();
                self.put("()");
            }
            1 => {
                self.put("fn(");
                self.listed(2, Writer::name);
                self.put(") ");
                self.grouped(depth);
            }
            _ => {
                self.put("fn(");
                self.listed(2, Writer::name);
                self.put(") { return ");
                self.expression(depth - 1);
                self.put(" }");
            }
        }
    }
}
