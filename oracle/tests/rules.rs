//! Rules one and two: what each of the three points is about, and that nothing else differs.

mod common;

use common::{compare_by, statements, trouble, Case, Dice};
use oracle::{lex_by, logged, read_by, Reading, Rule, Stop};

/// A script, and the errors and statements of each rule.
type Ruled = (&'static str, [[&'static str; 2]; 2]);

/// Compares each script by both rules.
#[track_caller]
fn compare_both(cases: &[Ruled]) {
    for (index, rule) in Rule::BOTH.into_iter().enumerate() {
        let of_rule = |(script, answers): &Ruled| -> Case {
            let [errors, tree] = answers[index];
            (script, errors, tree)
        };
        let cases: Vec<Case> = cases.iter().map(of_rule).collect();
        compare_by(rule, &cases);
    }
}

/// The kinds and lexemes of a script's tokens but for the last two, which are added.
fn lexemes(rule: Rule, script: &str) -> Vec<(u32, String)> {
    let mut tokens = lex_by(rule, script).tokens;
    tokens.truncate(tokens.len() - 2);
    let words = tokens.into_iter().map(|t| (t.token as u32, t.lexeme));
    words.collect()
}

#[test]
fn names() {
    compare_both(&[
        ("a1", [["4@1", "a; 1"], ["", "a1"]]),
        ("1a\n", [["4@1", "1; a"]; 2]),
        ("_1", [["4@1", "_; 1"], ["", "_1"]]),
        (
            "a1b2 = 3\n",
            [["4@1 4@1 4@1 23@1 STOP", "a; 1; b"], ["", "(= a1b2 3)"]],
        ),
        ("x_9", [["4@1", "x_; 9"], ["", "x_9"]]),
        ("1e5", [["4@1 4@1", "1; e; 5"], ["4@1", "1; e5"]]),
        ("1.5a\n", [["4@1", "1.5; a"]; 2]),
        ("a1.5\n", [["4@1", "a; 1.5"], ["25@1 STOP", ""]]),
        ("if2 = 3\n", [["23@1 STOP", ""], ["", "(= if2 3)"]]),
        ("nil0\n", [["4@1", "nil; 0"], ["", "nil0"]]),
        ("é1\n", [["2@1:0 2@1:1", "1"]; 2]),
        (
            "for x1 in y2 {}\n",
            [["17@1 28@1 STOP", ""], ["", "(for [x1] in y2 (block []))"]],
        ),
    ]);
    // A keyword with a digit after it is a name; with a blank between them it stays what it is.
    assert_eq!(lexemes(Rule::Two, "if2"), [(25, "if2".to_string())]);
    let apart = [(34, "if".to_string()), (27, "2".to_string())];
    assert_eq!(lexemes(Rule::Two, "if 2"), apart);
    assert_eq!(lexemes(Rule::One, "if2"), apart);
}

#[test]
fn numbers_at_the_end() {
    compare_both(&[
        ("1.5", [["NUMBER", ""], ["", "1.5"]]),
        ("1.", [["NUMBER", ""], ["", "1"]]),
        ("a = 1.5", [["NUMBER", ""], ["", "(= a 1.5)"]]),
        ("1.5\n", [["", "1.5"]; 2]),
        ("@ 1.5", [["2@1:0 NUMBER", ""], ["2@1:0", "1.5"]]),
        ("1..5", [["25@1 STOP", ""]; 2]),
        ("\"1.5", [["3@1:0", ""]; 2]),
        ("a = [1.5", [["NUMBER", ""], ["20@1 STOP", ""]]),
    ]);
}

#[test]
fn loops() {
    compare_both(&[
        (
            "for x in y {}\nbreak\n",
            [
                ["", "(for [x] in y (block [])); break"],
                ["19@2", "(for [x] in y (block [])); break"],
            ],
        ),
        (
            "for x in y { break }\n",
            [["", "(for [x] in y (block [break]))"]; 2],
        ),
        (
            "while a { for x in y {} break }\n",
            [["", "(while a (block [(for [x] in y (block [])); break]))"]; 2],
        ),
        (
            "fn f() { for x in y {} }\nbreak\n",
            [["19@2", "(fn f [] [(for [x] in y (block []))]); break"]; 2],
        ),
        (
            "fn f() { for x in y {} break }\n",
            [
                ["", "(fn f [] [(for [x] in y (block [])); break])"],
                ["19@1", "(fn f [] [(for [x] in y (block [])); break])"],
            ],
        ),
        (
            "for x in y for z in w {}\ncontinue\n",
            [
                ["", "(for [x] in y (for [z] in w (block []))); continue"],
                ["19@2", "(for [x] in y (for [z] in w (block []))); continue"],
            ],
        ),
        // The body isn't finished.
        ("for x in y {\n", [["28@2 STOP", ""]; 2]),
    ]);
}

/// Pieces that run together to names with digits, numbers at the end and loops.
const PIECES: [&str; 40] = [
    "a",
    "b",
    "_",
    "x9",
    "if",
    "for",
    "in",
    "nil",
    "while",
    "break",
    "continue",
    "fn",
    "f()",
    "0",
    "1",
    "9",
    ".",
    ".",
    "1.5",
    "2.",
    " ",
    " ",
    " ",
    "\n",
    "\n",
    "{",
    "}",
    "(",
    ")",
    "[",
    "]",
    "=",
    "\"",
    "\"s\"",
    "\\",
    "#",
    "!",
    "é",
    "😀",
    "for x in y {}\n",
];

fn script(dice: &mut Dice) -> String {
    let count = dice.roll(16);
    let piece = |_| PIECES[dice.roll(PIECES.len() as u64) as usize];
    (0..count).map(piece).collect()
}

/// `lex_by` panics where rule two's lexer does.
#[test]
fn rule_two_never_stops_in_lexing() {
    let mut dice = Dice::new();
    let (mut stopped, mut parsed) = (0, 0);
    for _ in 0..60_000 {
        let script = script(&mut dice);
        assert_ne!(lex_by(Rule::Two, &script).stop, Stop::Lexing, "{script:?}");
        assert_ne!(read_by(Rule::Two, &script).stop, Stop::Lexing, "{script:?}");
        match read_by(Rule::One, &script).stop {
            Stop::Lexing => stopped += 1,
            _ => parsed += 1,
        }
    }
    assert!(stopped > 1_000 && parsed > 1_000, "{stopped}, {parsed}");
}

/// The parser with a log comes to what the one without does, by each rule.
#[test]
fn the_log_changes_nothing() {
    let mut dice = Dice::new();
    for _ in 0..10_000 {
        let script = script(&mut dice);
        for rule in Rule::BOTH {
            let (lexed, read) = (lex_by(rule, &script), read_by(rule, &script));
            if lexed.stop == Stop::Lexing {
                continue;
            }
            let log = logged::parse(rule, lexed.tokens.clone());
            let logged = Reading {
                stmts: log.stmts,
                stop: read.stop,
                ..read.clone()
            };
            assert_eq!(log.stopped, read.stop == Stop::Parsing, "{script:?}");
            assert_eq!(statements(&logged), statements(&read), "{script:?}");
            let recorded = lexed.errors.len() + log.errors.len();
            assert_eq!(recorded, read.errors.len(), "{script:?}");
        }
    }
}

/// Where none of the three points applies, the rules say the same.
#[test]
fn nothing_else_differs() {
    let mut dice = Dice::new();
    let mut compared = 0;
    while compared < 10_000 {
        // A blank after each piece keeps digits from names and numbers from the end.
        let count = dice.roll(16);
        let piece = |_| PIECES[dice.roll(PIECES.len() as u64) as usize];
        let script: String = (0..count).map(piece).flat_map(|p| [p, " "]).collect();
        if ["x9", "in "].iter().any(|point| script.contains(point)) {
            continue;
        }
        let [one, two] = Rule::BOTH.map(|rule| read_by(rule, &script));
        assert_eq!(format!("{one:?}"), format!("{two:?}"), "{script:?}");
        assert_eq!(trouble(&one), trouble(&two));
        compared += 1;
    }
}
