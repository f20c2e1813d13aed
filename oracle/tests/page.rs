//! What `docs/RULES.md` says of the original, as far as the original can say it: scripts on each side
//! of a line ('Parsing'), the rules of lexing, and the order of the operators. The limits that are
//! marked as added there (outcomes 3 to 8) are not the original's.

mod common;

use common::{compare, many, statements, trouble, Dice};
use oracle::token::{Literal, Token};
use oracle::{on_large_stack, read, Reading, Stop};

/// The kinds of a script's tokens, as numbers.
fn kinds(script: &str) -> Vec<u32> {
    read(script).tokens.iter().map(|t| t.token as u32).collect()
}

/// The tokens of a reading, each as kind, lexeme and line.
fn tokens(reading: &Reading) -> Vec<(u32, &str, i32)> {
    let tokens = reading.tokens.iter();
    tokens
        .map(|t| (t.token as u32, t.lexeme.as_str(), t.line))
        .collect()
}

// Scripts on each side of a line.

#[test]
fn scripts_on_each_side_of_the_line() {
    compare(&[
        ("", "", ""),
        ("\n", "4@2", "_"),
        ("\n\n", "", "_"),
        ("a\n\n", "4@3", "a; _"),
        ("a1", "4@1", "a; 1"),
        ("2^3^2", "", "(^ (^ 2 3) 2)"),
        ("-2^2", "", "(^ (- 2) 2)"),
        ("a\n(b)", "", "(call a b)"),
        ("1.5", "NUMBER", ""),
        ("1.5\n", "", "1.5"),
        ("{return}", "28@1 STOP", ""),
        ("1=2", "23@1 STOP", ""),
        ("break", "19@1", "break"),
        ("while y {}\nbreak", "19@2", "(while y (block [])); break"),
        (
            "for x in y {}\nbreak",
            "",
            "(for [x] in y (block [])); break",
        ),
        (r#""\q""#, "3@1:0 3@1:3", ""),
        ("a[1:]", "", "(at a 1 :_ _)"),
        ("a[1:2:]", "", "(at a 1 :2 :_)"),
        ("a[:]", "28@1 STOP", ""),
        ("a[1::]", "28@1 STOP", ""),
        ("a = 1\n", "", "(= a 1)"),
    ]);
}

#[test]
fn tokens_of_the_scripts() {
    assert_eq!(tokens(&read("")), [(0, "", 1)]);
    assert_eq!(tokens(&read(r#""\q""#)), [(0, "", 1)]);
    assert!(read("1.5").tokens.is_empty());
    assert_eq!(
        tokens(&read("a = 1\n")),
        [
            (25, "a", 1),
            (19, "=", 1),
            (27, "1", 1),
            (1, "\n", 2),
            (0, "", 2)
        ]
    );
}

#[test]
fn parameters_up_to_256() {
    for (n, errors) in [(255, ""), (256, ""), (257, "10@1 STOP")] {
        let names = many(n);
        let list = vec!["a"; n].join(" ");
        for (script, shape) in [
            (format!("fn f({names}) b"), format!("(fn f [{list}] [b])")),
            (
                format!("g = fn({names}) b"),
                format!("(= g (fn [{list}] [b]))"),
            ),
        ] {
            let reading = read(&script);
            assert_eq!(trouble(&reading), errors, "{n} parameters");
            let shape = if errors.is_empty() { &shape } else { "" };
            assert_eq!(statements(&reading), shape, "{n} parameters");
        }
    }
}

#[test]
fn arguments_up_to_255() {
    for (n, errors) in [(254, ""), (255, ""), (256, "27@1 STOP"), (257, "27@1 STOP")] {
        let reading = read(&format!("f({})", many(n)));
        assert_eq!(trouble(&reading), errors, "{n} arguments");
        let call = format!("(call f{})", " a".repeat(n));
        let shape = if errors.is_empty() { &call } else { "" };
        assert_eq!(statements(&reading), shape, "{n} arguments");
    }
}

/// The original has no limit of its own: it reads as deep as its stack goes.
#[test]
fn brackets() {
    on_large_stack(|| {
        for n in [126, 127, 32_000] {
            let reading = read(&("(".repeat(n) + "a" + &")".repeat(n)));
            assert_eq!(trouble(&reading), "");
            let shape = "(group ".repeat(n) + "a" + &")".repeat(n);
            assert!(statements(&reading) == shape, "{n} brackets");
        }
    });
}

/// With overflow checks on, `previous` would panic here.
#[test]
fn overflow_checks_are_off() {
    for script in ["a\n\n", "a\n\n\n\nb\n\n\n"] {
        assert_eq!(read(script).stop, Stop::None);
    }
}

// Lexing, rules 1 to 7.

/// Kind, lexeme and line of a token.
type Seen = (u32, &'static str, i32);

/// Compares tokens (without EOF) and messages of scripts.
#[track_caller]
fn compare_tokens(cases: &[(&str, &[Seen], &str)]) {
    for (script, expected, errors) in cases {
        let reading = read(script);
        let mut is = tokens(&reading);
        assert_eq!(is.pop().map(|t| t.0), Some(0), "{script:?} ends with EOF");
        assert_eq!(is, *expected, "tokens of {script:?}");
        // The parser's messages follow the lexer's and aren't compared here.
        let errors_of_lexer = trouble(&reading);
        let errors_of_lexer: Vec<&str> = errors_of_lexer
            .split(' ')
            .filter(|e| e.contains(':'))
            .collect();
        assert_eq!(errors_of_lexer.join(" "), *errors, "messages of {script:?}");
    }
}

#[test]
fn kinds_number_the_enum_in_its_order() {
    let marks = "\n ()[]} {,.-+/%*^:; != = == > >= < <= a \"s\" 1 ";
    assert_eq!(kinds(marks)[..27], (1..28).collect::<Vec<u32>>()[..]);
    let keywords = "and class else false fn for if elif nil or return break continue super this \
                    true let while not in try catch";
    let mut expected: Vec<u32> = (28..50).collect();
    assert_eq!(expected.len(), 22);
    expected.extend([1, 0]);
    assert_eq!(kinds(keywords), expected);
    assert_eq!((Token::EOF as u32, Token::Catch as u32), (0, 49));
    // Keywords are no prefixes and have no capitals.
    for name in [
        "an", "andy", "And", "_and", "begin", "end", "printf", "self",
    ] {
        assert_eq!(kinds(name), [25, 1, 0], "{name}");
    }
}

#[test]
fn rules_1_and_2_lines_and_blanks() {
    compare_tokens(&[
        (
            "a\nb\n",
            &[(25, "a", 1), (1, "\n", 2), (25, "b", 2), (1, "\n", 3)],
            "",
        ),
        ("\"a\nb\"\n", &[(26, "\"a\nb\"", 2), (1, "\n", 3)], ""),
        (" \t\ra# (b) \"\n", &[(25, "a", 1), (1, "\n", 2)], ""),
        ("# only\r", &[], ""),
        ("a #", &[(25, "a", 1), (1, "", 1)], ""),
    ]);
}

#[test]
fn rules_3_and_4_names_and_numbers() {
    compare_tokens(&[
        (
            "_aZ_9b\n",
            &[(25, "_aZ_", 1), (27, "9", 1), (25, "b", 1), (1, "\n", 2)],
            "",
        ),
        ("007\n", &[(27, "007", 1), (1, "\n", 2)], ""),
        ("10", &[(27, "10", 1), (1, "", 1)], ""),
        ("1.50;", &[(27, "1.50", 1), (17, ";", 1), (1, "", 1)], ""),
        ("1.;", &[(27, "1.", 1), (17, ";", 1), (1, "", 1)], ""),
        (".5", &[(9, ".", 1), (27, "5", 1), (1, "", 1)], ""),
        (
            "1e5",
            &[(27, "1", 1), (25, "e", 1), (27, "5", 1), (1, "", 1)],
            "",
        ),
    ]);
}

#[test]
fn rule_5_strings() {
    compare_tokens(&[
        (
            r#""\n\r\t\\\"""#,
            &[(26, r#""\n\r\t\\\"""#, 1), (1, "", 1)],
            "",
        ),
        ("\"é\"", &[(26, "\"é\"", 1), (1, "", 1)], ""),
        ("a \"b", &[(25, "a", 1), (1, "", 1)], "3@1:2"),
        ("a \"\n\n", &[(25, "a", 1), (1, "", 3)], "3@3:2"),
        ("\"a\n\\", &[], "3@2:0"),
        // Reading resumes after the byte that followed the backslash.
        (r#""\qb"#, &[(25, "b", 1), (1, "", 1)], "3@1:0"),
        // A newline there doesn't raise the line.
        ("\"\\\nb\n", &[(25, "b", 1), (1, "\n", 2)], "3@1:0"),
        ("\"\n\\\nb\n", &[(25, "b", 2), (1, "\n", 3)], "3@2:0"),
    ]);
    let literal = |script| read(script).tokens[0].literal.clone();
    let text = |text: &str| Some(Literal::String(text.to_string()));
    assert_eq!(literal(r#""\n\r\t\\\"""#), text("\n\r\t\\\""));
    assert_eq!(literal("\"\""), text(""));
    assert_eq!(literal("\"é\n\""), text("é\n"));
}

#[test]
fn rule_6_marks_and_illegal_bytes() {
    compare_tokens(&[
        (
            "== = =",
            &[(20, "==", 1), (19, "=", 1), (19, "=", 1), (1, "", 1)],
            "",
        ),
        ("===", &[(20, "==", 1), (19, "=", 1), (1, "", 1)], ""),
        (
            "<==>=",
            &[(24, "<=", 1), (19, "=", 1), (22, ">=", 1), (1, "", 1)],
            "",
        ),
        ("!==", &[(18, "!=", 1), (19, "=", 1), (1, "", 1)], ""),
        ("\n!!=", &[(1, "\n", 2), (18, "!=", 2), (1, "", 2)], "1@2:1"),
        ("! =", &[(19, "=", 1), (1, "", 1)], "1@1:0"),
        ("!", &[], "1@1:0"),
        ("a?é", &[(25, "a", 1), (1, "", 1)], "2@1:1 2@1:2 2@1:3"),
        (
            "'@$&|~`\\",
            &[],
            "2@1:0 2@1:1 2@1:2 2@1:3 2@1:4 2@1:5 2@1:6 2@1:7",
        ),
    ]);
}

#[test]
fn rule_7_closing_newline() {
    compare_tokens(&[
        ("", &[], ""),
        ("  # no token", &[], ""),
        ("?", &[], "2@1:0"),
        ("a", &[(25, "a", 1), (1, "", 1)], ""),
        ("\"\n\"", &[(26, "\"\n\"", 2), (1, "", 2)], ""),
        ("a\n", &[(25, "a", 1), (1, "\n", 2)], ""),
        ("a\n  # more", &[(25, "a", 1), (1, "\n", 2)], ""),
    ]);
}

/// With m all the digits and k those after the point, m ≤ 2^53 and k ≤ 22: the value is one
/// division, m by 10^k, bit for bit.
#[test]
fn short_numbers_are_one_division() {
    let mut dice = Dice::new();
    let mut scripts = vec![
        "9007199254740992;".to_string(),
        "0.0000000000000000000001;".to_string(),
    ];
    for i in 0..20_000u64 {
        let m = dice.roll(1 << (1 + i % 53)) + 1;
        let k = (i / 53 % 23) as usize;
        let digits = format!("{m:0width$}", width = k + 1);
        let (whole, rest) = digits.split_at(digits.len() - k);
        scripts.push(format!("{whole}.{rest};"));
    }
    for script in scripts {
        let number = script.trim_end_matches(';');
        let k = number.split_once('.').map_or(0, |(_, rest)| rest.len());
        let m: u64 = number.replace('.', "").parse().unwrap();
        assert!(m <= 1 << 53 && k <= 22, "{number}");
        // The float of the text 1e0 to 1e22 is exact.
        let power: f64 = format!("1e{k}").parse().unwrap();
        let Some(Literal::Number(value)) = read(&script).tokens[0].literal else {
            panic!("{number} has no value");
        };
        assert_eq!(value.to_bits(), (m as f64 / power).to_bits(), "{number}");
    }
}

// Parsing.

/// Binary operators, loosest first; those of one row bind alike, and all group left.
const OPERATORS: [&[&str]; 7] = [
    &["or"],
    &["and"],
    &["==", "!="],
    &[">", ">=", "<", "<="],
    &["+", "-"],
    &["/", "%", "*"],
    &["^"],
];

#[test]
fn operators() {
    for (i, row) in OPERATORS.iter().enumerate() {
        for first in *row {
            for (j, other) in OPERATORS.iter().enumerate() {
                for second in *other {
                    let reading = read(&format!("a {first} b {second} c"));
                    let shape = if j > i {
                        format!("({first} a ({second} b c))")
                    } else {
                        format!("({second} ({first} a b) c)")
                    };
                    assert_eq!(trouble(&reading), "", "{first} {second}");
                    assert_eq!(statements(&reading), shape, "{first} {second}");
                }
            }
            for prefix in ["not", "-"] {
                let reading = read(&format!("{prefix} a {first} {prefix} b"));
                let shape = format!("({first} ({prefix} a) ({prefix} b))");
                assert_eq!(statements(&reading), shape, "{prefix} {first}");
            }
        }
    }
    compare(&[
        ("not - not a", "", "(not (- (not a)))"),
        ("-a(b).c[d]", "", "(- (at (get (call a b) c) d _ _))"),
        ("not a == b", "", "(== (not a) b)"),
        ("a = b = c", "", "(= a (= b c))"),
        ("a = b or c", "", "(= a (or b c))"),
    ]);
}

/// Errors are recorded at the cursor's line; break and continue at the keyword's, "Undefined
/// statement" at that of `=`.
#[test]
fn lines_of_errors() {
    compare(&[
        ("\n\nbreak\n\n", "19@3 4@5", "break; _"),
        ("\n\ncontinue\n", "19@3", "continue"),
        ("1\n=\n2\n", "23@2 STOP", ""),
        ("a b\n\nlet\n\nlet", "4@1 5@4 STOP", "a; b"),
    ]);
}

/// Slips that are easily made when the parser is written anew, as far as another test doesn't have them.
#[test]
fn slips() {
    compare(&[
        ("a\n\n\n", "", "a; _"),
        ("a\n\n\n\n", "4@5", "a; _; _"),
        (
            "fn f() {for x in y {} break}\nbreak",
            "19@2",
            "(fn f [] [(for [x] in y (block [])); break]); break",
        ),
        ("a.\n\nb\n.c", "", "(get (get a b) c)"),
        (
            "if a {\n}\n\nelif b {\n}\n\nelse {\nc}",
            "",
            "(if a [] elif b [] else [c])",
        ),
    ]);
}
