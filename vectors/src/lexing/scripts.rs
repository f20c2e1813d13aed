//! The scripts that are lexed.

use crate::leaves::keywords::KEYWORDS;
use crate::leaves::numbers::TEXTS;
use crate::leaves::strings::{BROKEN, CLOSED};

/// The marks, in the order of their kinds.
const MARKS: [&str; 23] = [
    "(", ")", "[", "]", "}", "{", ",", ".", "-", "+", "/", "%", "*", "^", ":", ";", "!=", "=",
    "==", ">", ">=", "<", "<=",
];

/// All scripts that are not random and pass the text test.
pub fn fixed() -> Vec<Vec<u8>> {
    let mut scripts: Vec<Vec<u8>> = OF_THE_RULES.iter().map(|s| s.as_bytes().to_vec()).collect();
    scripts.extend(sized());
    scripts.extend(RULES.iter().map(|s| s.as_bytes().to_vec()));
    scripts.extend((0..=0x7f).map(|byte| vec![byte]));
    for group in [marks(), keywords(), numbers(), strings()] {
        scripts.extend(group.into_iter().map(String::into_bytes));
    }
    scripts
}

/// Scripts that rule two might read differently: those about the lexer's rules, keywords, single bytes
/// and numbers.
pub fn about_rule_two() -> Vec<Vec<u8>> {
    let mut scripts: Vec<Vec<u8>> = RULES.iter().map(|s| s.as_bytes().to_vec()).collect();
    scripts.extend((0..=0x7f).flat_map(|byte| [vec![b'a', byte, b'1'], vec![b'1', byte]]));
    for group in [keywords(), numbers()] {
        scripts.extend(group.into_iter().map(String::into_bytes));
    }
    scripts
}

/// Each mark alone, twice, before `=` and between other tokens.
fn marks() -> Vec<String> {
    let forms = |m: &&str| {
        [
            m.to_string(),
            m.repeat(2),
            format!("{m}="),
            format!("a{m}1\n"),
        ]
    };
    MARKS.iter().flat_map(forms).collect()
}

/// Each keyword alone, as a part of a name, before a digit, and between other tokens.
fn keywords() -> Vec<String> {
    let forms = |w: &&str| {
        [
            w.to_string(),
            format!("{w}_ a{w}\n"),
            format!("{w}1"),
            format!("a {w}\nb"),
        ]
    };
    KEYWORDS.iter().flat_map(forms).collect()
}

/// Numbers on both sides of each bound, at the end and before other bytes.
fn numbers() -> Vec<String> {
    let forms = |t: &str| [t.to_string(), format!("{t}\n"), format!("-{t};")];
    TEXTS.split_whitespace().flat_map(forms).collect()
}

/// Strings, closed and broken, at the start and inside a script.
fn strings() -> Vec<String> {
    let forms = |s: &&str| [s.to_string(), format!("a = {s}\n")];
    CLOSED.iter().chain(&BROKEN).flat_map(forms).collect()
}

/// Scripts on each side of a line (`docs/RULES.md`, 'Parsing') and others like them, save for those with a
/// count.
const OF_THE_RULES: [&str; 33] = [
    "",
    "\n",
    "\n\n",
    "a\n\n",
    "a1",
    "2^3^2",
    "-2^2",
    "a\n(b)",
    "1.5",
    "1.5\n",
    "{return}",
    "1=2",
    "break",
    "while y {}\nbreak",
    "for x in y {}\nbreak",
    r#""\q""#,
    "a[1:]",
    "a[1:2:]",
    "a[:]",
    "a[1::]",
    "a = 1\n",
    "a\n\n\n",
    "a\n\n\n\n",
    "\"\\\nb\n",
    "\"\n\\\nb\n",
    "fn f() {for x in y {} break}\nbreak",
    "if a {\n}\n\nelif b {\n}\n\nelse {\nc}",
    "a.\n\nb\n.c",
    "class A < B { f(a, b) { return super.f(a) + this.c } class g() {} }\n",
    "try { let x = nil } catch e { continue }",
    "for let i = 0; i <= 10; i = i + 1 { a[i] = {\"k\": [1, true, false]} }",
    "not a and b or c != d\n# the end",
    "let f = fn (x) -x % 2 >= 0.5\nf(1)\n",
];

/// Those with a count (`docs/RULES.md`, 'Levels'): parameters, arguments and brackets.
fn sized() -> Vec<Vec<u8>> {
    let names = |n: usize| vec!["a"; n].join(",");
    let brackets = |n: usize| format!("{}a{}", "(".repeat(n), ")".repeat(n));
    [
        format!("fn f({}){{}}", names(256)),
        format!("fn f({}){{}}", names(257)),
        format!("f({})", names(255)),
        format!("f({})", names(256)),
        brackets(126),
        brackets(127),
    ]
    .map(String::into_bytes)
    .to_vec()
}

/// Scripts at the edges of rules 1 to 7 (`docs/RULES.md`, 'Lexing'), and where the original surprises.
const RULES: [&str; 107] = [
    // Rule 1: lines.
    "a\nb\n",
    "a\r\nb\r\n",
    "\n\n\na",
    "\"a\nb\"\nc",
    "\"\n\n\" \"\n\"\n",
    "a \"\n\" b\nc",
    "\n!\n?\n\"",
    "\"\n\n",
    "\"a\nb\\q\nc\" d\n",
    "a\n\n b",
    // Rule 2: blanks and comments.
    " ",
    " \t\r",
    " a\tb\rc ",
    "# a",
    "#\n",
    "# a\n# b\n",
    "a # b\nc",
    "a#b\n#",
    "# é \" ! 1. \\",
    "a # \"\n\"b\"",
    "\t# a\r\nb",
    "##\n##",
    // Rule 3: names.
    "_",
    "__a_B",
    "azAZ_",
    "a1b2",
    "1a",
    "a_1",
    "aé",
    "éa",
    "@A[Z`a{z",
    "fnfn fn fn",
    "If iF IF",
    "thisthis.this",
    "true false nil",
    // Rule 4: numbers.
    "12",
    "1.5 ",
    "1.;",
    "1..2",
    "1..2.",
    "1...",
    "1.a",
    "1.5.2",
    "1.5.2.",
    "1.5.2.5",
    ".5",
    ".5.",
    "1 .5",
    "1. 5",
    "1.e5\n",
    "1e5",
    "1_000",
    "a 1.",
    "a ! 1.25",
    "1.5\"",
    "1.5#",
    "1.5é",
    "a.1.2\n",
    "0 00 0.0 00.00 ",
    "1.0000000000000000 0.00000000000000000000000 ",
    "00000000000000000000000000000001.5 ",
    "0.1 0.2 0.3 1.1 3.14 2.718281828459045 ",
    "123456789012345678901234567890 ",
    "0.12345678901234567890123 ",
    // Rule 5: strings and escapes.
    r#""\n\r\t\\\"" "\\" "\"""#,
    r#""\"#,
    r#""a\"#,
    r#"\"#,
    r#"\""#,
    r#"\"a""#,
    r#""a" "b""#,
    r#""a""b""""#,
    r#""\q" a" b"#,
    r#""\q\q" a"#,
    r#""\é" a"#,
    r#""é\€" a"#,
    r#""😀\😀""#,
    r#""\N\0\x41\u""#,
    "\"\\\n\n\\\n\" a\n",
    "\"\\\r\n\" a",
    "\"\n\\",
    "\"#\" # \"",
    "'a'",
    "\"\u{0}\u{7f}\u{b}\u{c}\"",
    // Rule 6: marks and illegal bytes.
    "===",
    "====",
    "!==",
    "!!=",
    "! =",
    "!\n=",
    "<==>=",
    "<=>",
    "=<=!",
    "a!b",
    "é",
    "€",
    "😀",
    "aé€😀b",
    "@$&|~`'?\\",
    "a\u{0}b\u{7f}c\u{b}d\u{c}e",
    "\u{feff}a",
    // Rule 7: the closing Newline.
    "a ",
    "a\n ",
    "a\n# b",
    "a?",
    "a\n?",
    "?\n!",
];

/// Sources that fail the text test, at the end, at the front, in a string and in a comment; then
/// those that the Standard's table alone keeps out: surrogates, overlong forms and numbers that are
/// too large.
pub const NO_TEXTS: [&[u8]; 24] = [
    b"\x80",
    b"\xff",
    b"\xc1\x80",
    b"\xf5\x80\x80\x80",
    b"a\xc3",
    b"a = 1\n\xe2\x82",
    b"\xf0\x9f\x98",
    b"\xc3a",
    b"\"\xbf\"",
    b"\"a\\\xc3\"",
    b"# \xc0\x80",
    b"1.\xff",
    b"\xe2\x28\xa1",
    b"a\xc3\xa9\xa9",
    b"\xed\xa0\x80",
    b"\xe0\x80\x80",
    b"\xf0\x80\x80\x80",
    b"\xf4\x90\x80\x80",
    b"a\xed\xbf\xbfb\n",
    b"# \xed\xa0\x80\na",
    b"\"\xe0\x9f\xbf\\n\xc3\xa9\"",
    b"\"\xf4\xbf\xbf\xbf\" a",
    b"\"\\\xed\xa0\x80\" a",
    b"\"\xf0\x8f\xbf\xbf\\q\xe0\x80\x80\"",
];

/// Scripts whose tables are made short: tokens only, errors only, both in either order, nothing,
/// and a number that the end cuts.
pub const FOR_SHORT_TABLES: [&str; 9] = [
    "",
    "a",
    "a = 1\n",
    "!?",
    "a ! b ? c",
    "? a ! \"\\q\" \"x\"\n",
    "a\n\"b",
    "1.5",
    "a ! \"\n\" ? 2.5",
];

/// The same for rule two: a name with a digit, and numbers that would cut rule one's lexing.
pub const FOR_SHORT_TABLES_BY_TWO: [&str; 4] = ["a1", "1.5", "2.", "a1 ! \"\n\" ? 2.5"];

/// The pieces of random scripts. Digits after letters are among what comes of them.
pub const PIECES: [&[u8]; 48] = [
    b"a",
    b"_b",
    b"and",
    b"class",
    b"else",
    b"fn",
    b"in",
    b"while",
    b"catch",
    b"nil",
    b"0",
    b"12",
    b"1.5",
    b"3.",
    b"0.1",
    b"9007199254740993",
    b"\"\"",
    b"\"s\\t\"",
    b"\"\n\"",
    b"\"\xc3\xa9\\\\\"",
    b"\"",
    b"\\",
    b"\\q",
    b"\\n",
    b"\\\n",
    b"\n",
    b"\n",
    b" ",
    b" ",
    b"\t",
    b"\r\n",
    b"# c\n",
    b"#",
    b"!",
    b"=",
    b"<",
    b">",
    b".",
    b"(",
    b")",
    b"[",
    b"{",
    b"}",
    b",",
    b"^",
    b"?",
    b"\xc3\xa9",
    b"\xf0\x9f\x98\x80",
];
