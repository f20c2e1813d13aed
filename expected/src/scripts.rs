//! Scripts that each show something: those on each side of a line (`docs/RULES.md`, 'Parsing'), each form
//! of statement and expression, each message, newlines, left sides of `=`, small tables, both rules and
//! levels.

/// An inner text in a number of brackets.
pub fn around(open: &str, count: usize, inner: &str, close: &str) -> String {
    open.repeat(count) + inner + &close.repeat(count)
}

/// A number of names, with commas between them.
pub fn many(count: usize) -> String {
    vec!["a"; count].join(",")
}

/// The bytes of a script in which a character stands for a byte.
pub fn bytes(text: &str) -> Vec<u8> {
    let byte = |c| u8::try_from(u32::from(c)).expect("a byte");
    text.chars().map(byte).collect()
}

/// The scripts that `docs/RULES.md`, 'Parsing', marks *.
pub const STARS: &[&str] = &[
    "", "\n", "\n\n", "a\n\n", "a1", "2^3^2", "-2^2", "a\n(b)", "1.5", "1.5\n", "{return}", "1=2",
    "break", "\"\\q\"",
];

/// Others on each side of a line, save for those of counts and levels, and the worked example of an outline.
pub const UNSTARRED: &[&str] = &[
    "while y {}\nbreak",
    "for x in y {}\nbreak",
    "a[1:]",
    "a[1:2:]",
    "a[:]",
    "a[1::]",
    "a = 1\n",
];

/// Each form of statement and expression.
pub const WORKED: &[&str] = &[
    "class A < B { f(a, b) { this.x = a } class g() A() h() this.x class i() a }\n",
    "class A {}\n",
    "fn f(a, b) {\n  return a\n}\n",
    "fn f() a\n",
    "let f = fn(a, b) { return a\n }\n",
    "f(fn() a)\n",
    "let a\nlet b = a\n",
    "for let i = 0; i < 9; i = i + 1 { continue }\n",
    "for ; a; b c\n",
    "for k, v in d { break }\n",
    "while a { break\n continue }\n",
    "try { f() } catch e { g(e) }\n",
    "try a catch b c\n",
    "if a { b } elif c { d } elif e {} else { f g }\n",
    "if a {} else {}\n",
    "return a\nreturn\n",
    "{ a b {} }\n",
    "[1, \"x\", true, false, nil,]\n",
    "a = [[], [b]]\n",
    "a = {b: 1, \"c\": {},}\n",
    "f()(1, 2).a.b(c,)\n",
    "a[1]\na[1:]\na[1:2]\na[1:2:]\n",
    "a[1:2:3]\na[:2]\na[:2:3]\n",
    "a[::3]\na[1::3]\n",
    "a = b = 1\na.b = 1\n",
    "a[1] = 2\na[1][2] = 3\n",
    "a.b[1:2] = 3\na[1].b[2] = 3\n",
    "super.m()\nsuper(a)\nthis\n",
    "not a\n- - a\nnot - not a\n",
    "a or b and c == d != e > f >= g\n",
    "a < b <= c + d - e / f % g * h ^ i ^ -j\n",
    "a ^ b * c + d <= e != f and g or h\n",
];

/// Each message, save for 10 and 27.
pub const MESSAGES: &[&str] = &[
    "! a ?\n\u{c3}\u{a9} \"b",
    "a b c",
    "class {}",
    "class A < {}",
    "let 1",
    "a\ntry b catch 1",
    "super.1",
    "class A f() a }",
    "if a b }",
    "if a {} elif b c }",
    "if a {} else b }",
    "class A { f()",
    "fn 1",
    "class A { fn f() a }",
    "class A { class class f() a }",
    "fn f a) b",
    "fn f(1) a",
    "fn f(a, ) b",
    "(a b",
    "fn f(a {}",
    "let f = fn(a b",
    "let f = fn a) b",
    "let f = fn(1) a",
    "for let i = 0 a; b c",
    "for ; a b c",
    "for [] ; a {}",
    "for 1; a; b c",
    "for a b {}",
    "for a; b; c {}",
    "for x y z in w {}",
    "for x,, y in w {}",
    "try a b c",
    "continue",
    "while y {}\nbreak",
    "for x in y {}\nbreak",
    "fn f() { for x in y {} }\nbreak",
    "while a { fn f() { break } break }",
    "for ; a; b {}\nbreak",
    "[1",
    "[1 2]",
    "a\nb = {c: 1",
    "a = {b 1}",
    "a = {",
    "a[1 b",
    "a[1",
    "a[1:",
    "a.1",
    "f(a b)",
    "f(",
    ")",
    "a\nb\n)\nc",
    "a[:]",
    "a[1::]",
    "{a",
    "super a",
    "super",
];

/// Newlines, which most tests pass and some don't.
pub const NEWLINES: &[&str] = &[
    "a\n+ b\n",
    "\n.b",
    "\n[1]",
    "\n+ 1",
    "\n= 1",
    "a =\n",
    "let a =\n",
    "a\n\n\nb\n\n\n",
    "{\n\na\n\n}\n",
    "{\n\n.a}",
    "a[\n1\n:\n]",
    "a[\n]",
    "a[\n:\n:\n1]",
    "a[:\n]",
    "a[1:\n)",
    "a[1::\n]",
    "a[1:2:\n]",
    "a[:1:\n]",
    "a[1:2:\n)",
    "if a {}\n\nelif b {}\n\nelse\n{\n}\n",
    "class A\n<\nB\n{\n}\n",
    "class A {\n",
    "return\na",
    "return -\n",
    "for\na\nin\nb\nc",
    "for\n;\na\n;\nb\nc",
    "super\n(a)",
    "super\n.a",
    "f(\n)\n(\n\n)",
    "f(a,\n)",
    "f(\n,a)",
    "(\n)",
    "[\n\n]\n",
    "[a\n,\n\n]\n",
    "a = {\n",
    "a = {\nb\n:\nc\n,\n}",
    "a\n= 1",
    "not\n",
    "while a\n\nb",
    "fn f(\na\n,\nb\n)\n{\n}",
    "fn f()\n\n",
    "try\n{}\ncatch\na\n{}",
    "break\n\n",
    "# a\na # b\n",
    "\"a\nb\" c\nd",
];

/// What may stand left of `=`.
pub const LEFT_OF_EQUAL: &[&str] = &[
    "1 = 2 = 3",
    "(a) = 1",
    "-a = 1",
    "a + b = 1",
    "a() = 1",
    "a()[1] = 1",
    "a().b = 1",
    "[1][2] = 3",
    "this = 1",
    "this.a = 1",
    "super.a = 1",
    "a.b.c = d.e",
    "a = 1 = 2",
    "a[b = 1][c.d = 2] = 3",
    "a.b()[1].c[2][3:4] = d = e",
    "a[1] = )",
    "\n[1] = 2",
];

/// Tables that are too small, too many levels, and what is no text. Here and below, where no room of a
/// newline index is named, it is that of the tokens.
pub const SMALL: &[(&str, u32, [usize; 3], [usize; 3])] = &[
    ("a b", 5, [2, 0, 0], [2, 0, 0]),
    ("a", 5, [2, 0, 0], [2, 0, 0]),
    ("! b", 5, [1, 1, 1], [1, 1, 0]),
    ("!", 6, [2, 0, 2], [0, 0, 0]),
    ("! a !", 6, [4, 1, 2], [1, 1, 0]),
    ("a1", 6, [4, 0, 9], [4, 0, 0]),
    ("a\nb\nc d", 6, [8, 0, 9], [8, 0, 2]),
    ("break", 6, [3, 0, 9], [3, 0, 0]),
    (")", 6, [3, 0, 9], [3, 0, 0]),
    ("let 1", 6, [4, 0, 9], [4, 0, 0]),
    ("(a b", 6, [5, 0, 1], [5, 0, 0]),
    ("(a b", 7, [5, 1, 1], [5, 1, 0]),
    ("(a b", 6, [5, 1, 3], [5, 1, 0]),
    ("(a b", 7, [5, 2, 3], [5, 2, 1]),
    ("a[1 b", 6, [6, 0, 2], [6, 0, 0]),
    ("a[1 b", 7, [6, 1, 2], [6, 1, 0]),
    ("a", 7, [3, 0, 0], [3, 0, 0]),
    ("a", 7, [3, 0, 1], [3, 0, 0]),
    ("a\nb\nc", 7, [7, 0, 5], [7, 0, 2]),
    ("a\nb\nc", 7, [7, 0, 4], [7, 0, 2]),
    ("a\nb\nc", 7, [7, 0, 3], [7, 0, 1]),
    ("a = 1", 7, [5, 0, 2], [5, 0, 0]),
    ("fn f(a) b", 7, [9, 0, 3], [8, 0, 0]),
    ("\u{c1}\u{80}", 3, [3, 3, 3], [0, 0, 0]),
    ("#\u{ed}\u{a0}\u{80}\n", 3, [3, 3, 3], [0, 0, 0]),
];

/// The lists so far: scripts that are read with room enough.
pub const LISTED: [&[&str]; 6] = [STARS, UNSTARRED, WORKED, MESSAGES, NEWLINES, LEFT_OF_EQUAL];

/// A block that isn't closed, with so many newlines in it: no script is known that has more looks for its
/// tokens.
pub fn opened(newlines: usize) -> String {
    "{".to_string() + &"\n".repeat(newlines)
}

/// How many looks that has: each newline is a statement of 45. Where there is none, one is added.
pub fn opened_looks(newlines: usize) -> u32 {
    38 + 45 * newlines.max(1) as u32
}

/// How many looks a reading by rule one makes on the old way, with room enough.
pub const LOOKS: &[(&str, u32)] = &[
    ("", 0),
    ("\n", 45),
    ("\n\n", 45),
    ("a\n", 38),
    ("a = 1\n", 59),
    ("a\n\n\n\nb\n", 76),
    ("a1", 71),
    (")", 26),        // stops
    ("{return}", 35), // stops
    ("1=2", 53),      // stops
    ("{", 83),        // stops
    ("2^3^2", 47),
    ("-2^2", 42),
    ("a+b*c\n", 69),
    ("a.b\n", 41),
    ("a[1:2:3]\n", 111),
    ("if a {}\n", 37),
    ("if a {} else {}\n", 40),
    ("for x in y {}\n", 48),
    ("class A { f() {} }\n", 15),
    ("break", 9),
    ("x={1:2}\n", 113),
];

/// Scripts whose lexing records errors, and some whose lexing doesn't, or ends before its end: what the
/// two ways of a reading make of them.
pub const MISLEXED: &[&str] = &[
    "a \"b\n",
    "\"\\q\"",
    "a $ b )\n",
    "a = 1\n",
    "!",
    "",
    "@ 1.5",
    "a b\n!",
    "let stop = \"Salicional\nlet pitch = 8\n",
];

/// The same with tables that lexing or parsing find too small: the script, how it ends on the new way and
/// on the old one, the rooms for tokens, errors and nodes, and how many of the tokens, errors and
/// statements are kept on each.
#[allow(clippy::type_complexity)]
pub const MISLEXED_SMALL: &[(&str, [u32; 2], [usize; 3], [[usize; 3]; 2])] = &[
    // Lexing finds no room: both ways are the same.
    ("$ a b", [5, 5], [1, 9, 9], [[1, 1, 0]; 2]),
    ("a $ $", [6, 6], [9, 1, 9], [[1, 1, 0]; 2]),
    // Only parsing would find none.
    ("a $ b", [11, 6], [4, 1, 9], [[4, 1, 0]; 2]),
    ("a $ b", [11, 7], [4, 2, 0], [[4, 1, 0]; 2]),
    ("a\n$ b", [11, 7], [5, 1, 2], [[5, 1, 0], [5, 1, 1]]),
];

/// Newline indices that are too short, or just not: the script, how it ends on the new way and on the old
/// one, the rooms for tokens, errors, nodes and index words, and how many of the tokens, errors and
/// statements are kept on each.
#[allow(clippy::type_complexity)]
pub const INDEXED: &[(&str, [u32; 2], [usize; 4], [[usize; 3]; 2])] = &[
    ("a\n", [10, 10], [3, 0, 2, 2], [[3, 0, 0]; 2]),
    ("a\n", [0, 0], [3, 0, 2, 3], [[3, 0, 1]; 2]),
    ("a\n\nb", [10, 10], [6, 0, 4, 5], [[6, 0, 0]; 2]),
    ("a\n\nb", [0, 0], [6, 0, 4, 9], [[6, 0, 2]; 2]),
    ("", [10, 10], [1, 0, 0, 0], [[1, 0, 0]; 2]),
    ("", [0, 0], [1, 0, 0, 1], [[1, 0, 0]; 2]),
    // Errors of lexing come before the index.
    ("a @\n", [11, 10], [3, 1, 2, 0], [[3, 1, 0]; 2]),
    ("a @\n", [11, 10], [3, 1, 2, 2], [[3, 1, 0]; 2]),
    ("a @\n", [11, 0], [3, 1, 2, 3], [[3, 1, 0], [3, 1, 1]]),
    // So does what ends lexing.
    ("a @\n", [6, 6], [3, 0, 2, 0], [[1, 0, 0]; 2]),
    ("a\n", [5, 5], [2, 0, 2, 1], [[2, 0, 0]; 2]),
    ("a\n1.5", [2, 2], [2, 0, 2, 0], [[2, 0, 0]; 2]),
    // Parsing comes after it.
    (")", [10, 10], [3, 0, 0, 2], [[3, 0, 0]; 2]),
    (")", [6, 6], [3, 0, 0, 3], [[3, 0, 0]; 2]),
    (")", [1, 1], [3, 1, 0, 3], [[3, 1, 0]; 2]),
    ("\n\na", [10, 10], [5, 0, 0, 4], [[5, 0, 0]; 2]),
    ("\n\na", [7, 7], [5, 0, 0, 5], [[5, 0, 0]; 2]),
];

/// Scripts in which the rules differ, or might: names, numbers at the end, and what stands in and after
/// an enhanced for. A character is a byte.
pub const RULED: &[&str] = &[
    "a1",
    "_1",
    "1a\n",
    "a1b2 = 3",
    "1e5",
    "1.5a",
    "a1.5\n",
    "a.b1.c2",
    "if2 = 3\n",
    "nil0",
    "\u{c3}\u{a9}1",
    "for x1 in y2 {}\n",
    "1.5",
    "1.",
    "a = 1.5",
    "a = [1.5",
    "1..5",
    "\"1.5",
    "for x in y {}\nbreak\n",
    "for x in y for z in w {}\ncontinue",
    "while a { for x in y {} break }\n",
    "for ; a; b { for x in y {} break }",
    "fn f() { for x in y {} }\nbreak\n",
    "for x in y {\n",
];

/// Further ones.
pub const MORE_RULED: &[&str] = &[
    // Names, and what is none.
    "x_9",
    "A0 = z9\n",
    "__1__",
    "a9_9",
    "9a9a9",
    "a1 b2 c3\n",
    "for1",
    "for1 = 2\n",
    "true1 false0 in2\n",
    "not1",
    "if 2 {}\n",
    "classic9(a0)",
    "class A1 < B2 { m3(p4) this.x5 class s6() a7 }\n",
    "let a1 = 2\n",
    "fn f1(a1, b2) { return a1 + b2 }\n",
    "let f = fn(a1) a1\n",
    "try a1 catch e2 b3\n",
    "super.m1(a2)\n",
    "this.a1[b2:c3] = d4\n",
    "a1!",
    "a1\"b",
    "a1#b2",
    "1\u{c3}\u{a9}",
    "a1\u{c3}\u{a9}",
    "1_000",
    "1.a",
    "1.e5\n",
    // Numbers with a point, at the end and before it.
    "0.5",
    "00.",
    "-1.",
    "(1.",
    "{1.5",
    "f(1.5",
    "a[1.",
    "1.5.",
    "1.5.2",
    "1..",
    "1...",
    "a1.",
    "a1.5",
    "1.5 ",
    "1.#",
    "! 1.",
    "@ 1.5",
    "\"a\" 1.5",
    "\"\\q\" 1.",
    "9007199254740993.",
    "0.00000000000000000000001",
    // Loops.
    "for x in y {}\nfor z in w {}\nbreak",
    "for x in y { break }\ncontinue",
    "for x in y break\nbreak",
    "for x in y { for z in w {} break }\nbreak",
    "while a for x in y {}\nbreak",
    "while a { for x in y {} }\nbreak",
    "for x in y while a {}\nbreak",
    "for x in y for ; a; b {}\nbreak",
    "for ; a; b for x in y {}\nbreak",
    "fn f() { for x in y {} break }",
    "let f = fn() { for x in y {} }\nbreak",
    "for x in y fn f() { break }",
    "for x in y { fn f() { for z in w {} break } break }\nbreak",
    "for x in fn() { for z in w {} break } {}\nbreak",
    "if a { for x in y {} } else { break }\n",
    "try for x in y {} catch e break\n",
    "for x in y )",
    "for x in y { 1=2 }\nbreak",
    "for x y\nbreak",
    "for x in y a b\nbreak\n",
];

/// All of them, and long names with digits.
pub fn ruled() -> impl Iterator<Item = String> {
    let listed = RULED.iter().chain(MORE_RULED).map(|text| text.to_string());
    let digits = "7".repeat(299);
    let names = [
        format!("_{digits}"),
        format!("if{digits}\n"),
        format!("{}_{digits}Z", "a".repeat(150)),
        "a".repeat(299) + "1 = 2\n",
        format!("a{digits}.5"),
    ];
    listed.chain(names)
}

/// Rule two in tables that are too small: how it ends, the rooms for tokens, errors and nodes, and how
/// many of the tokens, errors and statements are kept.
pub const RULED_SMALL: &[(&str, u32, [usize; 3], [usize; 3])] = &[
    ("1.5", 5, [0, 0, 0], [0, 0, 0]),
    ("1.5", 5, [2, 0, 0], [2, 0, 0]),
    ("a1", 7, [3, 0, 1], [3, 0, 0]),
    ("for x in y {}\nbreak", 6, [10, 0, 5], [10, 0, 1]),
];

/// Ways to open levels, with the most that are read: what opens one, how often, what stands
/// inside, what closes it.
pub const WAYS: &[(&str, usize, &str, &str)] = &[
    ("(", 126, "a", ")"),
    ("{", 128, "", "}"),
    ("-", 126, "a", ""),
    ("a=", 126, "1", ""),
];

/// Further ways.
pub const MORE_WAYS: &[(&str, usize, &str, &str)] = &[
    ("[", 127, "", "]"),
    ("f(", 127, "", ")"),
    ("a[", 126, "1", "]"),
    ("not ", 126, "a", ""),
    ("while a ", 126, "b", ""),
    ("for a in b ", 126, "c", ""),
    ("if a {", 127, "", "}"),
    ("if a {} else {", 127, "", "}"),
    ("try {} catch a ", 126, "b", ""),
    ("fn f() {", 128, "", "}"),
];
