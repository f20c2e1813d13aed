//! The looks of a reading, the calls of `check`, as the copy of the original's parser counts them.

use expected::records::{outcome, way};
use expected::scripts::{opened, opened_looks, LOOKS};
use expected::whole::{Answer, Whole};
use oracle::Rule;

fn answer(rule: Rule, script: &str) -> Answer {
    let whole = Whole::of(rule, script);
    whole.within(whole.needs())
}

fn looks(script: &str) -> u32 {
    answer(Rule::One, script).looks
}

#[test]
fn listed_scripts() {
    for (script, count) in LOOKS {
        assert_eq!(looks(script), *count, "{script:?}");
        // By rule two the one with a digit is a name; the others are the same.
        let by_two = if *script == "a1" { 38 } else { *count };
        assert_eq!(answer(Rule::Two, script).looks, by_two, "{script:?}");
    }
}

/// What comes before an expression in a statement that is one: the tests for all other statements.
const BEFORE: u32 = 3 + 8;
/// What comes after an operand: the tests for calls, for operators of each level, and for `=`.
const BEHIND: u32 = 3 + OPERATORS + 1;
const OPERATORS: u32 = 1 + 3 + 2 + 4 + 2 + 1 + 1;
/// A prefix is tested for before an operand.
const PREFIX: u32 = 2;
/// An expression that is a name, and a statement of it without its newline test.
const NAME: u32 = PREFIX + 6 + BEHIND;
const NAMED: u32 = BEFORE + NAME;
const NEWLINE: u32 = 1;

/// Each reader of the original by itself: the sum has a number for each look, or some that stand
/// together.
#[test]
fn each_reader() {
    // The brackets of a function: the closing one is tested for, then each name and its comma, then it
    // is consumed. And a function with a name and an empty block.
    let (none, two) = (1 + 1 + 1, 1 + 1 + (2 + 2) + 1);
    let empty = 1 + none + 1 + 1;
    let cases = [
        // Literals and names, which are tested for in this order.
        ("1\n", BEFORE + PREFIX + 1 + BEHIND + NEWLINE),
        ("\"s\"\n", BEFORE + PREFIX + 2 + BEHIND + NEWLINE),
        ("false\n", BEFORE + PREFIX + 3 + BEHIND + NEWLINE),
        ("true\n", BEFORE + PREFIX + 4 + BEHIND + NEWLINE),
        ("nil\n", BEFORE + PREFIX + 5 + BEHIND + NEWLINE),
        ("a\n", BEFORE + PREFIX + 6 + BEHIND + NEWLINE),
        ("(a)\n", BEFORE + PREFIX + 7 + NAME + 1 + BEHIND + NEWLINE),
        ("this\n", BEFORE + PREFIX + 11 + BEHIND + NEWLINE),
        // A list and a call: the closing mark, each element's comma, the mark after it, the mark.
        (
            "[a, b,]\n",
            BEFORE + PREFIX + 8 + 1 + (NAME + 2) + (NAME + 2) + 1 + BEHIND + NEWLINE,
        ),
        (
            "[a]\n",
            BEFORE + PREFIX + 8 + 1 + (NAME + 1) + 1 + BEHIND + NEWLINE,
        ),
        (
            "f(a)\n",
            BEFORE + PREFIX + 6 + (1 + 1 + (NAME + 1) + 1) + BEHIND + NEWLINE,
        ),
        (
            "f()\n",
            BEFORE + PREFIX + 6 + (1 + 1 + 1) + BEHIND + NEWLINE,
        ),
        ("a.b\n", BEFORE + PREFIX + 6 + (2 + 1) + BEHIND + NEWLINE),
        // A dictionary: for each pair the brace, the colon and the comma, and the brace at the end.
        (
            "(({a: b}))\n",
            BEFORE
                + (PREFIX + 7)
                + (PREFIX + 7)
                + (PREFIX + 9 + (1 + NAME + 1 + NAME + 1) + 1 + BEHIND)
                + (1 + BEHIND)
                + (1 + BEHIND)
                + NEWLINE,
        ),
        (
            "a={a: b,}\n",
            (BEFORE + NAME) + (PREFIX + 9 + (1 + NAME + 1 + NAME + 1) + 1 + 1 + BEHIND) + NEWLINE,
        ),
        // Slices: the colons that are tested for, the brackets, and the bracket at the end.
        (
            "a[b]\n",
            BEFORE + PREFIX + 6 + 3 + (1 + NAME + 1) + 1 + BEHIND + NEWLINE,
        ),
        (
            "a[b:]\n",
            BEFORE + PREFIX + 6 + 3 + (1 + NAME + 1 + 1 + 1) + 1 + BEHIND + NEWLINE,
        ),
        (
            "a[b:c]\n",
            BEFORE + PREFIX + 6 + 3 + (1 + NAME + 1 + 1 + 1 + NAME + 1) + 1 + BEHIND + NEWLINE,
        ),
        (
            "a[b:c:]\n",
            BEFORE + PREFIX + 6 + 3 + (1 + NAME + 1 + 1 + 1 + NAME + 1 + 1) + 1 + BEHIND + NEWLINE,
        ),
        (
            "a[b::c]\n",
            BEFORE + PREFIX + 6 + 3 + (1 + NAME + 1 + 1 + NAME) + 1 + BEHIND + NEWLINE,
        ),
        (
            "a[:b:c]\n",
            BEFORE + PREFIX + 6 + 3 + (1 + 1 + NAME + 1 + NAME) + 1 + BEHIND + NEWLINE,
        ),
        (
            "a[::c]\n",
            BEFORE + PREFIX + 6 + 3 + (1 + 1 + NAME) + 1 + BEHIND + NEWLINE,
        ),
        // Operators: the tighter levels first, and after the right side those that may follow.
        (
            "a or b\n",
            BEFORE + (PREFIX + 6 + 3) + OPERATORS + (PREFIX + 6 + 3) + OPERATORS + 1 + NEWLINE,
        ),
        (
            "a ^ b\n",
            BEFORE + (PREFIX + 6 + 3) + 1 + (PREFIX + 6 + 3) + OPERATORS + 1 + NEWLINE,
        ),
        (
            "a % b\n",
            BEFORE + (PREFIX + 6 + 3) + (1 + 2) + (PREFIX + 6 + 3) + OPERATORS + 1 + NEWLINE,
        ),
        ("not a\n", BEFORE + 1 + NAME + NEWLINE),
        ("-a\n", BEFORE + 2 + NAME + NEWLINE),
        // A call of super is a call: the bracket is only tested for.
        (
            "super()\n",
            BEFORE + PREFIX + 12 + 1 + (1 + 1 + 1) + BEHIND + NEWLINE,
        ),
        ("super.m\n", BEFORE + PREFIX + 12 + 3 + BEHIND + NEWLINE),
        // Functions and classes.
        ("fn f() {}\n", 2 + empty + NEWLINE),
        ("fn f(a, b) c\n", 2 + 1 + two + 1 + NAME + NEWLINE),
        (
            "let f = fn(a, b) {}\n",
            (3 + 1 + 1) + (PREFIX + 10 + two + 1 + 1 + BEHIND) + NEWLINE,
        ),
        ("let a\n", 3 + 1 + 1 + NEWLINE),
        ("class A {}\n", 1 + 1 + 1 + 1 + (1 + 1) + NEWLINE),
        (
            "class A < B { class f() {} g() {} }\n",
            1 + 1 + (1 + 1) + 1 + (1 + 1 + empty) + (1 + 1 + empty) + (1 + 1) + NEWLINE,
        ),
        // Statements. A block has a test before each of its statements, and one at its end.
        (
            "{ a b }\n",
            BEFORE + (1 + NAMED) + (1 + NAMED) + 1 + NEWLINE,
        ),
        ("return\n", (3 + 4) + 1 + NEWLINE),
        ("return a\n", (3 + 4) + 1 + NAME + NEWLINE),
        ("while a break\n", (3 + 7) + NAME + (3 + 5) + NEWLINE),
        ("while a continue\n", (3 + 7) + NAME + (3 + 6) + NEWLINE),
        (
            "try a catch b c\n",
            (3 + 2) + NAMED + (1 + 1) + NAMED + NEWLINE,
        ),
        (
            "for a, b in c d\n",
            (3 + 1) + 1 + (2 + 2) + 1 + 1 + NAME + NAMED + NEWLINE,
        ),
        (
            "for ; a; b c\n",
            (3 + 1) + 2 + NAME + 1 + NAME + NAMED + NEWLINE,
        ),
        (
            "for let a; a; b c\n",
            (3 + 1) + 3 + (1 + 1) + 1 + NAME + 1 + NAME + NAMED + NEWLINE,
        ),
        // The block after else is closed twice: tested for, and consumed.
        (
            "if a { b } elif c { d } else { e }\n",
            (3 + 3)
                + (NAME + 1 + (1 + NAMED) + 1)
                + (1 + NAME + 1 + (1 + NAMED) + 1)
                + (1 + 1)
                + (1 + (1 + NAMED) + 1 + 1)
                + NEWLINE,
        ),
    ];
    for (script, sum) in cases {
        assert_eq!(answer(Rule::One, script).outcome, outcome::DONE);
        assert_eq!(looks(script), sum, "{script:?}");
    }
}

/// An open block and newlines: each of them is a statement of 45 looks.
#[test]
fn an_open_block_of_newlines() {
    for count in 0..60 {
        let answer = answer(Rule::One, &opened(count));
        assert_eq!(answer.outcome, outcome::STOPPED);
        assert_eq!(answer.looks, opened_looks(count), "{count} newlines");
    }
    assert_eq!(opened_looks(65_534), 2_949_068);
}

/// Where a table is too small, the looks are those before the record that finds no room.
#[test]
fn the_event_that_decides() {
    let whole = Whole::of(Rule::One, "(a b");
    let ends = |errors, nodes| {
        let answer = whole.within([5, errors, nodes, 5]);
        (answer.outcome, answer.looks)
    };
    // The name in the bracket; the bracket that isn't closed; its statement, and the newline.
    let name = BEFORE + PREFIX + 7 + PREFIX + 6;
    let bracket = BEFORE + PREFIX + 7 + NAME + 1;
    let newline = bracket + BEHIND + NEWLINE;
    assert_eq!(ends(9, 0), (outcome::NODE_ROOM, name));
    assert_eq!(ends(0, 9), (outcome::ERROR_ROOM, bracket));
    assert_eq!(ends(9, 1), (outcome::NODE_ROOM, bracket));
    assert_eq!(ends(9, 2), (outcome::NODE_ROOM, bracket + BEHIND));
    assert_eq!(ends(1, 9), (outcome::ERROR_ROOM, newline));
    let next = newline + BEFORE + PREFIX + 6;
    assert_eq!(ends(9, 3), (outcome::NODE_ROOM, next));
    assert_eq!(ends(9, 9), (outcome::DONE, newline + NAMED + NEWLINE));
}

/// A level too many: the looks before it opens.
#[test]
fn too_many_levels() {
    let answer = answer(Rule::One, &"{".repeat(129));
    assert_eq!(answer.outcome, outcome::TOO_DEEP);
    assert_eq!(answer.looks, 128 * (BEFORE + 1));
}

/// What is read one statement at a time has its looks so far before each of them. A statement that
/// stops has its looks in the final answer.
#[test]
fn looks_so_far() {
    let looks = |script| {
        let answer = answer(Rule::One, script);
        let so_far: Vec<u32> = answer.so_far.iter().map(|so_far| so_far[2]).collect();
        (so_far, answer.looks)
    };
    assert_eq!(looks(""), (vec![], 0));
    assert_eq!(looks("a\nb\n"), (vec![0, 38], 76));
    assert_eq!(looks("a\n)\n"), (vec![0, 38], 38 + 26));
    assert_eq!(looks("\n\n\n"), (vec![0, 45], 90));
}

/// What ends before parsing has none.
#[test]
fn nothing_is_parsed() {
    for (script, number, rooms, outcome) in [
        ("a $\n", way::STOP, [9; 4], outcome::NOT_PARSED),
        ("a 1.5", way::GO_ON, [9; 4], outcome::POINT_AT_END),
        ("a b\n", way::GO_ON, [3, 9, 9, 9], outcome::TOKEN_ROOM),
        ("a $\n", way::GO_ON, [9, 0, 9, 9], outcome::ERROR_ROOM),
        ("a b\n", way::GO_ON, [9, 9, 9, 3], outcome::BUFFER_ROOM),
    ] {
        let answer = Whole::of(Rule::One, script).on(number, rooms);
        assert_eq!((answer.outcome, answer.looks), (outcome, 0), "{script:?}");
    }
}
