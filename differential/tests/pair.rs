//! One statement at a time. Every reading of `read.rs` compares that the calls come to the whole reading.
//! Here are parsers and tables that no call left.

use differential::lent::{damaged, Lent, KINDS, READ};
use expected::records::outcome::{DONE, MISMATCH, MORE, STOPPED, WRONG_RULE};
use expected::records::{kind, message, ERROR_WORDS, TOKEN_WORDS, WIDTHS};
use expected::whole::with_index;
use kettleplume::border::{Answer, Parser};
use kettleplume::Options;

#[test]
fn any_parser_and_any_tables_get_an_answer() {
    let counts = damaged(500_000, 1).unwrap_or_else(|what| panic!("{what}"));
    for outcome in READ.into_iter().chain([MISMATCH, WRONG_RULE]) {
        assert!(
            counts.contains_key(&outcome),
            "no {outcome} among {counts:?}"
        );
    }
}

/// What begin leaves of a source in tables with these rooms, and an index with the tokens' room.
fn begun(source: &[u8], rooms: [usize; 3]) -> Lent {
    let rooms = with_index(rooms);
    let words = [0, 1, 2, 3].map(|table| WIDTHS[table] * rooms[table]);
    Lent::begun(Parser::new(Options::ORIGINAL), source, words, 7, 0)
}

/// A parser that nothing was begun with.
#[test]
fn zeros_are_refused() {
    let mut lent = begun(b"a\n", [3, 1, 2]);
    lent.parser = Parser::default();
    let before = lent.clone();
    let refusal = Answer {
        outcome: MISMATCH,
        ..Answer::default()
    };
    assert_eq!(lent.next(), refusal);
    assert_eq!(lent, before);
}

/// Each condition by itself, and the same just within.
#[test]
fn each_condition_is_asked() {
    type Change = fn(&mut Lent);
    let refused: [Change; 10] = [
        |l| l.parser.tokens += 1,
        |l| l.parser.errors = 2,
        |l| l.parser.nodes = 5,
        |l| l.parser.last = 5,
        |l| l.parser.current = 5,
        |l| l.parser.loops = 6,
        |l| l.tokens[TOKEN_WORDS * 4] = 1,
        |l| l.tokens[TOKEN_WORDS * 2] = 0,
        |l| l.tokens.truncate(TOKEN_WORDS * 5 - 1),
        |l| l.index.truncate(4),
    ];
    let read: [Change; 11] = [
        |l| l.parser.errors = 1,
        |l| l.parser.last = 4,
        |l| l.parser.loops = 5,
        |l| l.parser.first = u32::MAX,
        |l| l.parser.outcome = 77,
        |l| l.parser.way = 0,
        |l| l.parser.rule = 2,
        |l| l.parser.looks = u32::MAX,
        |l| l.index.push(7),
        |l| l.index.fill(0),
        |l| l.index.fill(u32::MAX),
    ];
    let ruleless: [Change; 3] = [
        |l| l.parser.rule = 0,
        |l| l.parser.rule = 3,
        |l| l.parser.rule = u32::MAX,
    ];
    for (changes, outcome) in [
        (&refused[..], MISMATCH),
        (&ruleless[..], WRONG_RULE),
        (&read[..], DONE),
    ] {
        for (index, change) in changes.iter().enumerate() {
            let mut lent = begun(b"a = 1\n", [5, 1, 4]);
            assert_eq!(lent.parser.outcome, MORE);
            change(&mut lent);
            let before = lent.clone();
            let answer = lent.next();
            assert_eq!(answer.outcome, outcome, "change {index}");
            assert_eq!(lent == before, outcome != DONE, "change {index}");
        }
    }
}

/// A read adds its looks to the parser's. A count that a word can't hold stays at the greatest; what is
/// refused has none, and begin starts anew.
#[test]
fn looks_are_carried_on() {
    const MOST: u32 = u32::MAX;
    for (before, after) in [
        (0, 59),
        (1, 60),
        (77, 136),
        (MOST - 60, MOST - 1),
        (MOST - 59, MOST),
        (MOST - 58, MOST),
        (MOST, MOST),
    ] {
        let mut lent = begun(b"a = 1\n", [5, 1, 4]);
        assert_eq!(lent.parser.looks, 0);
        lent.parser.looks = before;
        let mut refused = lent.clone();
        refused.parser.current = 5;
        assert_eq!(refused.next().looks, 0);
        assert_eq!(refused.parser.looks, before);

        let answer = lent.next();
        assert_eq!((answer.outcome, answer.looks), (DONE, after));
        assert_eq!(lent.next(), answer);
        assert_eq!(lent.parser.looks, after);
        assert_eq!(lent.begin().looks, 0);
    }
}

/// From a Newline a read goes on where the lent word leads, if that is not back. With any word the read
/// comes to its end, and it leaves the index as it is.
#[test]
fn any_word_is_followed_forwards() {
    // The tokens are a bracket, a Newline, two names, a bracket, a Newline and EOF. Where no expression
    // begins at the place that the word leads to, the Newline is one itself.
    let (source, right) = (b"(\na b)\n", [1, 3, 3, 4, 5, 7, 7]);
    let (name, empty) = (|token| [kind::VAR, token], [kind::EMPTY, 0]);
    for (word, first, outcome, messages) in [
        (3, name(3), MORE, &[12, message::NEW_LINE][..]),
        (4, name(4), DONE, &[]),
        (0, empty, MORE, &[12, message::NEW_LINE]),
        (1, empty, MORE, &[12, message::NEW_LINE]),
        (2, empty, MORE, &[12, message::NEW_LINE]),
        (5, empty, MORE, &[12, message::NEW_LINE]),
        (7, empty, MORE, &[12, message::NEW_LINE]),
        (8, empty, MORE, &[12, message::NEW_LINE]),
        (u32::MAX, empty, MORE, &[12, message::NEW_LINE]),
    ] {
        let mut lent = begun(source, [7, 9, 9]);
        assert_eq!(lent.index, right);
        lent.index[1] = word;
        let index = lent.index.clone();
        let answer = lent.next();
        let all: Vec<u32> = lent.errors.chunks(ERROR_WORDS).map(|e| e[0]).collect();
        assert_eq!(all[..answer.errors as usize], *messages, "{word}");
        assert_eq!(
            (answer.outcome, &lent.nodes[..2]),
            (outcome, &first[..]),
            "{word}"
        );
        assert_eq!(lent.index, index);
    }
}

/// 18 comes before 13, and the final answer before both.
#[test]
fn what_is_asked_first() {
    let mut lent = begun(b"a\n", [3, 1, 2]);
    (lent.parser.rule, lent.parser.current) = (0, 3);
    assert_eq!(lent.next().outcome, MISMATCH);
    lent.parser.ended = 1;
    lent.parser.outcome = 77;
    assert_eq!(lent.next().outcome, 77);
}

/// Where the rule is changed between two calls, the loop count is what the last call left, and each read
/// gives back what its own rule says.
#[test]
fn a_rule_is_each_reads_own() {
    // By rule one the loop stays open, by rule two the second one is left.
    for (rules, loops) in [
        ([1, 1], [1, 2]),
        ([1, 2], [1, 1]),
        ([2, 1], [0, 1]),
        ([2, 2], [0, 0]),
    ] {
        let mut lent = begun(b"for a in b {}\nfor a in b {}\nc\n", [17, 1, 12]);
        for (rule, count) in rules.into_iter().zip(loops) {
            lent.parser.rule = rule;
            assert_eq!(lent.next().outcome, MORE);
            assert_eq!(lent.parser.loops, count, "{rules:?}");
        }
    }
}

/// A kind that no token has matches nothing: no expression begins with it, and no newline is one.
#[test]
fn kinds_that_no_token_has_match_nothing() {
    for kind in [KINDS as u32, KINDS as u32 + 1, 255, 256, u32::MAX] {
        let mut lent = begun(b"a\n", [3, 2, 4]);
        lent.tokens[0] = kind;
        let answer = lent.next();
        assert_eq!(
            (answer.outcome, answer.errors, answer.nodes),
            (STOPPED, 1, 0)
        );
        assert_eq!(lent.errors[..ERROR_WORDS], [message::EXPRESSION, 1, 0]);

        let mut lent = begun(b"a\n", [3, 2, 4]);
        lent.tokens[TOKEN_WORDS] = kind;
        let answer = lent.next();
        assert_eq!((answer.outcome, answer.errors, answer.nodes), (MORE, 1, 2));
        assert_eq!(lent.errors[..ERROR_WORDS], [message::NEW_LINE, 2, 1]);
    }
}
