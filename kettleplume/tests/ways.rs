//! The two ways of a reading: whether statements are read where the lexer recorded errors.

mod common;

use kettleplume::border::{self, Answer, Parser};
use kettleplume::records::{outcome, rule, way, ERROR_WORDS, NODE_WORDS, TOKEN_WORDS};
use kettleplume::state::InterpreterState;
use kettleplume::{read, read_as, read_state, scan, Error, Options, Rule, Tables, Way};

const STOPPING: Options = Options {
    rule: Rule::One,
    way: Way::Stop,
};
const GOING_ON: Options = Options::ORIGINAL;

/// A script, its answer as in an outline on the new way and on the old one, and how many of the old
/// way's errors are the lexer's.
type Case = (&'static str, [u32; 5], [u32; 5], usize);

#[rustfmt::skip]
const CASES: [Case; 8] = [
    ("a \"b\n", [11, 3, 1, 0, 0], [0, 3, 1, 2, 2], 1),
    ("\"\\q\"", [11, 1, 2, 0, 0], [0, 1, 2, 0, 0], 2),
    ("a $ b )\n", [11, 5, 1, 0, 0], [1, 5, 4, 4, 2], 1),
    ("a = 1\n", [0, 5, 0, 4, 4], [0, 5, 0, 4, 4], 0),
    // Nothing is left to be parsed, and what the parser finds is no reason to stop.
    ("!", [11, 1, 1, 0, 0], [0, 1, 1, 0, 0], 1),
    ("a b\n", [0, 4, 1, 4, 2], [0, 4, 1, 4, 2], 0),
    // The lexer doesn't come to its end: then that is the answer.
    ("@ 1.5", [2, 0, 1, 0, 0], [2, 0, 1, 0, 0], 1),
    ("", [0, 1, 0, 0, 0], [0, 1, 0, 0, 0], 0),
];

fn numbers(a: Answer) -> [u32; 5] {
    [a.outcome, a.tokens, a.errors, a.nodes, a.first]
}

#[test]
fn answers_on_both_ways() {
    let mut tables = Tables::new();
    for (script, new, old, lexers) in CASES {
        let source = script.as_bytes();
        assert_eq!(numbers(tables.read(source).answer), new, "{script:?}");
        let kept = tables.read(source).errors.to_vec();
        let stopping = tables.read_as(STOPPING, source);
        assert_eq!(
            (numbers(stopping.answer), stopping.errors),
            (new, &kept[..])
        );
        let going = tables.read_as(GOING_ON, source);
        assert_eq!(numbers(going.answer), old, "{script:?}");
        assert_eq!(kept[..lexers], going.errors[..lexers], "{script:?}");
        if new[0] == outcome::NOT_PARSED {
            assert_eq!(kept.len(), lexers, "{script:?}");
        }
    }
}

/// 11 leaves what the lexer left, a node table of zeros, and every other word as it was; for the pair it
/// is a final answer. It comes before 10, so that the newline index may be too short.
#[test]
fn what_is_left_without_parsing() {
    let source = b"a $ b )\n";
    let tables = || {
        (
            [7; TOKEN_WORDS * 6],
            [7; ERROR_WORDS * 3],
            [7; NODE_WORDS * 2 + 3],
            [7; 4],
        )
    };
    let (mut tokens, mut errors, mut nodes, mut index) = tables();
    let answer = border::read(
        rule::ONE,
        way::STOP,
        source,
        &mut tokens,
        &mut errors,
        &mut nodes,
        &mut index,
    );
    assert_eq!((numbers(answer), answer.looks), ([11, 5, 1, 0, 0], 0));
    let (mut lexed_tokens, mut lexed_errors, ..) = tables();
    border::scan(rule::ONE, source, &mut lexed_tokens, &mut lexed_errors);
    assert_eq!((tokens, errors), (lexed_tokens, lexed_errors));
    assert_eq!(
        (&tokens[TOKEN_WORDS * 5..], &errors[ERROR_WORDS..]),
        (&[7; 8][..], &[7; 6][..])
    );
    assert!(nodes.iter().all(|word| *word == 0));
    assert_eq!(index, [7; 4]);

    let (mut tokens, mut errors, mut nodes, mut index) = tables();
    let mut parser = Parser::new(STOPPING);
    assert_eq!(
        parser.begin(source, &mut tokens, &mut errors, &mut nodes, &mut index),
        answer
    );
    assert_eq!((parser.ended, parser.outcome, parser.way), (1, 11, 0));
    let left = (parser, tokens, errors, nodes, index);
    assert_eq!(
        parser.next(source, &mut tokens, &mut errors, &mut nodes, &mut index),
        answer
    );
    assert_eq!((parser, tokens, errors, nodes, index), left);
}

/// Without an error of the lexer all is the same on both ways; with one there is what it left, and no more.
#[test]
fn scripts_on_both_ways() {
    let (mut tables, mut stopped, mut same) = (Tables::new(), 0, 0);
    for script in common::scripts() {
        let new = read(&script);
        let old = read_as(GOING_ON, &mut tables, &script);
        if new.end != Err(Error::NotParsed) {
            // Trees are printed by recursion.
            let shown =
                |s: &kettleplume::Script| (s.end, s.tokens.len(), s.errors.clone(), s.stmts.len());
            assert_eq!(shown(&new), shown(&old), "{script:?}");
            let words = |tables: &mut Tables, options| {
                let records = tables.read_as(options, script.as_bytes());
                (
                    records.answer,
                    records.tokens.to_vec(),
                    records.errors.to_vec(),
                    records.nodes.to_vec(),
                )
            };
            assert_eq!(
                words(&mut tables, STOPPING),
                words(&mut tables, GOING_ON),
                "{script:?}"
            );
            same += 1;
            continue;
        }
        let mut state = InterpreterState::new(script.clone());
        assert_eq!(scan(&mut state), Ok(()));
        assert!(
            !state.errors.is_empty() && new.stmts.is_empty(),
            "{script:?}"
        );
        assert_eq!(format!("{:?}", new.tokens), format!("{:?}", state.tokens));
        assert_eq!(new.errors[..], old.errors[..state.errors.len()]);
        assert_eq!(new.errors.len(), state.errors.len());
        stopped += 1;
    }
    assert!(stopped > 500 && same > 5_000, "{stopped} {same}");
}

/// A state that has tokens already: its errors are no reason to stop, only new ones of the lexer's.
#[test]
fn states_that_have_tokens() {
    let mut state = InterpreterState::new("a $\n".to_string());
    assert_eq!(scan(&mut state), Ok(()));
    assert_eq!(state.errors.len(), 1);
    assert_eq!(read_state(&mut state), Err(Error::NotParsed));
    assert_eq!((state.errors.len(), state.stmts.len()), (2, 0));
    state.source = "b\n".to_string();
    state.tokens.clear();
    assert_eq!(read_state(&mut state), Ok(()));
    assert_eq!((state.errors.len(), state.stmts.len()), (2, 1));
}
