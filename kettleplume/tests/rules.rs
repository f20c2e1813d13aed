//! The two rules of a reading: what each of them makes of a script, and which of them is taken.

mod common;

use expected::rules::Rule as Original;
use expected::whole::Whole;
use kettleplume::border::{self, Answer, Parser};
use kettleplume::lexer::Lexer;
use kettleplume::records::{outcome, rule, token};
use kettleplume::state::InterpreterState;
use kettleplume::{
    parse, read, read_as, read_state, read_state_as, read_with, scan, Error, Options, Rule, Tables,
};
use oracle::on_large_stack;

const ONE: Options = Options::ORIGINAL;
const TWO: Options = Options {
    rule: Rule::Two,
    ..Options::ORIGINAL
};

/// A script, and its answer as in an outline and its errors by each rule.
type Case = (&'static str, [([u32; 5], &'static [[u32; 3]]); 2]);

#[rustfmt::skip]
const CASES: [Case; 11] = [
    ("a1", [([0, 4, 1, 4, 2], &[[4, 1, 1]]), ([0, 3, 0, 2, 2], &[])]),
    ("1a\n", [([0, 4, 1, 4, 2], &[[4, 1, 1]]); 2]),
    ("if2 = 3\n", [([1, 6, 1, 0, 0], &[[23, 1, 4]]), ([0, 5, 0, 4, 4], &[])]),
    ("a1.5\n", [([0, 4, 1, 4, 2], &[[4, 1, 1]]), ([1, 5, 1, 0, 0], &[[25, 1, 3]])]),
    ("1.5", [([2, 0, 0, 0, 0], &[]), ([0, 3, 0, 2, 2], &[])]),
    ("1.", [([2, 0, 0, 0, 0], &[]), ([0, 3, 0, 2, 2], &[])]),
    ("a = 1.5", [([2, 2, 0, 0, 0], &[]), ([0, 5, 0, 4, 4], &[])]),
    ("for x in y {}\nbreak\n", [([0, 10, 0, 5, 4], &[]), ([0, 10, 1, 5, 4], &[[19, 2, 14]])]),
    ("for x1 in y2 {}\n", [([1, 10, 2, 0, 0], &[[17, 1, 5], [28, 1, 7]]), ([0, 8, 0, 4, 4], &[])]),
    ("while a { for x in y {} break }\n", [([0, 13, 0, 8, 8], &[]); 2]),
    ("fn f() { for x in y {} }\nbreak\n", [([0, 16, 1, 6, 5], &[[19, 2, 25]]); 2]),
];

fn numbers(a: Answer) -> [u32; 5] {
    [a.outcome, a.tokens, a.errors, a.nodes, a.first]
}

#[test]
fn answers_by_both_rules() {
    let mut tables = Tables::new();
    for (script, answers) in CASES {
        let source = script.as_bytes();
        for (options, (answer, errors)) in [ONE, TWO].into_iter().zip(answers) {
            let records = tables.read_as(options, source);
            let read = (numbers(records.answer), records.errors);
            assert_eq!(read, (answer, errors), "{script:?}, {options:?}");
        }
    }
    let tokens = tables.scan_as(TWO, b"a1").tokens.iter().map(token::shown);
    let shown: Vec<_> = tokens.collect();
    assert_eq!(shown, [[25, 0, 2, 1, 1], [1, 2, 0, 1, 1], [0, 2, 0, 1, 1]]);
}

/// What isn't told a rule reads by rule one.
#[test]
fn rule_one_is_taken_if_nothing_is_said() {
    assert_eq!(Rule::default(), Rule::One);
    assert_eq!(
        [Rule::One, Rule::Two].map(Rule::number),
        [rule::ONE, rule::TWO]
    );
    let mut tables = Tables::new();
    let first = |tokens: &[kettleplume::token::TokenData]| tokens[0].lexeme.clone();
    assert_eq!(first(&read("a1").tokens), "a");
    assert_eq!(first(&read_with(&mut tables, "a1").tokens), "a");
    assert_eq!(tables.read(b"a1").tokens.len(), 4);
    assert_eq!(tables.scan(b"a1").tokens.len(), 4);
    let lexed: fn(&mut InterpreterState) -> Result<(), Error> = |state| {
        Lexer::new(state).scan();
        Ok(())
    };
    for lex in [lexed, scan, read_state] {
        let mut state = InterpreterState::new("a1".to_string());
        assert_eq!(lex(&mut state), Ok(()));
        assert_eq!(
            (first(&state.tokens), state.tokens.len()),
            ("a".to_string(), 4)
        );
    }
    // The original's parser is by rule one, so what rule two lexed isn't its source's.
    let mut state = InterpreterState::new("a1".to_string());
    assert_eq!(read_state_as(TWO, &mut state), Ok(()));
    assert_eq!(parse(&mut state), Err(Error::OtherTokens));
}

/// By rule two a script is read as the original reads it with that rule's lines changed, in one call and
/// statement by statement.
#[test]
fn scripts_by_rule_two() {
    on_large_stack(|| {
        let mut tables = Tables::new();
        let (mut count, mut differ) = (0, 0);
        for script in common::scripts() {
            let whole = Whole::of(Original::Two, &script);
            let expected = whole.within(whole.needs());
            let records = tables.read_as(TWO, script.as_bytes());
            assert_ne!(records.answer.outcome, outcome::POINT_AT_END, "{script:?}");
            assert_eq!(records.answer.outcome, expected.outcome, "{script:?}");
            assert_eq!(records.answer.looks, expected.looks, "{script:?}");
            assert_eq!(records.tokens, expected.tokens, "{script:?}");
            assert_eq!(records.errors, expected.errors, "{script:?}");
            assert_eq!(records.nodes, expected.nodes, "{script:?}");
            let answer = records.answer;
            assert_eq!(one_at_a_time(TWO, script.as_bytes()), answer, "{script:?}");
            count += 1;
            differ += usize::from(tables.read_as(ONE, script.as_bytes()).answer != answer);
        }
        assert!(count > 6_000 && differ > 500, "{count} {differ}");
    });
}

/// Reads statement by statement, in tables that are large enough, and gives the final answer.
fn one_at_a_time(options: Options, source: &[u8]) -> Answer {
    let rooms = kettleplume::Rooms::enough(source.len());
    let mut tokens = vec![0; kettleplume::tables::TOKEN_WORDS * rooms.tokens];
    let mut errors = vec![0; kettleplume::tables::ERROR_WORDS * rooms.errors];
    let mut nodes = vec![0; kettleplume::tables::NODE_WORDS * rooms.nodes];
    let mut index = vec![0; kettleplume::tables::INDEX_WORDS * rooms.index];
    let mut parser = Parser::new(options);
    let mut answer = parser.begin(source, &mut tokens, &mut errors, &mut nodes, &mut index);
    while answer.outcome == outcome::MORE {
        answer = parser.next(source, &mut tokens, &mut errors, &mut nodes, &mut index);
    }
    answer
}

/// The crate's values have the rule's tokens: names with digits, and a number that ends the script.
#[test]
fn values_by_rule_two() {
    let script = read_as(TWO, &mut Tables::new(), "stop_8 = flute4 + 2.");
    assert_eq!((script.end, script.errors.len()), (Ok(()), 0));
    let words: Vec<&str> = script.tokens.iter().map(|t| t.lexeme.as_str()).collect();
    assert_eq!(words, ["stop_8", "=", "flute4", "+", "2.", "", ""]);
    assert_eq!(script.stmts.len(), 1);
    let end = read("stop = 2.").end;
    assert_eq!(end, Err(Error::PointAtEnd));
}

/// A state that has tokens already is read by the rule too.
#[test]
fn states_that_have_tokens() {
    for (options, words) in [(ONE, ["a", "1"]), (TWO, ["a1", ""])] {
        let mut fresh = InterpreterState::new("a1".to_string());
        assert_eq!(read_state_as(options, &mut fresh), Ok(()));
        let shown: Vec<&str> = fresh.tokens.iter().map(|t| t.lexeme.as_str()).collect();
        assert_eq!(shown[..2], words);

        // Lexed once more, they stand there twice; the parser looks no further than the first EOF.
        let (tokens, stmts) = (fresh.tokens.len(), fresh.stmts.len());
        assert_eq!(read_state_as(options, &mut fresh), Ok(()));
        assert!(fresh.tokens.len() > tokens);
        assert_eq!(fresh.stmts.len(), 2 * stmts);
    }
}

/// A number that names no rule is refused; the crate's own calls can't be given one.
#[test]
fn numbers_that_name_no_rule() {
    for rule in expected::rules::WRONG {
        let answer = border::read(rule, 0, b"a\n", &mut [], &mut [], &mut [], &mut []);
        let error = Error::of(answer.outcome);
        assert_eq!(error, Some(Error::WrongRule));
        let refused = Answer {
            outcome: outcome::WRONG_RULE,
            ..Answer::default()
        };
        assert_eq!(answer, refused);
    }
}
