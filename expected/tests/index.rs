//! The newline index: a word for each token, the reference of the first token from there on that is no
//! Newline; and outcome 10, where it is too short.

use expected::records::{outcome, token, way};
use expected::scripts::{around, ruled, INDEXED, LISTED, MISLEXED, WAYS};
use expected::whole::{index, Answer, Whole};
use oracle::{on_large_stack, Rule};

const NEWLINE: u32 = oracle::token::Token::Newline as u32;
const EOF: u32 = oracle::token::Token::EOF as u32;

/// A script on the old way with room enough.
fn answer(rule: Rule, script: &str) -> Answer {
    let whole = Whole::of(rule, script);
    whole.within(whole.needs())
}

#[test]
fn words_of_some_scripts() {
    for (script, words) in [
        ("", &[1][..]),
        ("\n", &[2, 2]),
        ("\n\n\n", &[4; 4]),
        ("a", &[1, 3, 3]),
        ("a\n", &[1, 3, 3]),
        ("a\n\nb", &[1, 4, 4, 4, 6, 6]),
        ("\n\na\n\n", &[3, 3, 3, 6, 6, 6]),
        ("a = 1\n", &[1, 2, 3, 5, 5]),
        // Parsing that stops leaves the whole index.
        (")\n\na", &[1, 4, 4, 4, 6, 6]),
        // A newline in a string or after a comment is none, or a token of its own.
        ("\"a\n\nb\"\n", &[1, 3, 3]),
        ("# a\n\nb", &[3, 3, 3, 5, 5]),
        // Parsing isn't reached.
        ("a 1.5", &[]),
    ] {
        assert_eq!(answer(Rule::One, script).index, words, "{script:?}");
    }
}

/// Each word by its meaning: it leads over Newlines alone to a token that is none, which EOF never is.
#[test]
fn words_mean_what_they_should() {
    let deep = WAYS
        .iter()
        .map(|&(open, most, inner, close)| around(open, most, inner, close));
    let listed = LISTED.into_iter().chain([MISLEXED]).flatten();
    let listed = listed.map(|script| script.to_string());
    let mut passed = 0;
    for script in listed.chain(ruled()).chain(deep) {
        on_large_stack(|| {
            for rule in Rule::BOTH {
                let Answer {
                    outcome,
                    tokens,
                    index,
                    ..
                } = answer(rule, &script);
                let parsed = !matches!(outcome, outcome::POINT_AT_END);
                assert_eq!(index.len(), if parsed { tokens.len() } else { 0 });
                let kind = |at: usize| tokens[at][token::KIND];
                for (at, word) in index.into_iter().enumerate() {
                    let to = word as usize - 1;
                    assert!(at <= to && kind(to) != NEWLINE, "{script:?}");
                    assert!((at..to).all(|line| kind(line) == NEWLINE), "{script:?}");
                    passed += to - at;
                }
                assert!(!parsed || kind(tokens.len() - 1) == EOF);
            }
        });
    }
    assert!(passed > 500, "{passed}");
}

#[test]
fn very_many_newlines() {
    let (lexing, _) = expected::lexing::Lexing::of(Rule::One, &"\n".repeat(65_535));
    assert_eq!(index(&lexing.tokens), [65_536; 65_536]);
}

#[test]
fn listed_rooms() {
    for &(script, outcomes, rooms, kept) in INDEXED {
        for (at, number) in [way::STOP, way::GO_ON].into_iter().enumerate() {
            for rule in Rule::BOTH {
                let answer = Whole::of(rule, script).on(number, rooms);
                let is_two = rule == Rule::Two && outcomes[at] == outcome::POINT_AT_END;
                // Rule two reads on, and there is no room for the number.
                let outcome = if is_two {
                    outcome::TOKEN_ROOM
                } else {
                    outcomes[at]
                };
                assert_eq!(answer.outcome, outcome, "{script:?} in {rooms:?}");
                let counts = [answer.tokens.len(), answer.errors.len(), answer.statements];
                assert_eq!(counts, kept[at], "{script:?} in {rooms:?}");
                let parsed = matches!(outcome, 0 | 1 | 6..=8) && rooms[3] >= rooms[0];
                assert_eq!(answer.index.is_empty(), !parsed, "{script:?} in {rooms:?}");
            }
        }
    }
}

/// One word less than there are tokens is too few, whatever else would come of parsing; lexing's own ends
/// come before.
#[test]
fn one_word_too_few() {
    let mut refused = 0;
    for script in LISTED.into_iter().flatten() {
        for rule in Rule::BOTH {
            let whole = Whole::of(rule, script);
            let [tokens, errors, nodes, words] = whole.needs();
            let enough = whole.within([tokens, errors, nodes, words]);
            for room in 0..words {
                let answer = whole.within([tokens, errors, nodes, room]);
                let expected = Answer {
                    outcome: outcome::BUFFER_ROOM,
                    tokens: enough.tokens.clone(),
                    errors: whole.lexing.errors.clone(),
                    ..Answer::default()
                };
                assert_eq!(answer, expected, "{script:?}");
                refused += 1;
            }
            assert_eq!(whole.within([tokens, errors, nodes, words + 3]), enough);
        }
    }
    assert!(refused > 1_000, "{refused}");
}
