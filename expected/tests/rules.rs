//! Both rules: what is expected of scripts in which they differ, and of numbers that name no rule.

use expected::dice::Dice;
use expected::lex_scripts::any_script;
use expected::lexing::{expect, Lexing, LONGEST};
use expected::maker::Maker;
use expected::mixed_dice;
use expected::records::{outcome, rule, token, Error};
use expected::rules::{named, number, Rule, WRONG};
use expected::scripts::{ruled, RULED_SMALL};
use expected::whole::{known, with_index, Answer, Known, Whole};
use oracle::on_large_stack;

/// The answer to a reading with room enough, on the old way.
fn answer(rule: Rule, script: &str) -> Answer {
    let whole = Whole::of(rule, script);
    whole.within(whole.needs())
}

/// Its five numbers and its errors.
fn read(rule: Rule, script: &str) -> ([u32; 5], Vec<Error>) {
    let answer = answer(rule, script);
    let counts = [answer.tokens.len(), answer.errors.len(), answer.nodes.len()];
    let [tokens, errors, nodes] = counts.map(|n| n as u32);
    let head = [answer.outcome, tokens, errors, nodes, answer.first];
    (head, answer.errors)
}

#[test]
fn the_scripts_of_the_request() {
    type Wanted = ([u32; 5], &'static [Error]);
    let cases: [(&str, [Wanted; 2]); 9] = [
        (
            "a1",
            [([0, 4, 1, 4, 2], &[[4, 1, 1]]), ([0, 3, 0, 2, 2], &[])],
        ),
        ("1a\n", [([0, 4, 1, 4, 2], &[[4, 1, 1]]); 2]),
        (
            "if2 = 3\n",
            [([1, 6, 1, 0, 0], &[[23, 1, 4]]), ([0, 5, 0, 4, 4], &[])],
        ),
        (
            "a1.5\n",
            [
                ([0, 4, 1, 4, 2], &[[4, 1, 1]]),
                ([1, 5, 1, 0, 0], &[[25, 1, 3]]),
            ],
        ),
        ("1.5", [([2, 0, 0, 0, 0], &[]), ([0, 3, 0, 2, 2], &[])]),
        ("1.", [([2, 0, 0, 0, 0], &[]), ([0, 3, 0, 2, 2], &[])]),
        ("a = 1.5", [([2, 2, 0, 0, 0], &[]), ([0, 5, 0, 4, 4], &[])]),
        (
            "for x in y {}\nbreak\n",
            [([0, 10, 0, 5, 4], &[]), ([0, 10, 1, 5, 4], &[[19, 2, 14]])],
        ),
        (
            "for x1 in y2 {}\n",
            [
                ([1, 10, 2, 0, 0], &[[17, 1, 5], [28, 1, 7]]),
                ([0, 8, 0, 4, 4], &[]),
            ],
        ),
    ];
    for (script, wanted) in cases {
        for (rule, (head, errors)) in Rule::BOTH.into_iter().zip(wanted) {
            assert_eq!(read(rule, script), (head, errors.to_vec()), "{script:?}");
        }
    }
    for rule in Rule::BOTH {
        let (_, errors) = read(rule, "while a { for x in y {} break }\n");
        assert_eq!(errors, [[0; 3]; 0]);
        let (_, errors) = read(rule, "fn f() { for x in y {} }\nbreak\n");
        assert_eq!(errors, [[19, 2, 25]]);
    }
    let tokens = answer(Rule::Two, "a1").tokens;
    let shown: Vec<_> = tokens.iter().map(token::shown).collect();
    assert_eq!(shown, [[25, 0, 2, 1, 1], [1, 2, 0, 1, 1], [0, 2, 0, 1, 1]]);
}

#[test]
fn small_tables() {
    for &(script, outcome, rooms, kept) in RULED_SMALL {
        let answer = Whole::of(Rule::Two, script).within(with_index(rooms));
        let [tokens, errors, statements] = kept;
        assert_eq!(answer.outcome, outcome, "{script:?}");
        let counts = [answer.tokens.len(), answer.errors.len(), answer.statements];
        assert_eq!(counts, [tokens, errors, statements], "{script:?}");
    }
}

/// 13 comes before 4, which comes before 3.
#[test]
fn numbers_that_name_no_rule() {
    let long = vec![0xff; LONGEST + 1];
    for source in [&b""[..], b"a", b"\xff", &long] {
        for rule in WRONG {
            assert_eq!(named(rule), None);
            let Known::Refused(outcome) = known(rule, source) else {
                panic!("rule {rule}");
            };
            assert_eq!(outcome, outcome::WRONG_RULE);
            assert_eq!(expect(rule, source).0.outcome, outcome::WRONG_RULE);
        }
    }
    for rule in [rule::ONE, rule::TWO] {
        assert_eq!(named(rule).map(number), Some(rule));
        assert_eq!(expect(rule, &long).0.outcome, outcome::TOO_LONG);
        assert_eq!(expect(rule, &long[1..]).0.outcome, outcome::NO_TEXT);
    }
}

/// What is made at random meets each of the points in which the rules differ.
#[test]
fn random_scripts_tell_the_rules_apart() {
    let mut maker = Maker {
        dice: Dice::new(20_261_121),
    };
    let [mut lexed, mut ended, mut looped, mut shared] = [0; 4];
    on_large_stack(|| {
        for _ in 0..4_000 {
            let script = maker.text();
            let [one, two] = Rule::BOTH.map(|rule| answer(rule, &script));
            if Whole::of(Rule::One, &script).is_rule_twos(&script) {
                assert_eq!(one, two, "{script:?}");
                shared += 1;
            }
            if one.outcome == outcome::POINT_AT_END {
                ended += 1;
            } else if one.tokens != two.tokens {
                lexed += 1;
            } else if one.errors != two.errors {
                looped += 1;
            }
        }
    });
    let found = (lexed, ended, looped, shared);
    assert!(lexed > 200 && ended > 100, "{found:?}");
    assert!(looped > 30 && shared > 1_000, "{found:?}");

    let mut dice = mixed_dice::Dice::new(7);
    let [mut lexed, mut ended] = [0; 2];
    for _ in 0..4_000 {
        let script = String::from_utf8(any_script(&mut dice)).expect("pieces are text");
        let [one, two] = Rule::BOTH.map(|rule| Lexing::of(rule, &script).0);
        assert_ne!(two.outcome, outcome::POINT_AT_END, "{script:?}");
        ended += u64::from(one.outcome == outcome::POINT_AT_END);
        lexed += u64::from(one.outcome == two.outcome && one.tokens != two.tokens);
    }
    assert!(lexed > 400 && ended > 100, "{lexed}, {ended}");
}

/// In most of the listed ones they differ.
#[test]
fn listed_scripts_tell_the_rules_apart() {
    let differs = |script: &String| answer(Rule::One, script) != answer(Rule::Two, script);
    let (all, differ) = (ruled().count(), ruled().filter(differs).count());
    assert!(all > 90 && differ > all / 2, "{differ} of {all}");
}
