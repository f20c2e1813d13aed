//! The looks of a reading, the calls of `check`, are those that the original's parser makes.

mod common;

use expected::scripts::{opened, opened_looks, LOOKS};
use expected::whole::Whole;
use kettleplume::border::{Answer, Parser};
use kettleplume::records::{outcome, ERROR_WORDS, INDEX_WORDS, LONGEST, NODE_WORDS, TOKEN_WORDS};
use kettleplume::{read, read_as, Error, Options, Rooms, Rule, Tables};
use oracle::{on_large_stack, Rule as Original};

const TWO: Options = Options {
    rule: Rule::Two,
    ..Options::ORIGINAL
};

/// The answers of a reading one statement at a time, the final one last.
fn one_at_a_time(options: Options, source: &[u8]) -> Vec<Answer> {
    let rooms = Rooms::enough(source.len());
    let mut tokens = vec![0; TOKEN_WORDS * rooms.tokens];
    let mut errors = vec![0; ERROR_WORDS * rooms.errors];
    let mut nodes = vec![0; NODE_WORDS * rooms.nodes];
    let mut index = vec![0; INDEX_WORDS * rooms.index];
    let mut parser = Parser::new(options);
    let answer = parser.begin(source, &mut tokens, &mut errors, &mut nodes, &mut index);
    let mut answers = vec![answer];
    while answers[answers.len() - 1].outcome == outcome::MORE {
        answers.push(parser.next(source, &mut tokens, &mut errors, &mut nodes, &mut index));
        assert_eq!(parser.looks, answers[answers.len() - 1].looks);
    }
    answers
}

#[test]
fn listed_scripts() {
    let mut tables = Tables::new();
    for (script, looks) in LOOKS {
        // By rule two the one with a digit is a name.
        let by_two = if *script == "a1" { 38 } else { *looks };
        for (options, looks) in [(Options::ORIGINAL, *looks), (TWO, by_two)] {
            let answer = tables.read_as(options, script.as_bytes()).answer;
            assert_eq!(answer.looks, looks, "{script:?}");
            let read = read_as(options, &mut tables, script);
            assert_eq!(read.looks, looks, "{script:?}");
            assert_eq!(read.into_parts().looks, looks, "{script:?}");
            let answers = one_at_a_time(options, script.as_bytes());
            assert_eq!(answers[answers.len() - 1].looks, looks, "{script:?}");
        }
    }
}

/// All scripts by rule one; `rules.rs` has them by rule two. On the new way there are as many, or none.
#[test]
fn looks_of_the_original() {
    on_large_stack(|| {
        let (mut tables, mut stopped) = (Tables::new(), 0);
        for script in common::scripts() {
            let whole = Whole::of(Original::One, &script);
            let expected = whole.within(whole.needs());
            let old = tables.read_as(Options::ORIGINAL, script.as_bytes()).answer;
            assert_eq!(old.looks, expected.looks, "{script:?}");
            let new = tables.read(script.as_bytes()).answer;
            let is_stopped = new.outcome == outcome::NOT_PARSED;
            let looks = if is_stopped { 0 } else { old.looks };
            assert_eq!(new.looks, looks, "{script:?}");
            stopped += usize::from(is_stopped && old.looks > 0);
        }
        assert!(stopped > 100, "{stopped}");
    });
}

/// One statement at a time the looks so far are told, and those of a statement that stops are the last.
#[test]
fn looks_so_far() {
    let looks = |source: &str| -> Vec<u32> {
        let answers = one_at_a_time(Options::ORIGINAL, source.as_bytes());
        answers.iter().map(|answer| answer.looks).collect()
    };
    assert_eq!(looks(""), [0]);
    assert_eq!(looks("a\nb\n"), [0, 38, 76]);
    assert_eq!(looks("a\n)\n"), [0, 38, 64]);
    assert_eq!(looks("\n\n\n"), [0, 45, 90]);
}

/// What is refused, or ends before it is parsed, has none.
#[test]
fn nothing_is_parsed() {
    let longer = vec![b'a'; LONGEST + 1];
    for (source, error) in [
        (&longer[..], Error::TooLong),
        (b"a\xff", Error::NoText),
        (b"a 1.5", Error::PointAtEnd),
        (b"a $\n", Error::NotParsed),
    ] {
        let script = read(source);
        assert_eq!((script.end, script.looks), (Err(error), 0));
        let answers = one_at_a_time(Options::default(), source);
        assert_eq!((answers.len(), answers[0].looks), (1, 0));
    }
    // Lexing alone looks for nothing.
    assert_eq!(Tables::new().scan(b"a = 1\n").answer.looks, 0);
}

/// An open block and newlines: no script is known that has more looks for its tokens.
#[test]
fn an_open_block_of_newlines() {
    let mut tables = Tables::new();
    for (newlines, tokens, looks) in [(0, 3, 83), (1, 3, 83), (2, 4, 128), (2_000, 2_002, 90_038)] {
        for options in [Options::default(), TWO] {
            let answer = tables.read_as(options, opened(newlines).as_bytes()).answer;
            assert_eq!((answer.outcome, answer.tokens), (outcome::STOPPED, tokens));
            assert_eq!((answer.looks, opened_looks(newlines)), (looks, looks));
        }
    }
}

/// The same at the greatest length.
#[test]
fn the_longest_open_block() {
    let mut tables = Tables::new();
    let answer = tables.read(opened(LONGEST - 1).as_bytes()).answer;
    assert_eq!((answer.outcome, answer.tokens), (outcome::STOPPED, 65_536));
    assert_eq!(answer.looks, 2_949_068);
}
