//! The stand-ins for the original's lexer and parser leave a state as the original does, and panic
//! where it panics.

mod common;

use std::cell::Cell;
use std::panic::{self, AssertUnwindSafe};
use std::sync::Once;

use expected::whole::Whole;
use kettleplume::lexer::Lexer;
use kettleplume::parser::Parser;
use kettleplume::state::{InterpreterError, InterpreterState};
use kettleplume::{parse, read_state, read_state_as, scan, Error, Options, Tables};
use oracle::state::InterpreterState as Original;
use oracle::{on_large_stack, Reading, Rule, Stop};

/// The way of the original.
const GOING_ON: Options = Options::ORIGINAL;

thread_local! {
    /// Whether this thread waits for a panic.
    static WAITING: Cell<bool> = const { Cell::new(false) };
}

/// Runs something that may panic: with which words, if it does. They aren't printed.
fn panics(f: impl FnOnce()) -> Option<String> {
    static DONE: Once = Once::new();
    DONE.call_once(|| {
        let usual = panic::take_hook();
        panic::set_hook(Box::new(move |info| {
            if !WAITING.get() {
                usual(info);
            }
        }));
    });
    WAITING.set(true);
    let outcome = panic::catch_unwind(AssertUnwindSafe(f));
    WAITING.set(false);
    let payload = outcome.err()?;
    let text = payload.downcast_ref::<&str>().map(|text| text.to_string());
    text.or_else(|| payload.downcast_ref::<String>().cloned())
        .or(Some(String::new()))
}

fn fresh(script: &str) -> InterpreterState {
    InterpreterState::new(script.to_string())
}

/// The state that the original leaves, but that the parser's errors have places.
fn left_by_the_original(script: &str, reading: &Reading) -> String {
    let mut state = Original {
        source: script.to_string(),
        tokens: reading.tokens.clone(),
        errors: reading.errors.clone(),
        stmts: reading.stmts.clone(),
    };
    for (error, [_, _, pos]) in state
        .errors
        .iter_mut()
        .zip(Whole::of(Rule::One, script).errors())
    {
        error.pos = *pos as usize;
    }
    format!("{state:?}")
}

/// The error that stands for a stop of the original's.
fn stopped(stop: Stop) -> Option<Error> {
    match stop {
        Stop::None => None,
        Stop::Lexing => Some(Error::PointAtEnd),
        Stop::Parsing => Some(Error::Stopped),
    }
}

/// Lexes and parses one after the other, and holds the state against the original's each time.
fn compare(script: &str) {
    let (lexed, read) = (oracle::lex(script), oracle::read(script));
    let (after_scan, after_parse) = (
        left_by_the_original(script, &lexed),
        left_by_the_original(script, &read),
    );
    let words = |stop| stopped(stop).map(|error| error.to_string());

    let mut state = fresh(script);
    let panic = panics(|| Lexer::new(&mut state).scan());
    assert_eq!(panic, words(lexed.stop), "{script:?}");
    assert_eq!(format!("{state:?}"), after_scan);
    if lexed.stop == Stop::None {
        let panic = panics(|| Parser::new(&mut state).parse());
        assert_eq!(panic, words(read.stop), "{script:?}");
        assert_eq!(format!("{state:?}"), after_parse);
    }

    let mut state = fresh(script);
    let ended = scan(&mut state);
    assert_eq!(ended.err(), stopped(lexed.stop), "{script:?}");
    assert_eq!(format!("{state:?}"), after_scan);
    assert_eq!(parse(&mut state).err(), stopped(read.stop), "{script:?}");
    assert_eq!(format!("{state:?}"), after_parse);

    let mut state = fresh(script);
    let ended = read_state_as(GOING_ON, &mut state);
    assert_eq!(ended.err(), stopped(read.stop), "{script:?}");
    assert_eq!(format!("{state:?}"), after_parse);

    // The new way stops after the lexer, or is the same.
    let mut state = fresh(script);
    let ended = read_state(&mut state);
    let stops = lexed.stop == Stop::None && !lexed.errors.is_empty();
    let (end, left) = match stops {
        true => (Some(Error::NotParsed), after_scan),
        false => (stopped(read.stop), after_parse),
    };
    assert_eq!(ended.err(), end, "{script:?}");
    assert_eq!(format!("{state:?}"), left);
}

#[test]
fn states_are_left_as_the_original_leaves_them() {
    on_large_stack(|| {
        let mut count = 0;
        for script in common::scripts() {
            // The original has no limit of levels.
            let read = kettleplume::read_as(GOING_ON, &mut Tables::new(), &script);
            if read.end != Err(Error::TooDeep) {
                compare(&script);
                count += 1;
            }
        }
        assert!(count > 6_000, "{count}");
    });
}

/// What this crate refuses and the original doesn't: a panic with the error in words.
#[test]
fn refusals_panic() {
    let deep = "a\n".to_string() + &"{".repeat(129);
    let mut state = fresh(&deep);
    assert_eq!(scan(&mut state), Ok(()));
    let panic = panics(|| Parser::new(&mut state).parse());
    assert_eq!(panic, Some(Error::TooDeep.to_string()));
    assert_eq!(state.stmts.len(), 1);

    let mut state = fresh(&" ".repeat(65_536));
    let mut lexer = Lexer::new(&mut state);
    for _ in 0..2 {
        let panic = panics(|| lexer.scan());
        assert_eq!(panic, Some(Error::TooLong.to_string()));
    }
    assert!(state.tokens.is_empty());
    let panic = panics(|| Parser::new(&mut state).parse());
    assert_eq!(panic, Some(Error::TooLong.to_string()));
}

/// Tokens that someone changed are not read as what the source says, nor is the source read in their
/// place.
#[test]
fn other_tokens_are_refused() {
    let changes: [fn(&mut InterpreterState); 7] = [
        |state| state.tokens.clear(),
        |state| drop(state.tokens.pop()),
        |state| drop(state.tokens.remove(0)),
        |state| state.tokens[0].lexeme = "b".to_string(),
        |state| state.tokens[2].literal = None,
        |state| state.tokens[1].line = 7,
        |state| state.source = "a = 2\n".to_string(),
    ];
    for (number, change) in changes.into_iter().enumerate() {
        let mut state = fresh("a = 1\n");
        assert_eq!(scan(&mut state), Ok(()));
        change(&mut state);
        let before = format!("{state:?}");
        assert_eq!(parse(&mut state), Err(Error::OtherTokens), "{number}");
        let panic = panics(|| Parser::new(&mut state).parse());
        assert_eq!(panic, Some(Error::OtherTokens.to_string()), "{number}");
        assert_eq!(format!("{state:?}"), before, "{number}");
    }
}

/// The same steps with the original's types and with this crate's leave the same state.
macro_rules! both {
    ($state:ident => $steps:block) => {{
        let ours = {
            // Not all steps need both.
            #[allow(unused_imports)]
            use kettleplume::{lexer::Lexer, parser::Parser};
            let mut $state = kettleplume::state::InterpreterState::new(String::new());
            $steps
            format!("{:?}", $state)
        };
        let original = {
            #[allow(unused_imports)]
            use oracle::{lexer::Lexer, parser::Parser};
            let mut $state = oracle::state::InterpreterState::new(String::new());
            $steps
            format!("{:?}", $state)
        };
        assert_eq!(ours, original);
    }};
}

const SOURCES: [&str; 9] = [
    "",
    "a",
    "a\n",
    "!",
    "# c",
    "\n\n",
    "\"\n",
    "a = 1\nb\n",
    "class A {}\n",
];

/// A state that isn't fresh: what is read comes after what is there.
#[test]
fn a_second_source_in_a_state() {
    for (first, second) in SOURCES.iter().flat_map(|a| SOURCES.map(|b| (a, b))) {
        both!(state => {
            state.source = first.to_string();
            Lexer::new(&mut state).scan();
            state.source = second.to_string();
            Lexer::new(&mut state).scan();
        });
    }
}

/// A lexer and a parser that are asked once more.
#[test]
fn asked_twice() {
    for source in SOURCES {
        both!(state => {
            state.source = source.to_string();
            let mut lexer = Lexer::new(&mut state);
            lexer.scan();
            lexer.scan();
            // The tokens after the first EOF are never looked at.
            let mut parser = Parser::new(&mut state);
            parser.parse();
            let current = parser.current;
            parser.parse();
            assert_eq!((parser.current, parser.cls.len()), (current, 0));
            parser.state.source.push_str(&current.to_string());
        });
    }
}

/// A lexer that is asked once more after it panicked closes the tokens.
#[test]
fn asked_after_a_panic() {
    for source in ["1.5", "a\n1.", "\"\n\" 1.5", "\"\n\\q 1.5", "!\n\n2."] {
        both!(state => {
            state.source = source.to_string();
            let mut lexer = Lexer::new(&mut state);
            assert!(panics(|| lexer.scan()).is_some());
            lexer.scan();
        });
    }
}

/// A parser that is asked once more after a stop has nothing to go on with.
#[test]
fn a_parser_goes_on_nowhere() {
    let mut state = fresh("a\n)\nb\n");
    assert_eq!(scan(&mut state), Ok(()));
    let mut parser = Parser::new(&mut state);
    let stop = panics(|| parser.parse());
    assert_eq!(stop, Some(Error::Stopped.to_string()));
    assert!(panics(|| parser.parse()).is_some());
    parser.current = 2;
    assert!(panics(|| parser.parse()).is_some());
    assert_eq!((state.stmts.len(), state.errors.len()), (1, 1));
}

/// Errors and statements that are there already stay where they are.
#[test]
fn what_is_there_already_stays() {
    let mut state = fresh("a\n");
    state.set_error(InterpreterError {
        message: "mine".to_string(),
        line: 1,
        pos: 2,
    });
    assert_eq!(read_state(&mut state), Ok(()));
    assert_eq!((state.errors.len(), state.stmts.len()), (1, 1));
    assert_eq!(parse(&mut state), Ok(()));
    assert_eq!((state.errors.len(), state.stmts.len()), (1, 2));
    assert_eq!(state.errors[0].message, "mine");
}
