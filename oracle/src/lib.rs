//! The oracle: Grotsky's lexer and parser in their original Rust, for tests to compare with.
//!
//! The six modules are byte for byte copies from the repository mliezun/grotsky, commit
//! f3837697bb, under the MIT licence (see `LICENSE`). `SHA256SUMS` holds their sums, and a test
//! compares them. Everything that is ours stands in this file, outside the copies, and in `logged`.
//!
//! Rule two has no original. Its lexer and parser are these with three lines changed (`build.rs` has
//! them), so that it can be asked as the original is.
//!
//! The package has to be built with overflow checks off, as the workspace's profiles do: with
//! them on, `previous` panics after a statement that is followed by two newlines.

// The copies keep their own style: neither the compiler's nor clippy's advice on it is wanted,
// and no tool may reformat them.
#[allow(warnings, clippy::all)]
#[rustfmt::skip]
pub mod expr;
#[allow(warnings, clippy::all)]
#[rustfmt::skip]
pub mod lexer;
#[allow(warnings, clippy::all)]
#[rustfmt::skip]
pub mod parser;
#[allow(warnings, clippy::all)]
#[rustfmt::skip]
pub mod state;
#[allow(warnings, clippy::all)]
#[rustfmt::skip]
pub mod stmt;
#[allow(warnings, clippy::all)]
#[rustfmt::skip]
pub mod token;

pub mod logged;

/// The lexer and the parser of rule two, over the same state.
#[allow(warnings, clippy::all)]
mod two {
    pub mod lexer {
        include!(concat!(env!("OUT_DIR"), "/lexer_two.rs"));
    }
    pub mod parser {
        include!(concat!(env!("OUT_DIR"), "/parser_two.rs"));
    }
}

/// The list stands once, with the crate that hands the texts out.
#[path = "../../kettleplume/src/messages.rs"]
pub mod messages;

use std::cell::Cell;
use std::panic::{self, AssertUnwindSafe};
use std::sync::Once;
use std::thread;

pub use messages::MESSAGES;

use state::{InterpreterError, InterpreterState};
use stmt::Stmt;
use token::TokenData;

/// The rule that a script is written for.
#[derive(Debug, Clone, Copy, PartialEq, Eq)]
pub enum Rule {
    /// The original's.
    One,
    /// Names may have digits after the first byte, an enhanced for gives its loop count back, and a
    /// number with a point may end the script.
    Two,
}

impl Rule {
    pub const BOTH: [Rule; 2] = [Rule::One, Rule::Two];

    fn lex(self, state: &mut InterpreterState) {
        match self {
            Rule::One => lexer::Lexer::new(state).scan(),
            Rule::Two => two::lexer::Lexer::new(state).scan(),
        }
    }

    fn parse(self, state: &mut InterpreterState) {
        match self {
            Rule::One => parser::Parser::new(state).parse(),
            Rule::Two => two::parser::Parser::new(state).parse(),
        }
    }
}

/// What the state holds when the reading of a script has ended.
#[derive(Debug, Clone)]
pub struct Reading {
    pub tokens: Vec<TokenData>,
    pub errors: Vec<InterpreterError>,
    /// The finished top-level statements, also those before a stop.
    pub stmts: Vec<Stmt>,
    pub stop: Stop,
}

/// Where the original panicked, if it did.
#[derive(Debug, Clone, Copy, PartialEq, Eq)]
pub enum Stop {
    /// Nowhere: parsing reached the end, with errors or without.
    None,
    /// In `number`, at the end of the source; nothing was parsed.
    Lexing,
    /// After a recorded error: a fatal one, or a failed `consume` whose result is unwrapped.
    Parsing,
}

/// Lexes a fresh state, then parses it, even if lexing recorded errors.
///
/// The two kinds of panic that belong to the original's behaviour are caught and told by `stop`.
/// Any other panic would be a mistake in this crate's picture of the original, and panics here.
pub fn read(source: &str) -> Reading {
    read_by(Rule::One, source)
}

/// The same by a rule. By rule two lexing never stops.
pub fn read_by(rule: Rule, source: &str) -> Reading {
    parse_by(rule, source, lex_by(rule, source))
}

/// The second half of `read_by`: parses what `lex_by` made of the source.
pub fn parse_by(rule: Rule, source: &str, lexed: Reading) -> Reading {
    if lexed.stop == Stop::Lexing {
        return lexed;
    }
    let mut state = InterpreterState {
        source: source.to_string(),
        tokens: lexed.tokens,
        errors: lexed.errors,
        stmts: lexed.stmts,
    };
    let ended = ends(
        || rule.parse(&mut state),
        &["explicit panic", "called `Option::unwrap()` on a `None`"],
    );
    let stop = if ended { Stop::None } else { Stop::Parsing };
    Reading::of(state, stop)
}

/// Lexes a fresh state as `read` does, but parses nothing: no statements, the lexer's errors only.
pub fn lex(source: &str) -> Reading {
    lex_by(Rule::One, source)
}

/// The same by a rule.
pub fn lex_by(rule: Rule, source: &str) -> Reading {
    let mut state = InterpreterState::new(source.to_string());
    let stop = if scans(rule, &mut state) {
        Stop::None
    } else {
        Stop::Lexing
    };
    Reading::of(state, stop)
}

impl Reading {
    fn of(state: InterpreterState, stop: Stop) -> Reading {
        Reading {
            tokens: state.tokens,
            errors: state.errors,
            stmts: state.stmts,
            stop,
        }
    }
}

/// Runs the lexer: `false` if it panics in `number`, which rule two's never may.
fn scans(rule: Rule, state: &mut InterpreterState) -> bool {
    let expected: &[&str] = match rule {
        Rule::One => &["index out of bounds"],
        Rule::Two => &[],
    };
    ends(|| rule.lex(state), expected)
}

thread_local! {
    /// Whether this thread is running the original just now.
    static READING: Cell<bool> = const { Cell::new(false) };
}

/// Runs a part of the original: `true` if it ends, `false` if it panics with a message that
/// begins like one of those expected.
fn ends(part: impl FnOnce(), expected: &[&str]) -> bool {
    keep_expected_panics_quiet();
    READING.set(true);
    let outcome = panic::catch_unwind(AssertUnwindSafe(part));
    READING.set(false);
    let Err(payload) = outcome else { return true };
    let message = if let Some(text) = payload.downcast_ref::<String>() {
        text.as_str()
    } else {
        payload.downcast_ref::<&str>().copied().unwrap_or("")
    };
    assert!(
        expected.iter().any(|start| message.starts_with(start)),
        "the original panicked in an unexpected way: {message}"
    );
    false
}

/// Puts a panic hook before the usual one that prints nothing on a thread that runs the original.
/// Panics elsewhere, such as a failing test's, are printed as before.
fn keep_expected_panics_quiet() {
    static DONE: Once = Once::new();
    DONE.call_once(|| {
        let usual = panic::take_hook();
        panic::set_hook(Box::new(move |info| {
            if !READING.get() {
                usual(info);
            }
        }));
    });
}

/// Runs `f` on a thread with a stack of 1 GiB, reserved but not touched, for scripts that nest
/// deeply: the original reads, compares, prints and drops its trees by recursion.
///
/// All that `f` makes is dropped on that thread, save for what it returns: let it return
/// something flat, not a tree. A panic in `f` goes on in the caller.
pub fn on_large_stack<R: Send>(f: impl FnOnce() -> R + Send) -> R {
    thread::scope(|scope| {
        thread::Builder::new()
            .name("large stack".to_string())
            .stack_size(1 << 30)
            .spawn_scoped(scope, f)
            .expect("no thread with a large stack")
            .join()
            .unwrap_or_else(|payload| panic::resume_unwind(payload))
    })
}

/// The number of a message, 1 to 29, or nothing if the original has no such text.
pub fn message_number(text: &str) -> Option<u32> {
    let index = MESSAGES.iter().position(|message| *message == text)?;
    Some(index as u32 + 1)
}
