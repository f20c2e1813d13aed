//! The original's parser with a log: when each node is finished, each error recorded, each
//! top-level statement kept, and where a level too many would open. The original keeps no such
//! order, but outcomes 6 to 8 (`docs/RULES.md`, 'Outcomes') depend on it. Nor does it tell which token
//! an error is about, from which the error's place comes, nor count its looks, the calls of `check`: each
//! event is noted with the looks before it.
//!
//! `build.rs` makes it from the unchanged `parser.rs` by putting calls in, and the one of rule two from
//! that rule's. Whoever uses them compares their statements and errors with those of the parser
//! without a log.

use crate::state::InterpreterError;
use crate::stmt::Stmt;
use crate::token::TokenData;
use crate::{ends, Rule};

/// As many levels may be open.
pub const LEVELS: u32 = 128;

/// Something that happens in a reading.
#[derive(Debug, Clone, Copy, PartialEq, Eq)]
pub enum Event {
    /// A node of that kind is finished.
    Node(u32),
    /// An error is recorded.
    Error,
    /// A top-level statement is finished.
    Statement,
    /// A level over the limit opens: the log ends here.
    Level,
}

/// An event, and how many looks came before it.
#[derive(Debug, Clone, Copy, PartialEq, Eq)]
pub struct Noted {
    pub event: Event,
    pub looks: u32,
}

/// A logged reading.
#[derive(Debug, Clone)]
pub struct Log {
    pub events: Vec<Noted>,
    /// How many looks there were in all.
    pub looks: u32,
    /// The parser's errors. The pos of each is the index of the token whose line it reports.
    pub errors: Vec<InterpreterError>,
    /// The statements that were finished.
    pub stmts: Vec<Stmt>,
    /// Whether it stopped after an error or a level too many.
    pub stopped: bool,
}

/// Parses tokens by a rule.
pub fn parse(rule: Rule, tokens: Vec<TokenData>) -> Log {
    let mut state = state::InterpreterState::new(tokens);
    let ended = ends(
        || match rule {
            Rule::One => parser::Parser::new(&mut state).parse(),
            Rule::Two => parser_two::Parser::new(&mut state).parse(),
        },
        &[
            "explicit panic",
            "called `Option::unwrap()` on a `None`",
            TOO_DEEP,
        ],
    );
    Log {
        events: state.events,
        looks: state.looks,
        errors: state.errors,
        stmts: state.stmts,
        stopped: !ended,
    }
}

const TOO_DEEP: &str = "a level over the limit";

/// The state, with what the parser uses of the original's, and the log.
mod state {
    use super::{Event, Noted, LEVELS, TOO_DEEP};
    pub use crate::state::InterpreterError;
    use crate::stmt::Stmt;
    use crate::token::TokenData;

    pub struct InterpreterState {
        pub tokens: Vec<TokenData>,
        pub errors: Vec<InterpreterError>,
        pub stmts: Vec<Stmt>,
        pub events: Vec<Noted>,
        pub looks: u32,
        levels: u32,
    }

    impl InterpreterState {
        pub fn new(tokens: Vec<TokenData>) -> Self {
            InterpreterState {
                tokens,
                errors: vec![],
                stmts: vec![],
                events: vec![],
                looks: 0,
                levels: 0,
            }
        }

        fn note(&mut self, event: Event) {
            let looks = self.looks;
            self.events.push(Noted { event, looks });
        }

        pub fn look(&mut self) {
            self.looks += 1;
        }

        pub fn set_error(&mut self, err: InterpreterError) {
            self.errors.push(err);
            self.note(Event::Error);
        }

        pub fn fatal_error(&mut self, err: InterpreterError) {
            self.set_error(err);
            panic!();
        }

        pub fn node(&mut self, kind: u32) {
            self.note(Event::Node(kind));
        }

        pub fn keep(&mut self, stmt: Stmt) {
            self.stmts.push(stmt);
            self.note(Event::Statement);
        }

        pub fn open(&mut self) {
            if self.levels == LEVELS {
                self.note(Event::Level);
                panic!("{TOO_DEEP}");
            }
            self.levels += 1;
        }

        pub fn close(&mut self) {
            self.levels -= 1;
        }
    }
}

#[allow(warnings, clippy::all)]
mod parser {
    include!(concat!(env!("OUT_DIR"), "/logged_parser.rs"));
}

#[allow(warnings, clippy::all)]
mod parser_two {
    include!(concat!(env!("OUT_DIR"), "/logged_parser_two.rs"));
}
