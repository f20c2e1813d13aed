//! What stands in for the original's `parser.rs`.
//!
//! The parser that reads one statement at a time is another: [`border::Parser`](crate::border::Parser).

use crate::stand_in;
use crate::state::InterpreterState;
use crate::token::Token;

/// What the original keeps for each open function. This parser keeps it in the library.
#[derive(Debug, Clone)]
pub struct CallStack {
    pub function: String,
    pub loop_count: usize,
}

/// A parser over a state, which is used as the original's is.
pub struct Parser<'a> {
    /// The token to be looked at next: the first, and after a reading EOF. After one that did not
    /// come to the end, which the original leaves somewhere, it is after the last token.
    pub current: usize,
    /// Always empty outside of a reading, as the original's is.
    pub cls: Vec<CallStack>,
    pub state: &'a mut InterpreterState,
}

impl Parser<'_> {
    pub fn new(state: &'_ mut InterpreterState) -> Parser<'_> {
        Parser {
            current: 0,
            cls: vec![],
            state,
        }
    }

    /// Parses the state's tokens, which have to be what the lexer made of its source: errors and
    /// statements are put after those that the state has. A second call finds nothing more to read.
    ///
    /// # Panics
    ///
    /// Where the original does: after an error that it can't go on from. The errors up to that
    /// one and the statements before are in the state then. And where the original doesn't:
    ///
    /// - more than 128 levels are open, or the trees would be too large: as for such an error;
    /// - the source is longer than 65,535 bytes, or the tokens aren't those of the source: the
    ///   state is as it was;
    /// - `current` was set to another token than the first and EOF.
    ///
    /// The panic's message is the error in words. [`parse`](crate::parse) answers instead.
    #[track_caller]
    pub fn parse(&mut self) {
        self.cls = vec![];
        if self.current != 0 {
            let at = self.state.tokens.get(self.current);
            let ended = at.is_some_and(|t| t.token == Token::EOF);
            assert!(ended, "a script is read from its first token on, and once");
            return;
        }
        let end = stand_in::parse(self.state);
        self.current = match end {
            Ok(()) => self.end_of_file(),
            Err(_) => self.state.tokens.len(),
        };
        if let Err(error) = end {
            panic!("{error}");
        }
    }

    fn end_of_file(&self) -> usize {
        let mut tokens = self.state.tokens.iter();
        let found = tokens.position(|t| t.token == Token::EOF);
        found.expect("tokens end with EOF")
    }
}
