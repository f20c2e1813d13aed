//! What stands in for the original's `lexer.rs`.

use crate::error::Error;
use crate::options::Rule;
use crate::stand_in;
use crate::state::InterpreterState;

/// A lexer over a state, which is used as the original's is.
pub struct Lexer<'a> {
    /// The line at the source's end, once that was read.
    line: Option<i32>,
    state: &'a mut InterpreterState,
}

impl Lexer<'_> {
    pub fn new(state: &'_ mut InterpreterState) -> Lexer<'_> {
        Lexer { line: None, state }
    }

    /// Lexes the state's source: tokens and errors are put after those that the state has.
    ///
    /// A second call finds nothing more to read, and closes the tokens once more, as the original
    /// does.
    ///
    /// # Panics
    ///
    /// Where the original does: a number with a point runs to the last byte. The tokens and errors
    /// before it are in the state then. And where the source is longer than 65,535 bytes, which
    /// the original reads; nothing is in the state then. The panic's message is the error in words.
    /// [`scan`](crate::scan) answers instead.
    #[track_caller]
    pub fn scan(&mut self) {
        if let Some(line) = self.line {
            return stand_in::close(&mut self.state.tokens, line);
        }
        let (end, line) = stand_in::lex(Rule::One, self.state);
        if matches!(end, Ok(()) | Err(Error::PointAtEnd)) {
            self.line = Some(line);
        }
        if let Err(error) = end {
            panic!("{error}");
        }
    }
}
