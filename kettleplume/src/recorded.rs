//! Recorded errors, each with its place.

use std::fmt;

use crate::messages::message;
use crate::places::Places;
use crate::records;
use crate::state::InterpreterError;

/// An error that a reading recorded, and where it stands.
///
/// ```
/// let script = kettleplume::read("let oboe = 8\nflute4\n");
/// let error = &script.errors[0];
/// assert_eq!((error.line, error.column, error.pos), (2, 6, 18));
/// assert_eq!(error.to_string(), "2:6: Expected new line");
/// ```
#[derive(Debug, Clone, PartialEq, Eq, Hash)]
pub struct Recorded {
    /// The number of the message, 1 to 29.
    pub number: u32,
    /// The message, in the original's words.
    pub message: &'static str,
    /// The place: a byte of the source, or the source's length, which is its end. The lexer's errors
    /// have that of the byte or string they are about. The parser's have the start of the token whose
    /// line is recorded: of the token that stands where another was expected, which may be a new line
    /// or the end; of `break` or `continue`; of the `=` after what can't be assigned to.
    pub pos: usize,
    /// The line of the file that the place is in, from 1.
    pub line: usize,
    /// Which character of that line the place is, from 1: see [`Places::column`].
    pub column: usize,
    /// The line that the original records. It is another where the place is a new line, which the
    /// original counts to the line after it, or a string of several lines, which it counts to its
    /// last; and its count falls behind the file's at a new line after a wrong backslash in a string.
    pub recorded_line: usize,
}

impl Recorded {
    /// The errors of a reading of this source.
    pub fn all(source: &[u8], errors: &[records::Error]) -> Vec<Recorded> {
        if errors.is_empty() {
            return vec![];
        }
        let places = Places::new(source);
        let errors = errors.iter();
        errors.map(|error| Recorded::of(&places, error)).collect()
    }

    fn of(places: &Places, record: &records::Error) -> Recorded {
        let &[number, line, pos] = record;
        let pos = pos as usize;
        Recorded {
            number,
            message: message(number).expect("a message"),
            pos,
            line: places.line(pos),
            column: places.column(pos),
            recorded_line: line as usize,
        }
    }
}

impl fmt::Display for Recorded {
    fn fmt(&self, f: &mut fmt::Formatter) -> fmt::Result {
        write!(f, "{}:{}: {}", self.line, self.column, self.message)
    }
}

/// The error as the original's state has it, with its place.
impl From<&Recorded> for InterpreterError {
    fn from(error: &Recorded) -> InterpreterError {
        InterpreterError {
            message: error.message.to_string(),
            line: error.recorded_line as i32,
            pos: error.pos,
        }
    }
}
