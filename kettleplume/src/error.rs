//! What can come of a call, by the numbers of the outcomes (`docs/RULES.md`, 'Outcomes'), in words.

use std::fmt;

use crate::records::outcome;

/// Why a reading did not come to the end of its script, or why a call was refused.
///
/// A script whose reading comes to the end (outcome 0) has no such error, though it may have
/// recorded ones, with a message and a place: [`Recorded`](crate::Recorded).
#[derive(Debug, Clone, Copy, PartialEq, Eq, Hash)]
pub enum Error {
    /// 1: a mistake after which the rest can't be read. The last recorded error says which.
    Stopped,
    /// 2: a number with a point runs to the last byte of the script. By rule two it doesn't occur.
    PointAtEnd,
    /// 3: the bytes are no text, which is what Rust takes as a `str`.
    NoText,
    /// 4: more than 65,535 bytes.
    TooLong,
    /// 5: a token found no room in its table.
    TokenRoom,
    /// 6: an error found no room in its table.
    ErrorRoom,
    /// 7: a node found no room in its table.
    NodeRoom,
    /// 8: more than 128 levels.
    TooDeep,
    /// 9: no closed string begins where one was to be decoded.
    NoString,
    /// 10: the decoded string is longer than its buffer, or a script has more tokens than the newline
    /// index has words, and so nothing was parsed.
    BufferRoom,
    /// 11: the lexer recorded errors, and so nothing was parsed.
    NotParsed,
    /// 13: the number that was given names no rule.
    WrongRule,
    /// 18: the parser and the tables that were lent don't fit together.
    Mismatch,
    /// No outcome, so it has no number: the records are whole, but as trees, which repeat what records
    /// share, they would be larger than [`TREE_LIMIT`](crate::TREE_LIMIT) nodes.
    TreesTooLarge,
    /// No outcome, so it has no number: the tokens in a state are not those of the state's source.
    OtherTokens,
}

impl Error {
    /// All that have a number, in its order.
    pub const NUMBERED: [Error; 13] = [
        Error::Stopped,
        Error::PointAtEnd,
        Error::NoText,
        Error::TooLong,
        Error::TokenRoom,
        Error::ErrorRoom,
        Error::NodeRoom,
        Error::TooDeep,
        Error::NoString,
        Error::BufferRoom,
        Error::NotParsed,
        Error::WrongRule,
        Error::Mismatch,
    ];

    /// The error with this number. 0, the end of a reading, and 19, more statements to read, are none.
    pub fn of(outcome: u32) -> Option<Error> {
        Error::NUMBERED
            .into_iter()
            .find(|error| error.number() == Some(outcome))
    }

    /// The number of the outcome, if it is one.
    pub fn number(self) -> Option<u32> {
        Some(match self {
            Error::Stopped => outcome::STOPPED,
            Error::PointAtEnd => outcome::POINT_AT_END,
            Error::NoText => outcome::NO_TEXT,
            Error::TooLong => outcome::TOO_LONG,
            Error::TokenRoom => outcome::TOKEN_ROOM,
            Error::ErrorRoom => outcome::ERROR_ROOM,
            Error::NodeRoom => outcome::NODE_ROOM,
            Error::TooDeep => outcome::TOO_DEEP,
            Error::NoString => outcome::NO_STRING,
            Error::BufferRoom => outcome::BUFFER_ROOM,
            Error::NotParsed => outcome::NOT_PARSED,
            Error::WrongRule => outcome::WRONG_RULE,
            Error::Mismatch => outcome::MISMATCH,
            Error::TreesTooLarge | Error::OtherTokens => return None,
        })
    }
}

impl fmt::Display for Error {
    fn fmt(&self, f: &mut fmt::Formatter) -> fmt::Result {
        f.write_str(match self {
            Error::Stopped => "the script has a mistake after which the rest can't be read",
            Error::PointAtEnd => {
                "the script ends within a number: a number with a point needs something behind it, \
                 if only a new line"
            }
            Error::NoText => "the file is no text: its bytes are not UTF-8",
            Error::TooLong => "the script is longer than 65,535 bytes",
            Error::TokenRoom => "the script has more words and marks than there is room for",
            Error::ErrorRoom => "the script has more mistakes than there is room for",
            Error::NodeRoom => "the script has more parts than there is room for",
            Error::TooDeep => "the script is nested more than 128 levels deep",
            Error::NoString => "no closed string begins at that place",
            Error::BufferRoom => {
                "the buffer for the text of a string, or the index of the script's blank lines, is too \
                 short"
            }
            Error::NotParsed => {
                "the script has mistakes in its words or marks, so its statements were not read"
            }
            Error::WrongRule => "there are rules 1 and 2 and no other: nothing was read",
            Error::Mismatch => {
                "the parser and the tables don't go together: nothing was read, and nothing changed"
            }
            Error::TreesTooLarge => {
                "the script repeats itself so deeply that its trees would be too large to build"
            }
            Error::OtherTokens => {
                "the tokens are not those of the source that stands beside them: nothing was read"
            }
        })
    }
}

impl std::error::Error for Error {}
