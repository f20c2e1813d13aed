//! The numbers of `docs/RULES.md` by name: how many words a record has and what stands in each, the
//! kinds of nodes, the outcomes, the rules, the ways to read and some messages.
//!
//! These are the only definitions on the Rust side. The crates that compare with the original compile
//! this file too, and a test holds the numbers of the C header against it.

use std::ops::RangeInclusive;

/// The longest source that is read, in bytes.
pub const LONGEST: usize = 65_535;

/// Words of a token record: kind, start, length, line, value sort, two value words, the line where it
/// begins.
pub const TOKEN_WORDS: usize = 8;
/// Words of an error record: message, line, pos.
pub const ERROR_WORDS: usize = 3;
/// Words of a node record: kind, three tokens, four children, next.
pub const NODE_WORDS: usize = 9;
/// Words of the newline index for each token: the reference of the first token from there on that is no
/// Newline.
pub const INDEX_WORDS: usize = 1;
/// The four, in the order of the tables.
pub const WIDTHS: [usize; 4] = [TOKEN_WORDS, ERROR_WORDS, NODE_WORDS, INDEX_WORDS];

/// A token record.
pub type Token = [u32; TOKEN_WORDS];
/// An error record.
pub type Error = [u32; ERROR_WORDS];
/// A node record.
pub type Node = [u32; NODE_WORDS];

/// Which word of a token record is what.
pub mod token {
    /// The token's kind, its place in the original's enum.
    pub const KIND: usize = 0;
    /// Where its first byte stands in the source.
    pub const START: usize = 1;
    /// How many bytes of the source it is.
    pub const LENGTH: usize = 2;
    /// Its line, as the original counts it: of a string the line that it ends in, of a new line the
    /// line after it.
    pub const LINE: usize = 3;
    /// The line where it begins, as the original counts it: what its counter was when the token's
    /// first byte was met. The original keeps no such number.
    pub const BEGINS: usize = 7;
    /// The words that are in an outline.
    pub const SHOWN: [usize; 5] = [KIND, START, LENGTH, LINE, BEGINS];

    /// Those words of a token.
    pub fn shown(token: &super::Token) -> [u32; SHOWN.len()] {
        SHOWN.map(|word| token[word])
    }
}

/// Which word of an error record is what.
pub mod error {
    /// The message's number.
    pub const MESSAGE: usize = 0;
    /// The line that is recorded.
    pub const LINE: usize = 1;
    /// The place in the source.
    pub const POS: usize = 2;
}

/// Which word of a node record is what.
pub mod node {
    /// The node's kind.
    pub const KIND: usize = 0;
    /// References to tokens.
    pub const TOKENS: [usize; 3] = [1, 2, 3];
    /// References to nodes, or to the first of a list.
    pub const CHILDREN: [usize; 4] = [4, 5, 6, 7];
    /// The reference to the next node of the list that this one is in.
    pub const NEXT: usize = 8;
}

/// The sorts of a token's value.
pub mod sort {
    /// It has none.
    pub const NONE: u32 = 0;
    /// A string: the first value word is how long its text is.
    pub const TEXT: u32 = 1;
    /// A number: its bits, the low word first.
    pub const NUMBER: u32 = 2;
    /// A number whose value isn't given.
    pub const LONG: u32 = 3;
}

/// The kinds of nodes.
#[allow(missing_docs)]
pub mod kind {
    use super::RangeInclusive;

    pub const FN_EXPR: u32 = 1;
    pub const VAR: u32 = 2;
    pub const LIST: u32 = 3;
    pub const DICTIONARY: u32 = 4;
    pub const ASSIGN: u32 = 5;
    pub const ACCESS: u32 = 6;
    pub const BINARY: u32 = 7;
    pub const CALL: u32 = 8;
    pub const GET: u32 = 9;
    pub const SET: u32 = 10;
    pub const SUPER: u32 = 11;
    pub const GROUPING: u32 = 12;
    pub const LITERAL: u32 = 13;
    pub const LOGICAL: u32 = 14;
    pub const THIS: u32 = 15;
    pub const UNARY: u32 = 16;
    pub const EMPTY: u32 = 17;
    pub const FN_STMT: u32 = 18;
    pub const LET: u32 = 19;
    pub const BLOCK: u32 = 20;
    pub const CLASS: u32 = 21;
    pub const CLASSIC_FOR: u32 = 22;
    pub const ENHANCED_FOR: u32 = 23;
    pub const WHILE: u32 = 24;
    pub const IF: u32 = 25;
    pub const CONTINUE: u32 = 26;
    pub const RETURN: u32 = 27;
    pub const BREAK: u32 = 28;
    pub const TRY_CATCH: u32 = 29;
    pub const EXPR_STMT: u32 = 30;
    pub const ELIF: u32 = 31;
    pub const NAME: u32 = 32;

    /// The expressions, the statements, and all kinds.
    pub const EXPRS: RangeInclusive<u32> = FN_EXPR..=EMPTY;
    pub const STMTS: RangeInclusive<u32> = FN_STMT..=EXPR_STMT;
    pub const ALL: RangeInclusive<u32> = FN_EXPR..=NAME;
}

/// What a call answers first: how it ended.
pub mod outcome {
    /// It came to its end.
    pub const DONE: u32 = 0;
    /// A mistake after which the rest can't be read.
    pub const STOPPED: u32 = 1;
    /// A number with a point runs to the last byte.
    pub const POINT_AT_END: u32 = 2;
    /// The bytes are no text.
    pub const NO_TEXT: u32 = 3;
    /// The source is too long.
    pub const TOO_LONG: u32 = 4;
    /// A token found no room.
    pub const TOKEN_ROOM: u32 = 5;
    /// An error found no room.
    pub const ERROR_ROOM: u32 = 6;
    /// A node found no room.
    pub const NODE_ROOM: u32 = 7;
    /// A level too many.
    pub const TOO_DEEP: u32 = 8;
    /// No closed string begins where one was to be decoded.
    pub const NO_STRING: u32 = 9;
    /// The decoded string is longer than its buffer, or there are more tokens than the newline index has
    /// words, and so nothing is parsed.
    pub const BUFFER_ROOM: u32 = 10;
    /// Lexing recorded an error, and so nothing is parsed.
    pub const NOT_PARSED: u32 = 11;
    /// The number that was given names no rule.
    pub const WRONG_RULE: u32 = 13;
    /// The parser and the tables that were lent don't fit together.
    pub const MISMATCH: u32 = 18;
    /// There is another statement to read.
    pub const MORE: u32 = 19;
}

/// The rules that a script can be written for. Every other number is refused.
pub mod rule {
    /// The original's.
    pub const ONE: u32 = 1;
    /// Names may have digits after the first byte, an enhanced for gives its loop count back, and a
    /// number with a point may end the script.
    pub const TWO: u32 = 2;
}

/// What a reading does where lexing came to its end and recorded an error.
pub mod way {
    /// It stops before parsing.
    pub const STOP: u32 = 0;
    /// It parses all the same. Every number but 0 means this way.
    pub const GO_ON: u32 = 1;
}

/// The messages that the code has to know by their numbers.
pub mod message {
    use super::RangeInclusive;

    /// A character that the language has no use for.
    pub const ILLEGAL: u32 = 2;
    /// A string that isn't closed properly.
    pub const UNCLOSED: u32 = 3;
    /// A new line is missing.
    pub const NEW_LINE: u32 = 4;
    /// No expression begins there.
    pub const EXPRESSION: u32 = 28;

    /// The lexer's, which come first, and all messages.
    pub const LEXERS: RangeInclusive<u32> = 1..=UNCLOSED;
    pub const ALL: RangeInclusive<u32> = 1..=29;
}
