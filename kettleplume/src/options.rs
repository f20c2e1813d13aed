//! How a script is read.

use crate::records::{rule, way};

/// The rule that a script is written for.
#[derive(Debug, Clone, Copy, PartialEq, Eq, Hash, Default)]
pub enum Rule {
    /// The original's.
    #[default]
    One,
    /// Our own: a name may have digits after its first letter or underscore, an enhanced for gives its
    /// loop count back, so that a `break` after it is in no loop, and a number with a point may end the
    /// script, so that a reading never ends with [`PointAtEnd`](crate::Error::PointAtEnd).
    Two,
}

impl Rule {
    /// The number that the library is given.
    pub fn number(self) -> u32 {
        match self {
            Rule::One => rule::ONE,
            Rule::Two => rule::TWO,
        }
    }
}

/// What a reading does where the lexer came to the end of the script and recorded errors.
#[derive(Debug, Clone, Copy, PartialEq, Eq, Hash, Default)]
pub enum Way {
    /// It stops before parsing: what the parser would record only follows from those. Tokens and errors
    /// are there, no statement, and the end is [`NotParsed`](crate::Error::NotParsed).
    #[default]
    Stop,
    /// It parses what was lexed, as the original does.
    GoOn,
}

impl Way {
    /// The number that the library is given.
    pub fn number(self) -> u32 {
        match self {
            Way::Stop => way::STOP,
            Way::GoOn => way::GO_ON,
        }
    }
}

/// What can be chosen for a reading. What is not chosen is as [`read`](crate::read) has it:
///
/// ```
/// use kettleplume::{Options, Rule, Way};
///
/// let options = Options { way: Way::GoOn, ..Options::default() };
/// # assert_ne!(options, Options::default());
/// assert_eq!(options.rule, Rule::One);
/// ```
#[derive(Debug, Clone, Copy, PartialEq, Eq, Hash, Default)]
pub struct Options {
    pub rule: Rule,
    pub way: Way,
}

impl Options {
    /// As the original reads: by rule one, and going on.
    pub const ORIGINAL: Options = Options {
        rule: Rule::One,
        way: Way::GoOn,
    };
}
