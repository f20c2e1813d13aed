//! A whole script: from bytes to tokens, errors and statements.

use std::mem;

use crate::discard::discard;
use crate::error::Error;
use crate::options::Options;
use crate::recorded::Recorded;
use crate::records::{self, outcome};
use crate::stmt::Stmt;
use crate::tables::{Records, Tables};
use crate::token::TokenData;
use crate::{unfold, values, TREE_LIMIT};

/// What a script was read to.
///
/// Where reading didn't come to the end there is what was read before: see [`end`](Script::end).
///
/// Statements can be some ten thousand levels deep, as in `a+a+a` and so on. A `Script` is dropped
/// without going down them; what was moved out of one is best given to [`discard`]. Printing,
/// cloning and comparing go down by recursion, as the original's types have it.
#[derive(Debug, Clone)]
pub struct Script {
    /// All tokens, from the first to EOF.
    pub tokens: Vec<TokenData>,
    /// The line where each of them begins, counted as its own line is: a string's line is the one that
    /// it ends in, a new line's the one after it.
    pub begins: Vec<i32>,
    /// What the original records as errors, each with its place: the lexer's, then the parser's.
    pub errors: Vec<Recorded>,
    /// The top-level statements.
    pub stmts: Vec<Stmt>,
    /// How often `check` was called, the original's test for a token: what the reading took, whatever the
    /// machine. It is counted up to where reading ended.
    pub looks: u32,
    /// Whether reading came to the end of the script, which it does in spite of most errors.
    ///
    /// - [`NotParsed`](Error::NotParsed), where the lexer recorded errors: tokens and those errors are
    ///   there, and no statement. [`read_as`] can go on instead, as the original does.
    /// - [`Stopped`](Error::Stopped), where the original panics after an error, and
    ///   [`TooDeep`](Error::TooDeep): tokens and errors are there, and the statements before the one
    ///   in which that happened.
    /// - [`PointAtEnd`](Error::PointAtEnd), where the original panics too: tokens and errors before
    ///   that number are there, and no statement. By rule two there is no such end.
    /// - [`NoText`](Error::NoText) and [`TooLong`](Error::TooLong): nothing is there.
    /// - [`TreesTooLarge`](Error::TreesTooLarge): as for a stop. If reading stopped as well, after
    ///   those statements, the last error tells it.
    pub end: Result<(), Error>,
}

/// Reads a script by rule one. Where the lexer records errors the statements are not read; [`read_as`]
/// can choose otherwise, and rule two.
///
/// ```
/// let script = kettleplume::read("stop = \"Gemshorn\"\n");
/// assert_eq!(script.end, Ok(()));
/// assert_eq!(script.tokens.len(), 5);
/// assert_eq!(script.stmts.len(), 1);
/// ```
///
/// The looks tell how much there was to do: one each time that a token is tested for.
///
/// ```
/// assert_eq!(kettleplume::read("stop\n").looks, 38);
/// ```
///
/// A string of several lines has the last of them as its line; the line where it begins stands beside it.
///
/// ```
/// let script = kettleplume::read("let remark = \"Boots new,\nreeds old.\"\n");
/// assert_eq!((script.begins[3], script.tokens[3].line), (1, 2));
/// ```
pub fn read(source: impl AsRef<[u8]>) -> Script {
    read_with(&mut Tables::new(), source)
}

/// Reads a script with tables that are kept from one script to the next.
///
/// ```
/// let mut tables = kettleplume::Tables::new();
/// for source in ["a = 1\n", "b = 2\n"] {
///     let script = kettleplume::read_with(&mut tables, source);
///     assert_eq!(script.end, Ok(()));
/// }
/// ```
pub fn read_with(tables: &mut Tables, source: impl AsRef<[u8]>) -> Script {
    read_as(Options::default(), tables, source)
}

/// Reads a script by the rule and in the way that are chosen.
///
/// ```
/// use kettleplume::{read_as, Error, Options, Rule, Tables, Way};
///
/// let (mut tables, source) = (Tables::new(), "let stop = $8\n");
/// let script = read_as(Options::default(), &mut tables, source);
/// assert_eq!((script.end, script.stmts.len()), (Err(Error::NotParsed), 0));
/// let options = Options { way: Way::GoOn, ..Options::default() };
/// let script = read_as(options, &mut tables, source);
/// assert_eq!((script.end, script.stmts.len()), (Ok(()), 1));
///
/// // By rule two this is a name, and by rule one a name and a number.
/// let options = Options { rule: Rule::Two, ..Options::default() };
/// let [two, one] = [options, Options::default()]
///     .map(|options| read_as(options, &mut tables, "stop8\n").tokens[0].lexeme.clone());
/// assert_eq!([two, one], ["stop8", "stop"]);
/// ```
pub fn read_as(options: Options, tables: &mut Tables, source: impl AsRef<[u8]>) -> Script {
    let source = source.as_ref();
    let records = tables.read_as(options, source);
    let tokens: Vec<_> = records
        .tokens
        .iter()
        .map(|t| values::token(source, t))
        .collect();
    let (stmts, end) = statements(&records, &tokens);
    Script {
        looks: records.answer.looks,
        errors: Recorded::all(source, records.errors),
        begins: records.tokens.iter().map(begins).collect(),
        tokens,
        stmts,
        end,
    }
}

/// The line where a token begins.
fn begins(record: &records::Token) -> i32 {
    record[records::token::BEGINS] as i32
}

/// The statements of a reading, and how it ended.
pub(crate) fn statements(
    records: &Records,
    tokens: &[TokenData],
) -> (Vec<Stmt>, Result<(), Error>) {
    let first = records.answer.first;
    let unfolded = unfold::statements_within(TREE_LIMIT as u64, records.nodes, tokens, first);
    // It is proved that the library's tables are well formed, so there is nothing to tell here.
    let (stmts, all) = unfolded.unwrap_or_else(|wrong| panic!("the library's nodes: {wrong}"));
    let end = match all {
        true => ended(records.answer.outcome),
        false => Err(Error::TreesTooLarge),
    };
    (stmts, end)
}

/// How a reading ended, by its outcome.
pub(crate) fn ended(outcome: u32) -> Result<(), Error> {
    match outcome {
        outcome::DONE => Ok(()),
        other => Err(Error::of(other).unwrap_or_else(|| panic!("the library answered {other}"))),
    }
}

/// What a [`Script`] is made of, without its care for deep statements.
#[derive(Debug, Clone)]
pub struct Parts {
    pub tokens: Vec<TokenData>,
    pub begins: Vec<i32>,
    pub errors: Vec<Recorded>,
    pub stmts: Vec<Stmt>,
    pub looks: u32,
    pub end: Result<(), Error>,
}

impl Script {
    /// The parts, to be taken apart.
    ///
    /// ```
    /// let kettleplume::Parts { stmts, .. } = kettleplume::read("a = 1\n").into_parts();
    /// kettleplume::discard(stmts);
    /// ```
    pub fn into_parts(mut self) -> Parts {
        Parts {
            tokens: mem::take(&mut self.tokens),
            begins: mem::take(&mut self.begins),
            errors: mem::take(&mut self.errors),
            stmts: mem::take(&mut self.stmts),
            looks: self.looks,
            end: self.end,
        }
    }
}

impl Drop for Script {
    fn drop(&mut self) {
        discard(mem::take(&mut self.stmts));
    }
}
