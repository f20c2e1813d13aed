//! Tables of records that are large enough for any source.

use crate::border::{self, Answer, Scanned};
use crate::options::Options;

pub use crate::records::{ERROR_WORDS, INDEX_WORDS, LONGEST, NODE_WORDS, TOKEN_WORDS};

/// How many records of each sort, and how many words of the newline index, a source can need.
#[derive(Debug, Clone, Copy, PartialEq, Eq, Default)]
pub struct Rooms {
    pub tokens: usize,
    pub errors: usize,
    pub nodes: usize,
    pub index: usize,
}

impl Rooms {
    /// Room enough for every source of so many bytes, so that no reading of one ends with 5, 6, 7 or 10:
    /// a theorem, `rooms_enough` of the Rattle crate `enough`. Why so many:
    ///
    /// - A token is at least a byte long, and tokens don't overlap; the added Newline and EOF
    ///   are empty. So `length + 2` tokens.
    /// - The index has a word for each token.
    /// - A node can be laid to a token's charge: a name, number, bracket, prefix, operator, point,
    ///   keyword or parameter to its own, and an expression that stands as a statement to its first,
    ///   which has then two; so has a newline that stands for an empty statement. EOF has none. So
    ///   twice `length + 1` nodes.
    /// - An error of lexing is about a byte that no token has. One that the parser records, and
    ///   goes on, can be laid to the charge of the token which began what lacks something: a
    ///   bracket that isn't closed, a statement without a new line, a key without a colon. No token
    ///   has more than two for each of its bytes, and the added Newline no more than two. One
    ///   more ends the reading. So `2 * length + 3` errors.
    ///
    /// A source over [`LONGEST`] is refused before any record is written: no room is needed.
    pub fn enough(length: usize) -> Rooms {
        if length > LONGEST {
            return Rooms::default();
        }
        Rooms {
            tokens: length + 2,
            errors: 2 * length + 3,
            nodes: 2 * length + 2,
            index: length + 2,
        }
    }
}

/// Three tables and the newline index of a caller that reads many sources: they grow as needed, and what
/// stood in them doesn't matter.
#[derive(Debug, Clone, Default)]
pub struct Tables {
    tokens: Vec<u32>,
    errors: Vec<u32>,
    nodes: Vec<u32>,
    index: Vec<u32>,
}

/// A reading's answer and the records that it kept.
#[derive(Debug, Clone, Copy)]
pub struct Records<'a> {
    pub answer: Answer,
    pub tokens: &'a [[u32; TOKEN_WORDS]],
    pub errors: &'a [[u32; ERROR_WORDS]],
    pub nodes: &'a [[u32; NODE_WORDS]],
}

impl Tables {
    pub fn new() -> Tables {
        Tables::default()
    }

    /// Reads a source by rule one; there is always room enough.
    pub fn read(&mut self, source: &[u8]) -> Records<'_> {
        self.read_as(Options::default(), source)
    }

    /// The same by the rule and in the way that are chosen.
    pub fn read_as(&mut self, options: Options, source: &[u8]) -> Records<'_> {
        let rooms = Rooms::enough(source.len());
        let tokens = lent(&mut self.tokens, TOKEN_WORDS * rooms.tokens);
        let errors = lent(&mut self.errors, ERROR_WORDS * rooms.errors);
        let nodes = lent(&mut self.nodes, NODE_WORDS * rooms.nodes);
        let index = lent(&mut self.index, INDEX_WORDS * rooms.index);
        let (rule, way) = (options.rule.number(), options.way.number());
        let answer = border::read(rule, way, source, tokens, errors, nodes, index);
        Records {
            answer,
            tokens: &tokens.as_chunks().0[..answer.tokens as usize],
            errors: &errors.as_chunks().0[..answer.errors as usize],
            nodes: &nodes.as_chunks().0[..answer.nodes as usize],
        }
    }

    /// Lexes a source by rule one without parsing it: the answer has no nodes, no first statement and no
    /// looks.
    pub fn scan(&mut self, source: &[u8]) -> Records<'_> {
        self.scan_as(Options::default(), source)
    }

    /// The same by the rule that is chosen. The way is no matter of lexing.
    pub fn scan_as(&mut self, options: Options, source: &[u8]) -> Records<'_> {
        let rooms = Rooms::enough(source.len());
        let token_words = lent(&mut self.tokens, TOKEN_WORDS * rooms.tokens);
        let error_words = lent(&mut self.errors, ERROR_WORDS * rooms.errors);
        let Scanned {
            outcome,
            tokens,
            errors,
        } = border::scan(options.rule.number(), source, token_words, error_words);
        Records {
            answer: Answer {
                outcome,
                tokens,
                errors,
                ..Answer::default()
            },
            tokens: &token_words.as_chunks().0[..tokens as usize],
            errors: &error_words.as_chunks().0[..errors as usize],
            nodes: &[],
        }
    }
}

/// So many words of a table. If it has fewer, another takes its place: nothing has to be copied, and
/// the system hands out zeros for less than it costs to write them.
fn lent(table: &mut Vec<u32>, words: usize) -> &mut [u32] {
    if table.len() < words {
        *table = vec![0; words];
    }
    &mut table[..words]
}
