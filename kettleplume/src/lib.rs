//! The reading half of the scripting language Grotsky, proved: a stand-in for its lexer and parser.
//!
//! The reading itself is written in Rattle. Each of its functions is proved to do what a short
//! definition says, for any bytes and for tables of any size, and this crate proves and links it when
//! it is built. The definition is compared with the original Rust by running both. What is Rust here
//! turns records into the original's own types, which are compiled from its own files: [`token`],
//! [`expr`], [`stmt`] and [`state`].
//!
//! It is built with the Rattle toolchain's `rt` on the `PATH`, for x86-64 Linux, and
//! needs nothing else beyond the standard library. The first build proves for minutes. What it proved is
//! kept in the repository, and linked by every later build that it fits.
//!
//! # Reading a script
//!
//! [`read`] takes text or bytes, and never panics for what they are:
//!
//! ```
//! use kettleplume::stmt::Stmt;
//!
//! let script = kettleplume::read("let stop = \"Gemshorn\"\nprint(stop) print\n");
//! assert_eq!(script.end, Ok(()));
//! assert!(matches!(script.stmts[0], Stmt::Let(_)));
//! // Reading goes on after most errors, as it does in the original.
//! assert_eq!(script.errors[0].message, "Expected new line");
//! // Each error has its place: the second `print`.
//! assert_eq!((script.errors[0].line, script.errors[0].column), (2, 13));
//! assert_eq!(script.stmts.len(), 3);
//! ```
//!
//! [`Script::end`] says whether reading came to the end of the script, and if not why. A program that
//! reads many scripts keeps [`Tables`] for them: [`read_with`].
//!
//! An error in the words and marks themselves, as a string that isn't closed, makes the parser record
//! others that only follow from it. So the statements of such a script are not read, unless that is
//! asked for: [`read_as`].
//!
//! ```
//! let script = kettleplume::read("let stop = \"Gemshorn\nlet pitch = 8\n");
//! assert_eq!(script.end, Err(kettleplume::Error::NotParsed));
//! assert_eq!((script.errors.len(), script.stmts.len()), (1, 0));
//! ```
//!
//! Scripts may be written for rule two, in which names have digits: [`Rule`] says what else is different,
//! and [`read_as`] takes it. Everything that isn't told the rule reads by rule one, the original's.
//!
//! ```
//! use kettleplume::{read_as, Options, Rule, Tables};
//!
//! let options = Options { rule: Rule::Two, ..Options::default() };
//! let script = read_as(options, &mut Tables::new(), "let stop8 = 2.5");
//! assert_eq!((script.end, script.errors.len()), (Ok(()), 0));
//! ```
//!
//! # In the original's place
//!
//! Code that was written for Grotsky's lexer, parser and state compiles when its `use` lines name this
//! crate:
//!
//! ```
//! use kettleplume::lexer::Lexer;
//! use kettleplume::parser::Parser;
//! use kettleplume::state::InterpreterState;
//!
//! let mut state = InterpreterState::new("a = 1\n".to_string());
//! Lexer::new(&mut state).scan();
//! Parser::new(&mut state).parse();
//! assert_eq!((state.tokens.len(), state.stmts.len()), (5, 1));
//! ```
//!
//! The state holds what the original leaves in it: the same tokens, errors and statements. Only the
//! `pos` of the parser's errors, which in the original is always 0, is here the place in the source
//! ([`Recorded::pos`] says which, [`Places`](places::Places) in which line and column it is). Where the
//! original panics, these panic, since someone may catch it: after an error that it can't go on from,
//! and at a number with a point that runs to the last byte. The state then holds what the
//! original recorded before. They also panic where only this crate gives up: a script over
//! [`LONGEST`] bytes, more than 128 levels, trees over [`TREE_LIMIT`], and tokens that are not those
//! of the state's source, which the parser reads anew. A panic's message is the [`Error`] in words.
//!
//! [`scan`], [`parse`] and [`read_state`] do the same with a state and answer with the error instead:
//!
//! ```
//! use kettleplume::state::InterpreterState;
//! use kettleplume::Error;
//!
//! let mut state = InterpreterState::new("a = 1\nb = )\n".to_string());
//! assert_eq!(kettleplume::read_state(&mut state), Err(Error::Stopped));
//! assert_eq!(state.errors.last().unwrap().message, "Undefined expression");
//! assert_eq!(state.stmts.len(), 1);
//! ```
//!
//! # The lower call
//!
//! The library itself allocates nothing. It fills three tables of words and an index that the caller
//! lends, of any size, and [`border`] has its functions. Each table holds records one after the other:
//!
//! - a token is [`TOKEN_WORDS`](tables::TOKEN_WORDS) words: kind, start, length, line, value sort, two value words,
//!   the line where it begins;
//! - an error is [`ERROR_WORDS`](tables::ERROR_WORDS) words: message, line, pos;
//! - a node is [`NODE_WORDS`](tables::NODE_WORDS) words: kind, three tokens, four children, next.
//!
//! The newline index has a word for each token: the reference of the first one from there on that is no
//! Newline. Parsing passes blank lines by it.
//!
//! References are index + 1, and 0 is nothing. [`Rooms::enough`] says how many records there can be,
//! so that no reading ends for want of room; with less room, what was read before is kept.
//!
//! ```
//! use kettleplume::border;
//! use kettleplume::tables::{ERROR_WORDS, INDEX_WORDS, NODE_WORDS, TOKEN_WORDS};
//! use kettleplume::Rooms;
//!
//! let source = b"a = 1\n";
//! let rooms = Rooms::enough(source.len());
//! let mut tokens = vec![0; TOKEN_WORDS * rooms.tokens];
//! let mut errors = vec![0; ERROR_WORDS * rooms.errors];
//! let mut nodes = vec![0; NODE_WORDS * rooms.nodes];
//! let mut index = vec![0; INDEX_WORDS * rooms.index];
//! let answer = border::read(1, 0, source, &mut tokens, &mut errors, &mut nodes, &mut index);
//! assert_eq!((answer.outcome, answer.tokens, answer.nodes), (0, 5, 4));
//! // A token was tested for that often.
//! assert_eq!(answer.looks, 59);
//! // The first statement is node 4: an expression, whose last token is the third.
//! assert_eq!(answer.first, 4);
//! assert_eq!(nodes[NODE_WORDS * 3..NODE_WORDS * 4], [30, 3, 0, 0, 3, 0, 0, 0, 0]);
//! // The fourth token is a Newline, and the fifth none.
//! assert_eq!(index[..5], [1, 2, 3, 5, 5]);
//! ```
//!
//! [`records`] has the kinds of nodes, the outcomes, the rules, the ways and which word of a record is what,
//! by name.
//! [`Tables`] does the lending, [`values`] turns token and error records into the original's values, and
//! [`unfold`] turns nodes into its statements. [`border::Parser`] reads one statement at a time.
//!
//! # Stack and memory
//!
//! A reading opens at most 128 levels, for which it needs less than 1 MiB of stack. Its trees can be
//! much deeper: `a+a+a` and so on, within 65,535 bytes, has 32,768 levels. This crate builds such trees
//! and takes them apart without recursion. But a statement by itself is dropped, cloned, compared
//! and printed by recursion, as its type in the original is. So a [`Script`] is the safe place for
//! statements; those in a state, or moved out of a script, are given to [`discard`] when they are no
//! longer needed:
//!
//! ```
//! use kettleplume::state::InterpreterState;
//!
//! let mut state = InterpreterState::new("a".to_string() + &"+a".repeat(32_767));
//! assert_eq!(kettleplume::read_state(&mut state), Ok(()));
//! kettleplume::discard(std::mem::take(&mut state.stmts));
//! ```
//!
//! Records share the object of an assignment such as `a.b[0] = 1`, which is there twice in the tree.
//! Where such assignments stand within each other's objects, the trees of the original double with
//! each; here [`Error::TreesTooLarge`] tells it beforehand.

pub mod border;
mod discard;
pub mod error;
pub mod lexer;
pub mod messages;
mod options;
pub mod parser;
pub mod places;
mod recorded;
pub mod records;
mod script;
mod stand_in;
pub mod tables;
pub mod unfold;
pub mod values;

// The original's own types, from its own files: what is written for them compiles unchanged. They keep
// their style, so no tool's advice on it is wanted.
#[allow(warnings, clippy::all)]
#[rustfmt::skip]
#[path = "../../oracle/src/expr.rs"]
pub mod expr;
#[allow(warnings, clippy::all)]
#[rustfmt::skip]
#[path = "../../oracle/src/state.rs"]
pub mod state;
#[allow(warnings, clippy::all)]
#[rustfmt::skip]
#[path = "../../oracle/src/stmt.rs"]
pub mod stmt;

/// The original's `token.rs`, without the derives that belong to running scripts.
#[allow(warnings, clippy::all)]
#[rustfmt::skip]
pub mod token;

pub use discard::discard;
pub use error::Error;
pub use messages::{message, MESSAGES};
pub use options::{Options, Rule, Way};
pub use recorded::Recorded;
pub use script::{read, read_as, read_with, Parts, Script};
pub use stand_in::{parse, read_state, read_state_as, scan};
pub use tables::{Records, Rooms, Tables, LONGEST};

/// The most nodes that are unfolded into trees, over all statements of a script.
///
/// That is eight times what a script of 65,535 bytes can have, if its trees repeat nothing, and half a
/// gigabyte. A long text that a node has counts as more: [`unfold::statements_within`] says how much.
pub const TREE_LIMIT: usize = 1 << 20;
