//! What a reading must come to, worked out from the original alone, and scripts to read.
//!
//! `lexing` has the tokens and errors as records, `nodes` turns the original's trees into node
//! records, `unfold` turns node records back into trees, and `whole` has the answer for tables of
//! any size. Rule two's answers come from the original with that rule's three lines changed.

pub mod dice;
pub mod lex_scripts;
pub mod lexing;
pub mod maker;
pub mod marks;
pub mod mixed_dice;
pub mod nodes;
pub mod rules;
pub mod scripts;
pub mod spellings;
pub mod whole;

/// The numbers of `docs/RULES.md` by name: the Rust crate's own file, so that there is one definition,
/// though this crate links no library.
#[path = "../../kettleplume/src/records.rs"]
pub mod records;

/// The way back from `nodes`: the file is the Rust crate's own, over the oracle's types. So what it
/// makes of records is held against the original's trees, and not against a flattening of them.
#[path = "../../kettleplume/src/unfold.rs"]
pub mod unfold;

pub use oracle::{expr, stmt, token};
