//! Test vectors for the Rattle programs that replay them, and their answers.
//!
//! A vector of the leaves or of lexing is a line of the program's standard input, its answer a line
//! of its standard output; `whole` has scripts as they are, and the tables that whole readings leave.
//! The answers come from a judge in Rust that shares nothing with the Rattle code: the original
//! where it has such a thing, Rust's own library, or a plain rendering of `docs/RULES.md`.
//! `definition` and `blackout` make theorems instead, for the prover: scripts with the original's
//! answers, and pairs of scripts. `outlines` makes what the program `outline` has to print. `files`
//! has all that is made, and the command that makes it.

pub mod blackout;
pub mod definition;
pub mod files;
pub mod folders;
pub mod leaves;
pub mod lexing;
pub mod outlines;
pub mod sheet;
pub mod whole;

use sheet::Sheet;

/// All vectors and answers, with how they were made in front.
pub fn sheet() -> Sheet {
    let mut sheet = Sheet::default();
    sheet.comment(&files::made_by());
    sheet.comment("Each line is a vector; its answer is the line of `stdout` with the same letter");
    sheet.comment("k x n v e s d u t o p l z r: the leaf crates, see vectors/src/leaves");
    sheet.comment("Their random ones: xorshift64, the seeds stand beside the generators");
    lexing::comment(&mut sheet);
    leaves::add(&mut sheet);
    lexing::add(&mut sheet);
    sheet
}
