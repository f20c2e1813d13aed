//! A program that was written for the original's lexer and parser, and now uses this crate's.
//!
//!     cargo run -p kettleplume --example drop_in < FILE
//!
//! Within Grotsky the three lines that follow this comment are
//!
//!     use crate::lexer::Lexer;
//!     use crate::parser::Parser;
//!     use crate::state::InterpreterState;
//!
//! and nothing else differs.

use kettleplume::lexer::Lexer;
use kettleplume::parser::Parser;
use kettleplume::state::InterpreterState;

use std::io::{self, Read};

fn main() -> io::Result<()> {
    let mut source = String::new();
    io::stdin().read_to_string(&mut source)?;

    let mut state = InterpreterState::new(source);
    Lexer::new(&mut state).scan();
    Parser::new(&mut state).parse();

    for error in &state.errors {
        println!("{} on line {}", error.message, error.line);
    }
    println!("{} tokens", state.tokens.len());
    println!("{} errors", state.errors.len());
    println!("{} statements", state.stmts.len());
    Ok(())
}
