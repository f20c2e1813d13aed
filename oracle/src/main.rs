//! Shows what the original does with a script: `cargo run -q -p oracle -- FILE`, or with the
//! script on standard input.

use std::fmt::Write as _;
use std::io::{Read as _, Write as _};
use std::process::ExitCode;

use oracle::{message_number, on_large_stack, read};

fn main() -> ExitCode {
    let script = match std::env::args_os().nth(1) {
        Some(file) => std::fs::read_to_string(file),
        None => {
            let mut text = String::new();
            std::io::stdin().read_to_string(&mut text).map(|_| text)
        }
    };
    match script {
        Ok(script) => {
            let text = on_large_stack(|| show(&script));
            // A reader that goes away early is no failure.
            let _ = std::io::stdout().write_all(text.as_bytes());
            ExitCode::SUCCESS
        }
        Err(error) => {
            eprintln!("oracle: {error}");
            ExitCode::FAILURE
        }
    }
}

/// Tokens, errors, statements and the stop, in this order.
fn show(script: &str) -> String {
    let reading = read(script);
    let mut out = String::new();
    for t in &reading.tokens {
        let kind = t.token as u32;
        write!(out, "token {kind} {:?}, line {}", t.lexeme, t.line).unwrap();
        match &t.literal {
            Some(literal) => writeln!(out, ", {literal:?}").unwrap(),
            None => writeln!(out).unwrap(),
        }
    }
    for e in &reading.errors {
        let (line, pos, text) = (e.line, e.pos, &e.message);
        let number = message_number(text).expect("an unknown message");
        writeln!(out, "error {number}, line {line}, pos {pos}: {text}").unwrap();
    }
    for stmt in &reading.stmts {
        writeln!(out, "statement {stmt:#?}").unwrap();
    }
    writeln!(out, "stop {:?}", reading.stop).unwrap();
    out
}
