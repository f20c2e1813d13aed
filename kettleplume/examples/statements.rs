//! Prints the errors and the statements of a script.
//!
//!     cargo run -p kettleplume --example statements -- FILE
//!
//! The exit status is 0 if the script was read to its end without an error, 1 if it wasn't, and 2 if
//! there was nothing to read.

use std::io::{self, Write};
use std::process::ExitCode;
use std::{env, fs, thread};

use kettleplume::Script;

fn main() -> ExitCode {
    let mut arguments = env::args_os().skip(1);
    let (Some(file), None) = (arguments.next(), arguments.next()) else {
        eprintln!("usage: statements FILE");
        return ExitCode::from(2);
    };
    let source = match fs::read(&file) {
        Ok(source) => source,
        Err(error) => {
            eprintln!("{}: {error}", file.display());
            return ExitCode::from(2);
        }
    };
    let script = kettleplume::read(source);
    let clean = script.end.is_ok() && script.errors.is_empty();
    match printed(script) {
        Ok(()) if clean => ExitCode::SUCCESS,
        Ok(()) => ExitCode::from(1),
        Err(error) => {
            eprintln!("{error}");
            ExitCode::from(2)
        }
    }
}

/// Prints a script on a thread with a large stack, which is reserved but hardly touched: a statement
/// that goes down thousands of levels is printed by recursion.
fn printed(script: Script) -> io::Result<()> {
    let thread = thread::Builder::new().stack_size(1 << 30);
    let thread = thread.spawn(move || print(&script))?;
    thread.join().expect("printing doesn't panic")
}

fn print(script: &Script) -> io::Result<()> {
    let mut out = io::stdout().lock();
    for error in &script.errors {
        writeln!(out, "{error}")?;
    }
    for stmt in &script.stmts {
        writeln!(out, "{stmt:?}")?;
    }
    if let Err(error) = script.end {
        writeln!(out, "not read to its end: {error}")?;
    }
    Ok(())
}
