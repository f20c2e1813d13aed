//! `differential lex COUNT SEED` and `differential read COUNT SEED` are the long runs, by both rules;
//! `differential blackout COUNT SEED` tries what may be blacked out; `differential text` holds the text test against Rust's own;
//! `differential show FILE` prints what the library makes of a script.

use std::fmt::Display;
use std::io::Write as _;
use std::process::ExitCode;

use differential::compare::Difference;
use differential::host::Host;
use differential::run::Comparison;
use differential::show::show;
use differential::{blackout, lex, read, text, ReadSizes, Sizes};
use oracle::on_large_stack;
use vectors::blackout::pairs::random;

fn main() -> ExitCode {
    let words: Vec<String> = std::env::args().skip(1).collect();
    let words: Vec<&str> = words.iter().map(String::as_str).collect();
    match words[..] {
        ["lex", count, seed] => match (count.parse(), seed.parse()) {
            (Ok(count), Ok(seed)) => compare(|c| lex(c, &Sizes::of(count), seed)),
            _ => usage(),
        },
        ["read", count, seed] => match (count.parse(), seed.parse()) {
            // The original's trees are as deep as the scripts.
            (Ok(count), Ok(seed)) => {
                on_large_stack(|| compare(|c| read(c, &ReadSizes::of(count), seed)))
            }
            _ => usage(),
        },
        ["blackout", "random", count, seed] => match (count.parse(), seed.parse()) {
            (Ok(count), Ok(seed)) => {
                print!("{}", random(count, seed));
                ExitCode::SUCCESS
            }
            _ => usage(),
        },
        ["blackout", count, seed] => match (count.parse(), seed.parse()) {
            (Ok(count), Ok(seed)) => {
                tell(blackout::blackout(Some(&mut Host::start()), count, seed))
            }
            _ => usage(),
        },
        ["text"] => tell(text::compare(3)),
        ["show", file] => print(file),
        _ => usage(),
    }
}

/// Compares, prints how much of each group there was, and the difference if there is one.
fn compare(all: impl FnOnce(&mut Comparison) -> Result<(), Difference>) -> ExitCode {
    let mut comparison = Comparison::telling(|group| println!("{group}"));
    let outcome = all(&mut comparison);
    let (mut scripts, mut calls, mut seconds) = (0, 0, 0.0);
    for group in &comparison.groups {
        scripts += group.scripts;
        calls += group.calls.values().sum::<u64>();
        seconds += group.seconds;
    }
    let [messages, kinds] = comparison.seen().map(|seen| seen.len());
    if kinds > 0 {
        println!("in whole readings: {messages} messages, {kinds} kinds of nodes");
    }
    println!("in all: {scripts} scripts, {calls} calls, {seconds:.1} s");
    match outcome {
        Ok(()) => {
            println!("no difference");
            ExitCode::SUCCESS
        }
        Err(difference) => {
            print!("A DIFFERENCE\n{difference}");
            ExitCode::FAILURE
        }
    }
}

/// Prints what was tried, or what went wrong.
fn tell(outcome: Result<impl Display, String>) -> ExitCode {
    match outcome {
        Ok(report) => {
            println!("{report}no difference");
            ExitCode::SUCCESS
        }
        Err(difference) => {
            print!("A DIFFERENCE\n{difference}");
            ExitCode::FAILURE
        }
    }
}

fn print(file: &str) -> ExitCode {
    let source = std::fs::read(file).map_err(|error| format!("{file}: {error}"));
    match source.and_then(|source| show(&mut Host::start(), &source)) {
        Ok(text) => {
            // A reader that goes away early is no failure.
            let _ = std::io::stdout().write_all(text.as_bytes());
            ExitCode::SUCCESS
        }
        Err(error) => {
            eprintln!("differential: {error}");
            ExitCode::FAILURE
        }
    }
}

fn usage() -> ExitCode {
    eprintln!(
        "differential lex COUNT SEED: compares lexings of COUNT generated scripts and more\n\
         differential read COUNT SEED: compares whole readings of COUNT generated scripts and more\n\
         differential blackout COUNT SEED: tries COUNT pairs by each rule that may be blacked out\n\
         differential blackout random COUNT SEED: prints COUNT random ones for the prover\n\
         differential text: compares the text test on every sequence of up to three bytes and more\n\
         differential show FILE: prints the tokens and errors of a script"
    );
    ExitCode::from(2)
}
