//! `cargo run --release -p vectors -- all` writes every generated file of the repository and says which
//! of them changed. The other words print a file of theorems to be tried and thrown away: with
//! `definition slow` of scripts that take long, with `definition SEED COUNT` of random ones.

use std::process::ExitCode;
use std::{fs, io};

use vectors::definition;
use vectors::files::{self, File};

fn main() -> ExitCode {
    let words: Vec<String> = std::env::args().skip(1).collect();
    match words.iter().map(String::as_str).collect::<Vec<_>>()[..] {
        ["all"] => files::all().iter().for_each(write),
        ["definition", "slow"] => print!("{}", definition::slow().text()),
        ["definition", seed, count] => {
            let (Ok(seed), Ok(count)) = (seed.parse(), count.parse()) else {
                return usage();
            };
            print!("{}", definition::random(seed, count).text());
        }
        _ => return usage(),
    }
    ExitCode::SUCCESS
}

fn usage() -> ExitCode {
    eprintln!("usage: vectors all | definition slow | definition SEED COUNT");
    ExitCode::FAILURE
}

/// Writes a file, unless it is there already, so that its time stays what it was.
fn write(file: &File) {
    let File { path, bytes } = file;
    let written = match fs::read(path) {
        Ok(stored) if stored == *bytes => return,
        Err(error) if error.kind() != io::ErrorKind::NotFound => Err(error),
        _ => fs::write(path, bytes),
    };
    written.unwrap_or_else(|error| panic!("{}: {error}", path.display()));
    println!("{}", path.display());
}
