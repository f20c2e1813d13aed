//! `bench` times the library, its own text as rustc compiles it, and the original on the same inputs,
//! and prints the tables of docs/SPEED.md; `bench --into FILE` puts them into the file instead,
//! between its two marks.

use std::process::ExitCode;
use std::{env, fs};

use clock::Times;
use inputs::Input;
use oracle::on_large_stack;

mod clock;
mod inputs;
mod mixed;
mod original;
mod ours;
mod report;
// What is there for the other crates, and the style, is the crates' own.
#[allow(warnings, clippy::all)]
mod same;
mod stack;

const BEGIN: &str = "<!-- made by make bench -->\n";
const END: &str = "<!-- up to here -->\n";

fn main() -> ExitCode {
    let words: Vec<String> = env::args().skip(1).collect();
    let words: Vec<&str> = words.iter().map(String::as_str).collect();
    match words[..] {
        [] => {
            print!("{}", tables());
            ExitCode::SUCCESS
        }
        ["--into", file] => put_into(file),
        ["--on-stack", way, size] => match (way.parse(), size.parse()) {
            (Ok(way), Ok(size)) => {
                stack::try_stack(way, size);
                ExitCode::SUCCESS
            }
            _ => usage(),
        },
        _ => usage(),
    }
}

/// The original reads and drops its trees by recursion, so all are timed on a large stack.
fn tables() -> String {
    on_large_stack(|| {
        let forms = timed(&inputs::forms());
        let growing = timed(&inputs::growing());
        eprintln!("stack");
        report::text(&forms, &growing, &stack::needs())
    })
}

/// Checks that the readers agree, then times them.
fn timed(inputs: &[Input]) -> Vec<Times> {
    let timed = inputs.iter().map(|input| {
        eprintln!("{}", input.name);
        input.scripts.iter().for_each(|script| ours::check(script));
        Times::of(input)
    });
    timed.collect()
}

fn put_into(file: &str) -> ExitCode {
    let text = fs::read_to_string(file).unwrap_or_default();
    let Some((before, rest)) = text.split_once(BEGIN) else {
        eprintln!("bench: {file} has no place for the tables");
        return ExitCode::FAILURE;
    };
    let Some((_, behind)) = rest.split_once(END) else {
        eprintln!("bench: the place for the tables in {file} has no end");
        return ExitCode::FAILURE;
    };
    let text = format!("{before}{BEGIN}\n{}{END}{behind}", tables());
    match fs::write(file, text) {
        Ok(()) => ExitCode::SUCCESS,
        Err(error) => {
            eprintln!("bench: {file}: {error}");
            ExitCode::FAILURE
        }
    }
}

fn usage() -> ExitCode {
    eprintln!(
        "bench: times the readers and prints tables\n\
         bench --into FILE: puts the tables between the file's two marks"
    );
    ExitCode::from(2)
}

#[cfg(test)]
mod tests {
    use super::*;
    use expected::records::{kind, node, NODE_WORDS};
    use ours::{Library, Tables};

    /// All readers make the same of all that is timed.
    #[test]
    fn inputs_are_read_alike() {
        on_large_stack(|| {
            for input in inputs::forms().iter().chain(&inputs::growing()) {
                input.scripts.iter().for_each(|script| ours::check(script));
            }
        });
    }

    /// The mixed script has a node of every kind, but for Empty, which only blank lines make.
    #[test]
    fn mixed_script_has_all_forms() {
        let script = mixed::script(65_500);
        let mut tables = Tables::needed(&script);
        tables.read::<Library>(&script);
        let mut kinds: Vec<u32> = tables
            .nodes
            .chunks(NODE_WORDS)
            .map(|n| n[node::KIND])
            .collect();
        kinds.sort();
        kinds.dedup();
        let all: Vec<u32> = kind::ALL.filter(|&kind| kind != kind::EMPTY).collect();
        assert_eq!(kinds, all);
    }
}
