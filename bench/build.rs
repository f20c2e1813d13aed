//! Makes Rust of the text of the crates, so that the same text can be timed as rustc compiles it.
//!
//! The two languages share all forms that the crates use. So the edits are few: what is there for
//! the prover goes, and a crate becomes a module.

use std::path::Path;
use std::{env, fs};

/// The crate with the whole reading; the list has all that it needs.
const WHOLE: &str = "reader";

fn main() {
    println!("cargo::rerun-if-changed=../crates.txt");
    println!("cargo::rerun-if-changed=build.rs");
    let list = fs::read_to_string("../crates.txt").expect("the list of crates is there");
    let mut names: Vec<&str> = needs(&list, WHOLE).collect();
    names.push(WHOLE);
    let text: String = names.iter().map(|name| module(&list, name)).collect();
    let folder = env::var_os("OUT_DIR").expect("cargo gives a folder");
    fs::write(Path::new(&folder).join("same.rs"), text).expect("the file is written");
}

/// The crates that a crate needs, by the list.
fn needs<'a>(list: &'a str, name: &str) -> impl Iterator<Item = &'a str> {
    let start = format!("{name}:");
    let line = list.lines().find_map(|line| line.strip_prefix(&start));
    line.expect("the crate is listed").split_whitespace()
}

/// A crate as a module, which sees the crates that it needs.
fn module(list: &str, name: &str) -> String {
    let file = format!("../crates/{name}/src/lib.rt");
    println!("cargo::rerun-if-changed={file}");
    let text = fs::read_to_string(&file).expect("the crate has its text");
    let others: Vec<&str> = needs(list, name).collect();
    format!(
        "pub mod {name} {{\nuse super::{{{}}};\n{}}}\n",
        others.join(", "),
        rust(&text)
    )
}

/// The text without what only the prover reads.
fn rust(text: &str) -> String {
    let mut out = String::new();
    let mut rest = text;
    while !rest.is_empty() {
        let end = rest.find('\n').map_or(rest.len(), |at| at + 1);
        let (line, behind) = rest.split_at(end);
        rest = behind;
        match line.trim_start() {
            clause if clause.starts_with("ensures ") || clause.starts_with("requires ") => {
                rest = behind_clause(line, behind);
                // The last clause of a trait's method has its semicolon.
                if text[..text.len() - rest.len()].trim_end().ends_with("};") {
                    out += ";\n";
                }
            }
            ghost if ghost.starts_with("ghost ") => {}
            told if TOLD.iter().any(|start| told.starts_with(start)) => {}
            _ => out += line,
        }
    }
    out
}

/// How the attributes begin that only the prover reads.
const TOLD: [&str; 3] = ["#![tactic(", "#[tactic(", "#[cycle("];

/// What follows a clause that begins on this line and may go on after it: braces are in pairs.
fn behind_clause<'a>(line: &str, behind: &'a str) -> &'a str {
    let mut depth = braces(line);
    let mut rest = behind;
    while depth > 0 {
        let end = rest.find('\n').expect("the clause is closed") + 1;
        depth += braces(&rest[..end]);
        rest = &rest[end..];
    }
    rest
}

/// How many braces are opened and not closed.
fn braces(line: &str) -> i32 {
    let count = |brace| line.matches(brace).count() as i32;
    count('{') - count('}')
}
