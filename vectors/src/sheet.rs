//! A program's input and the output that is right for it, line by line.

use std::collections::{BTreeMap, HashSet};
use std::fmt::{Display, Write};

use crate::files::File;

/// A program reads all of its input into a buffer of this size.
const INPUT_LIMIT: usize = 262_144;

/// Vectors with their answers, in a fixed order.
#[derive(Default)]
pub struct Sheet {
    pub stdin: String,
    pub stdout: String,
    seen: HashSet<String>,
}

impl Sheet {
    /// Adds a vector, a letter and its fields, and the answer's fields; the answer repeats the
    /// letter. A vector that is there already is not added again.
    pub fn add(&mut self, letter: char, fields: &[&dyn Display], answer: &[&dyn Display]) {
        self.add_line(&line(letter, fields), &line(letter, answer));
    }

    /// Adds a line that says something about the vectors. It has no answer.
    pub fn comment(&mut self, text: &str) {
        writeln!(self.stdin, "# {text}").expect("a string takes every line");
    }

    /// Adds a line that is no vector.
    pub fn add_unknown(&mut self, text: &str) {
        self.add_line(text, "?");
    }

    fn add_line(&mut self, vector: &str, answer: &str) {
        if self.seen.insert(vector.to_string()) {
            writeln!(self.stdin, "{vector}").expect("a string takes every line");
            writeln!(self.stdout, "{answer}").expect("a string takes every line");
        }
    }

    /// How many vectors there are with each letter; `?` counts the lines that are none.
    pub fn counts(&self) -> BTreeMap<char, usize> {
        let mut counts = BTreeMap::new();
        for answer in self.stdout.lines() {
            *counts
                .entry(answer.chars().next().unwrap_or('?'))
                .or_insert(0) += 1;
        }
        counts
    }

    /// Both files of a Rattle program.
    pub fn files(self, program: &str) -> Vec<File> {
        assert!(self.stdin.len() <= INPUT_LIMIT, "too long an input");
        vec![
            File::of(program, "stdin", self.stdin),
            File::of(program, "stdout", self.stdout),
        ]
    }
}

/// A byte string as a field: lower-case hexadecimal, and a dash if it is empty.
pub fn hex(bytes: &[u8]) -> String {
    if bytes.is_empty() {
        return "-".to_string();
    }
    bytes.iter().map(|b| format!("{b:02x}")).collect()
}

/// Numbers as one field after the other.
pub fn list(words: &[u32]) -> String {
    let words: Vec<String> = words.iter().map(u32::to_string).collect();
    words.join(" ")
}

/// A letter and its fields, each after one space; a field without text leaves no trace.
fn line(letter: char, fields: &[&dyn Display]) -> String {
    let mut line = letter.to_string();
    for field in fields {
        let field = field.to_string();
        if !field.is_empty() {
            line += " ";
            line += &field;
        }
    }
    line
}
