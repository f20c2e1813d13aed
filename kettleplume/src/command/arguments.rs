//! What the command is asked for.

use std::ffi::{OsStr, OsString};

use kettleplume::Rule;

use super::letters::escaped;

pub const USAGE: &str = "\
usage: kettleplume read [--rule N] [--go-on] [--outline] FILE...
       kettleplume --help | --version";

pub const VERSION: &str = concat!("kettleplume ", env!("CARGO_PKG_VERSION"), "\n");

pub const HELP: &str = "\
Reads scripts of the language Grotsky and says what is found in them.

usage: kettleplume read [--rule N] [--go-on] [--outline] FILE...
       kettleplume --help | --version

For each script its recorded errors are printed, in the order in which they were
found, and then a line that says what came of the reading. An error has its file,
line and column, the message, the line of the script, and a mark under the place. An
error that the parser finds has the place of the word or mark at which it was found:
where something is missing, of what stands there instead. That may be the end of a
line or of the script; the mark then stands after the last character. Columns count
characters. Lines are the file's own; a remark tells where another one is recorded.

Where words or marks are wrong, as in a string that isn't closed, the statements are
not read: most of what would be found in them only follows from those mistakes.

A line of more than 100 characters is cut around the place, with ... where something
is left out. Characters that a terminal shouldn't be given are shown by others.

A FILE that is - is standard input. After -- every word is a FILE.

  --rule N   reads scripts that are written for rule N, 1 or 2; without it, rule 1. By
             rule 2 a name may have digits after its first letter or underscore, a
             loop for x in y ends where its body does, so that a break or continue
             after it is a mistake, and a number with a point may end the script
  --go-on    reads the statements all the same, as earlier versions of this command
             did; what it prints is what they printed
  --outline  prints instead an outline of what a reading keeps, in numbers: a line o
             for the answer (outcome, how many tokens, errors and nodes, the first
             statement), then a line t for each token (kind, start, length, line, and
             the line where it begins), e for each error (message, line, place) and n
             for each node (kind, three tokens, four children, next). docs/RULES.md in
             the source says what the numbers mean. Of several files, each begins with
             a line f and its name. A script for which the program outline has no room,
             up to 65,535 bytes, is printed in full. Statements are always read, as
             with --go-on; the rule is the one that --rule names.
  --help     prints this
  --version  prints the version

Reports and outlines go to standard output. What is wrong with a file or with the
words of the command goes to standard error, and the other files are still read. If
standard error is a terminal and there are several files, a line there tells which
one is being read.

Exit status:
  0  every script was read to its end and has no recorded error
  1  some script has recorded errors or was not read to its end, be it that it is
     too long or no text
  2  the words of the command were not understood, a file could not be read, or
     the output could not be written; 2 goes before 1
";

#[derive(Debug, PartialEq, Eq)]
pub enum Task {
    Help,
    Version,
    Read(Asked),
}

#[derive(Debug, Default, PartialEq, Eq)]
pub struct Asked {
    pub rule: Rule,
    pub go_on: bool,
    pub outline: bool,
    pub files: Vec<OsString>,
}

/// The task that the words ask for, or what is wrong with them.
pub fn task(mut words: impl Iterator<Item = OsString>) -> Result<Task, String> {
    let Some(first) = words.next() else {
        return Err("a command is missing".to_string());
    };
    match first.to_str() {
        Some("--help") => Ok(Task::Help),
        Some("--version") => Ok(Task::Version),
        Some("read") => read(words),
        _ => Err(format!("there is no command {}", quoted(&first))),
    }
}

fn read(mut words: impl Iterator<Item = OsString>) -> Result<Task, String> {
    let mut asked = Asked::default();
    let mut options = true;
    while let Some(word) = words.next() {
        match word.to_str() {
            Some("--") if options => options = false,
            Some("--rule") if options => {
                let number = words.next().ok_or("the number after --rule is missing")?;
                asked.rule = rule(&number)?;
            }
            Some(text) if options && text.starts_with(RULE_IS) => {
                asked.rule = rule(text[RULE_IS.len()..].as_ref())?;
            }
            Some("--go-on") if options => asked.go_on = true,
            Some("--outline") if options => asked.outline = true,
            Some("--help") if options => return Ok(Task::Help),
            Some("--version") if options => return Ok(Task::Version),
            _ if options && is_option(&word) => {
                return Err(format!("there is no option {}", quoted(&word)))
            }
            _ => asked.files.push(word),
        }
    }
    // Read again, it would be empty, and an empty script has no errors.
    if asked.files.iter().filter(|file| *file == "-").count() > 1 {
        return Err("standard input can be read only once".to_string());
    }
    match asked.files.is_empty() {
        true => Err("a file to read is missing".to_string()),
        false => Ok(Task::Read(asked)),
    }
}

/// A rule's number in the same word.
const RULE_IS: &str = "--rule=";

fn rule(number: &OsStr) -> Result<Rule, String> {
    match number.to_str() {
        Some("1") => Ok(Rule::One),
        Some("2") => Ok(Rule::Two),
        _ => Err(format!("there is no rule {}, only 1 and 2", quoted(number))),
    }
}

fn is_option(word: &OsStr) -> bool {
    word.as_encoded_bytes().starts_with(b"-") && word != "-"
}

fn quoted(word: &OsStr) -> String {
    format!("'{}'", escaped(&word.to_string_lossy()))
}
