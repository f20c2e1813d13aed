//! Outlines (`docs/RULES.md`, 'Outline'): what the program `outline` has to print for a script. Tokens,
//! errors and nodes are the original's. Where a room of `outline` ends, a level too many opens or
//! the script is no text, the outcome and what is kept follow `docs/RULES.md`, 'Outcomes', and stand
//! beside the script.

use std::path::PathBuf;
use std::{fs, iter};

use expected::lexing::rust_string;
use expected::records::{outcome, rule, way};
use expected::whole::with_index;
use oracle::{on_large_stack, Rule};

use crate::definition::{case, End, Script};
use crate::files::File;
use crate::folders::{root, OUTCOMES};
use crate::lexing::judge::token_words;

/// The most bytes that `outline` has room for, and its rooms for tokens, errors and nodes; its newline
/// index has a word for each token.
const MOST_BYTES: usize = 4096;
const ROOMS: [usize; 3] = [2048, 256, 1600];

/// The outline of a script. `ends` is an outcome that the original doesn't know, with how many
/// tokens, errors and top-level statements are kept.
pub fn outline(source: &[u8], ends: Option<(u32, [usize; 3])>) -> String {
    let head = |outcome: u32| format!("o {outcome} 0 0 0 0\n");
    if source.len() > MOST_BYTES {
        return head(outcome::TOO_LONG);
    }
    if let Some((outcome::NO_TEXT, _)) = ends {
        return head(outcome::NO_TEXT);
    }
    let script = Script {
        rule: rule::ONE,
        way: way::GO_ON,
        text: source.iter().map(|b| char::from(*b)).collect(),
        ends: ends.map(|(outcome, kept)| End {
            outcome,
            rooms: with_index(ROOMS),
            kept,
        }),
    };
    let words = on_large_stack(|| case(&script).words);
    let &[_, tokens, errors, nodes, _, _] = &words[0][..] else {
        panic!("an answer is six words");
    };
    let counts = [tokens, errors, nodes].map(|n| n as usize);
    assert!(
        iter::zip(counts, ROOMS).all(|(count, room)| count <= room),
        "more than outline has room for"
    );
    let tokens = &on_large_stack(|| token_words(Rule::One, rust_string(source)))[..counts[0]];
    let (errors, nodes) = words[1..].split_at(counts[1]);
    // The looks, its last word, are no part of an outline.
    let mut out = line('o', &words[0][..5]);
    out.extend(tokens.iter().map(|token| line('t', token)));
    out.extend(errors.iter().map(|error| line('e', error)));
    out.extend(nodes.iter().map(|node| line('n', node)));
    out
}

fn line(letter: char, words: &[u32]) -> String {
    let words: String = words.iter().map(|word| format!(" {word}")).collect();
    format!("{letter}{words}\n")
}

/// A script of the program `outcomes`, with how it ends if the original doesn't know.
pub struct Ending {
    pub script: Vec<u8>,
    pub ends: Option<(u32, [usize; 3])>,
}

/// The first scripts of the program `outcomes`, in the order in which it prints them: each outcome
/// from 0 to 8 under the rooms of `outline`, both ways to 6, what an outline says of lines, and that it
/// goes on after a bad lexing.
pub fn endings() -> Vec<Ending> {
    let known = |text: &str| Ending {
        script: text.as_bytes().to_vec(),
        ends: None,
    };
    let ending = |text: String, outcome, kept| Ending {
        script: text.into_bytes(),
        ends: Some((outcome, kept)),
    };
    let sum = vec!["a"; 801].join("+");
    vec![
        known("let stop = \"Salicional\"\nstop1\n"),
        known("let stop = 8\n{return}\nlet pitch = 4\n"),
        known("let stop = 8\nlet pitch = 2.66"),
        Ending {
            script: b"let stop = \"Salicional\xff\"\n".to_vec(),
            ends: Some((outcome::NO_TEXT, [0; 3])),
        },
        known(&"a".repeat(4097)),
        // 2,047 marks and the closing Newline; EOF finds no room.
        ending("(".repeat(2047), outcome::TOKEN_ROOM, [2048, 0, 0]),
        ending("$".repeat(257), outcome::ERROR_ROOM, [0, 256, 0]),
        ending("break\n".repeat(257), outcome::ERROR_ROOM, [515, 256, 256]),
        // 801 names and 800 sums after a statement of two nodes.
        ending(format!("a\n{sum}\n"), outcome::NODE_ROOM, [1605, 0, 1]),
        ending(
            format!("let a\n{}a{}\n", "(".repeat(127), ")".repeat(127)),
            outcome::TOO_DEEP,
            [260, 0, 1],
        ),
        // The longest script, and the most brackets.
        known(&format!(
            "{}a{}\n#{}",
            "(".repeat(126),
            ")".repeat(126),
            "s".repeat(3841)
        )),
        // Where tokens begin: a string of several lines, newlines of the source and an added one, EOF alone.
        known("\"x\ny\nz\"\n"),
        known("a\n\nb"),
        known(""),
        // An outline goes on after a bad lexing.
        known("a $ b )\n"),
    ]
}

/// The repository's example scripts, in the order of their names.
pub fn examples() -> Vec<PathBuf> {
    let mut scripts: Vec<PathBuf> = fs::read_dir(root().join("examples"))
        .expect("the folder is there")
        .map(|entry| entry.expect("an entry").path())
        .filter(|path| path.extension().is_some_and(|e| e == "gr"))
        .collect();
    scripts.sort();
    scripts
}

/// All files that are made here: the examples' outlines, and what `outcomes` reads and prints. It
/// is run on the examples too.
pub fn files() -> Vec<File> {
    let (mut files, mut scripts) = (vec![], endings());
    for example in examples() {
        let script = fs::read(&example).expect("the script is there");
        files.push(File {
            path: example.with_extension("outline"),
            bytes: outline(&script, None).into_bytes(),
        });
        scripts.push(Ending { script, ends: None });
    }
    let mut stdout = String::new();
    assert!(scripts.len() <= 26, "a letter for each");
    for (letter, ending) in ('a'..='z').zip(scripts) {
        stdout += &outline(&ending.script, ending.ends);
        let name = format!("data/{letter}.gr");
        files.push(File::of(OUTCOMES, &name, ending.script));
    }
    files.push(File::of(OUTCOMES, "stdout", stdout));
    files
}
