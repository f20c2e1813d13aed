//! The generated files of the repository are what the generators make, and no other file stands among
//! them. Nothing is written, and no library is needed.

use std::collections::BTreeSet;
use std::fs;
use std::path::{Path, PathBuf};

use vectors::files::{all, made_by, COMMAND};
use vectors::folders::{path, root, OUTCOMES, SCRIPTS};

#[test]
fn stored_files_are_what_is_made() {
    let mut differ = vec![];
    for file in all() {
        if fs::read(&file.path).ok() != Some(file.bytes) {
            differ.push(file.path);
        }
    }
    assert!(differ.is_empty(), "run `{COMMAND}`: {differ:?} differ");
}

/// Where a form has room for a comment, the first line names the command.
#[test]
fn theorems_say_how_they_are_made() {
    let first = format!("-- {}\n", made_by());
    let theorems = all().into_iter().map(|file| file.path);
    let theorems = theorems.filter(|path| path.extension().is_some_and(|e| e == "antt"));
    let count = theorems
        .inspect(|path| {
            let text = fs::read_to_string(path).expect("the file is there");
            assert!(text.starts_with(&first), "{}", path.display());
        })
        .count();
    assert_eq!(count, 12);
}

/// What an earlier generator made and this one doesn't would stay for ever.
#[test]
fn nothing_is_left_over() {
    let made: BTreeSet<PathBuf> = all().into_iter().map(|file| file.path).collect();
    let by_hand = ["Cases", "Lib"].map(|name| path(SCRIPTS, &format!("proofs/{name}.antt")));
    let outlines = files(&root().join("examples"), "outline");
    let scripts = files(&path(OUTCOMES, "data"), "gr");
    let theorems = files(&path(SCRIPTS, "proofs"), "antt");
    for file in outlines.into_iter().chain(scripts).chain(theorems) {
        let known = made.contains(&file) || by_hand.contains(&file);
        assert!(known, "{} isn't made", file.display());
    }
}

/// The files of a folder that end so.
fn files(folder: &Path, ending: &str) -> Vec<PathBuf> {
    let entries = fs::read_dir(folder).expect("the folder is there");
    let paths = entries.map(|entry| entry.expect("an entry").path());
    paths
        .filter(|path| path.extension().is_some_and(|e| e == ending))
        .collect()
}
