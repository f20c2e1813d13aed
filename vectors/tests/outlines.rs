//! Every outcome from 0 to 8 occurs in the stored outlines, and the worked example of `docs/RULES.md`,
//! 'Outline', is one.

use std::collections::BTreeSet;
use std::fs;
use vectors::folders::{path, OUTCOMES, OUTLINE};
use vectors::outlines::{examples, outline};

#[test]
fn every_outcome_occurs() {
    let stdout = fs::read_to_string(path(OUTCOMES, "stdout")).expect("the file is there");
    let outcomes: BTreeSet<&str> = stdout
        .lines()
        .filter(|line| line.starts_with('o'))
        .filter_map(|line| line.split(' ').nth(1))
        .collect();
    assert!(outcomes
        .into_iter()
        .eq(["0", "1", "2", "3", "4", "5", "6", "7", "8"]));
}

#[test]
fn the_worked_example_of_the_rules() {
    let read = |file| fs::read(path(OUTLINE, file)).expect("the file is there");
    assert_eq!(read("stdin"), b"a = 1\n");
    assert_eq!(outline(b"a = 1\n", None).into_bytes(), read("stdout"));
}

#[test]
fn there_are_examples() {
    assert!(examples().len() >= 5);
}
