//! The vectors have all that they should have.

use std::collections::BTreeSet;

/// Every vector has an answer with its letter, and no other line has one.
#[test]
fn every_vector_has_its_answer() {
    let sheet = vectors::sheet();
    let vectors = sheet.stdin.lines().filter(|line| !line.starts_with('#'));
    assert_eq!(vectors.clone().count(), sheet.stdout.lines().count());
    for (vector, answer) in vectors.zip(sheet.stdout.lines()) {
        assert!(answer == "?" || vector[..1] == answer[..1], "{vector}");
    }
}

/// The lexing vectors have every outcome of lexing but 4, every kind, value sort and message.
#[test]
fn lexing_vectors_have_everything() {
    let sheet = vectors::sheet();
    let [mut outcomes, mut kinds, mut sorts, mut messages] = [const { BTreeSet::new() }; 4];
    for answer in sheet.stdout.lines().filter(|line| line.starts_with("c ")) {
        let fields: Vec<&str> = answer.split(' ').collect();
        let number = |at: usize| -> u32 { fields[at].parse().expect("a number") };
        outcomes.insert(number(1));
        for (at, field) in fields.iter().enumerate() {
            match *field {
                "t" => {
                    kinds.insert(number(at + 1));
                    sorts.insert(number(at + 5));
                }
                "e" => {
                    messages.insert(number(at + 1));
                }
                _ => (),
            }
        }
    }
    assert!(outcomes.into_iter().eq([0, 2, 3, 5, 6, 13]));
    assert!(kinds.into_iter().eq(0..50));
    assert!(sorts.into_iter().eq(0..4));
    assert!(messages.into_iter().eq(1..4));
}
