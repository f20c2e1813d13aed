//! `src/token.rs` is the original's file without the derives of `serde`.

use std::fs;
use std::path::Path;

/// A text that stands elsewhere, or more often, was not what the edit is about.
fn without(text: &str, old: &str, count: usize) -> String {
    assert_eq!(text.matches(old).count(), count, "occurrences of {old:?}");
    text.replace(old, "")
}

#[test]
fn the_types_are_the_originals() {
    let here = Path::new(env!("CARGO_MANIFEST_DIR"));
    let read = |file| fs::read_to_string(here.join(file)).expect("the file is there");
    let original = read("../oracle/src/token.rs");
    let original = without(&original, "use serde::{Deserialize, Serialize};\n", 1);
    let original = without(&original, "Serialize, Deserialize, ", 3);
    let ours = read("src/token.rs");
    let (first, rest) = ours.split_once('\n').expect("a line that says what it is");
    assert!(first.starts_with("// "), "{first}");
    assert_eq!(rest, original);
}
