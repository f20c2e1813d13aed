//! Where generated files stand: the folders of `crates/` that hold some, each named here alone.

use std::path::{Path, PathBuf};

/// The program that runs stored vectors of the leaves and of lexing.
pub const REPLAY: &str = "replay";
/// The program that runs stored whole readings.
pub const REPLAY_WHOLE: &str = "replay_whole";
/// The program that prints the outlines of stored scripts, one for each outcome among them.
pub const OUTCOMES: &str = "outcomes";
/// The program that prints the outline of its input.
pub const OUTLINE: &str = "outline";
/// Theorems: scripts on which the definition is tried.
pub const SCRIPTS: &str = "scripts";
/// Theorems: what may be blacked out, and pairs of scripts on which that is tried.
pub const BLACKOUT: &str = "blackout";
/// Theorems: what may be blacked out does not change the reading, and the same pairs, read.
pub const ALIKE: &str = "alike";

/// Where a Rattle crate of this repository keeps a file.
pub fn path(folder: &str, file: &str) -> PathBuf {
    root().join("crates").join(folder).join(file)
}

/// The repository.
pub fn root() -> &'static Path {
    let here = Path::new(env!("CARGO_MANIFEST_DIR"));
    here.parent().expect("the crate lies in the repository")
}
