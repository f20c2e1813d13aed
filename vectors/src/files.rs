//! Every generated file of the repository, and the command that makes them.
//!
//! | Files | Where the command stands |
//! |---|---|
//! | `crates/scripts/proofs/*.antt`, save `Cases` and `Lib` | first line |
//! | `crates/blackout/proofs/Pairs.antt`, `Random.antt`, `crates/alike/proofs/Pairs.antt` | first line |
//! | `stdin` of the program that replays vectors | first line |
//! | its `stdout` | here: each line answers one of `stdin` |
//! | `stdin` of the program that replays whole readings | in the first script, a comment |
//! | its `stdout` | here: it is all answers |
//! | `crates/outcomes/data/*.gr` | here: the bytes are scripts that show something |
//! | `crates/outcomes/stdout`, `examples/*.outline` | here: `docs/RULES.md`, 'Outline', fixes the lines |

use std::path::PathBuf;

use crate::folders::{path, REPLAY};
use crate::{blackout, definition, outlines, sheet, whole};

/// The command that makes them all.
pub const COMMAND: &str = "cargo run --release -p vectors -- all";

/// What a file says of it where its form has room for a comment.
pub fn made_by() -> String {
    format!("Made by `{COMMAND}`")
}

/// A generated file.
pub struct File {
    pub path: PathBuf,
    pub bytes: Vec<u8>,
}

impl File {
    /// A file of a Rattle crate.
    pub fn of(folder: &str, name: &str, bytes: impl Into<Vec<u8>>) -> File {
        File {
            path: path(folder, name),
            bytes: bytes.into(),
        }
    }

    /// A file of theorems, whose first line says how it is made.
    pub fn theorems(folder: &str, name: &str, text: &str) -> File {
        let text = format!("-- {}\n{text}", made_by());
        File::of(folder, &format!("proofs/{name}.antt"), text)
    }
}

/// All of them. Nothing is written.
pub fn all() -> Vec<File> {
    let theorems = definition::files();
    let groups = [
        sheet().files(REPLAY),
        whole::vectors().files(),
        outlines::files(),
        theorems.iter().map(definition::File::file).collect(),
        blackout::pairs::files(),
    ];
    groups.into_iter().flatten().collect()
}
