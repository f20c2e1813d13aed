//! Proves the Rattle crates, or finds that they were proved, and links the static libraries made of
//! them.
//!
//! `rt lib` in a crate's folder proves it with all that it uses and writes an archive, for x86-64 Linux
//! as all that the toolchain makes. A crate is a library for other crates or a static library, and the
//! name of an archive is the one that C callers have: that of the crate `reader_c` is `libreader.a`.
//!
//! What was proved is kept in the repository's own `target-cargo/proved`, in whatever folder cargo
//! builds: so another profile, `cargo doc`, `cargo install` and a program elsewhere that depends on
//! this crate prove nothing again. `build/key.rs` says what has to be the same for that, and
//! `build/kept.rs` how it is kept. There must be an `rt` all the same: without it nothing says of
//! which toolchain a kept archive would have to be.
//!
//! What `rt` prints goes on to standard error as it comes. Cargo shows it while the script runs if it
//! is called with `-vv`, and all of it if the script fails.

use std::env;
use std::path::{Path, PathBuf};
use std::process;

#[path = "build/files.rs"]
mod files;
#[path = "build/kept.rs"]
mod kept;
#[path = "build/key.rs"]
mod key;
#[path = "build/toolchain.rs"]
mod toolchain;

use files::{renewed, Had};
use kept::Kept;
use key::Sources;
use toolchain::Kit;

/// The crates whose exported functions are linked, each with the name of its archive.
const EXPORTS: [(&str, &str); 2] = [("reader_c", "reader"), ("pair", "pair")];

fn main() {
    link().unwrap_or_else(|what| {
        println!("cargo::error={what}");
        process::exit(1)
    });
}

fn link() -> Had<()> {
    toolchain::fits_the_build()?;
    let root = given("CARGO_MANIFEST_DIR").join("..");
    let out = given("OUT_DIR");
    let kit = Kit::find()?;
    kit.watch();

    let kept = Kept::at(root.join("target-cargo/proved"));
    let _alone = kept.alone();
    let sources = Sources::of(&root)?;
    sources.watch();
    let key = key::text(&sources, &kit)?;
    if !kept.fetch(&key, &out) {
        make(&root, &kit, &out)?;
        // What was written while the prover ran may not be what it read.
        if key::text(&Sources::of(&root)?, &kit)? != key {
            return Err("the sources were changed while they were proved: build again".to_string());
        }
        if let Err(what) = kept.keep(&key, &out) {
            println!("cargo::warning=what was proved is linked, but can't be kept: {what}");
        }
    }
    for (_, name) in EXPORTS {
        println!("cargo::rustc-link-lib=static=kettleplume_{name}");
    }
    println!(
        "cargo::rustc-link-search=native={}",
        out.join(LIBRARIES).display()
    );
    // For the tests that try the archives themselves.
    println!("cargo::metadata=archives={}", out.join(ARCHIVES).display());
    Ok(())
}

/// A folder that cargo tells.
fn given(name: &str) -> PathBuf {
    PathBuf::from(env::var_os(name).unwrap_or_else(|| panic!("cargo gives {name}")))
}

/// The folder of what is linked, and of the archives under the names that C callers have. They are apart
/// so that no `-l` of another crate finds an archive by its short name.
const LIBRARIES: &str = "lib";
const ARCHIVES: &str = "archives";

fn library(name: &str) -> PathBuf {
    Path::new(LIBRARIES).join(format!("libkettleplume_{name}.a"))
}

fn archive(name: &str) -> PathBuf {
    Path::new(ARCHIVES).join(format!("lib{name}.a"))
}

/// The files that are made, and kept: where they lie in their folder.
fn made() -> impl Iterator<Item = PathBuf> {
    EXPORTS
        .into_iter()
        .flat_map(|(_, name)| [library(name), archive(name)])
}

/// Proves, and makes all files in a folder.
fn make(root: &Path, kit: &Kit, out: &Path) -> Had<()> {
    renewed(&out.join(LIBRARIES))?;
    renewed(&out.join(ARCHIVES))?;
    for (proved, name) in EXPORTS {
        let archive = out.join(archive(name));
        kit.archive(root, proved, &archive)?;
        files::copied(&archive, &out.join(library(name)))?;
    }
    Ok(())
}
