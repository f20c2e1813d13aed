//! What a proof and an archive depend on, as one text.
//!
//! The text has everything whole: the toolchain's identity, how the archives are made, the lines of
//! `crates.txt`, and each file of each crate that is needed. It is kept beside the archives
//! and compared byte for byte. So there is no hash to trust, and at two megabytes none is missed.

use std::collections::BTreeMap;
use std::fs;
use std::os::unix::ffi::OsStrExt as _;
use std::path::{Path, PathBuf};

use crate::files::{told, Had};
use crate::toolchain::Kit;
use crate::EXPORTS;

/// What stands in a crate's folder and is no part of it: wrong versions, and what `rt` makes.
const APART: [&str; 2] = ["must-fail", "out"];

/// The crates that are linked and all that they use, by the list, each with its line there. What else is in `crates/` is no part of the library, and a change of it is no reason to make the
/// library again.
pub struct Sources {
    list: PathBuf,
    folder: PathBuf,
    needed: BTreeMap<String, Vec<String>>,
}

impl Sources {
    pub fn of(root: &Path) -> Had<Sources> {
        let list = root.join("crates.txt");
        let text = fs::read_to_string(&list).map_err(|e| told(&list, e))?;
        let mut needed = BTreeMap::new();
        let mut next = EXPORTS.map(|(name, _)| name.to_string()).to_vec();
        while let Some(name) = next.pop() {
            if needed.contains_key(&name) {
                continue;
            }
            let lines = lines_of(&text, &name);
            let used = lines.iter().flat_map(|line| uses(line));
            next.extend(used.map(str::to_string));
            needed.insert(name, lines);
        }
        Ok(Sources {
            list,
            folder: root.join("crates"),
            needed,
        })
    }

    /// The folders of the crates. A library of the toolchain has none here.
    fn folders(&self) -> impl Iterator<Item = PathBuf> + '_ {
        let folders = self.needed.keys().map(|name| self.folder.join(name));
        folders.filter(|folder| folder.is_dir())
    }

    /// Has cargo run this script again after a change.
    pub fn watch(&self) {
        println!("cargo::rerun-if-changed={}", self.list.display());
        for part in self.folders().flat_map(|folder| parts(&folder)) {
            println!("cargo::rerun-if-changed={}", part.display());
        }
    }
}

/// The lines of the list about a crate, without comments: its name, what sort of crate it is, and after a
/// colon what it uses. More than one line is an error that `rt` tells.
fn lines_of(list: &str, name: &str) -> Vec<String> {
    let lines = list.lines().filter_map(|line| line.split('#').next());
    lines
        .filter(|line| line.split([':', ' ', '\t']).next() == Some(name))
        .map(|line| line.trim().to_string())
        .collect()
}

/// What a crate uses by its line.
fn uses(line: &str) -> impl Iterator<Item = &str> {
    let uses = line.split_once(':').map_or("", |(_, uses)| uses);
    uses.split_whitespace()
}

pub fn text(sources: &Sources, kit: &Kit) -> Had<Vec<u8>> {
    let mut key = vec![];
    part(&mut key, b"rt version", kit.version()?.as_bytes());
    // How the tools are called, with every flag.
    part(&mut key, b"made by", include_bytes!("toolchain.rs"));
    for (name, lines) in &sources.needed {
        part(&mut key, name.as_bytes(), lines.join("\n").as_bytes());
    }
    for folder in sources.folders() {
        for file in files(&folder)? {
            let bytes = fs::read(&file).map_err(|e| told(&file, e))?;
            let place = file.strip_prefix(&sources.folder).unwrap_or(&file);
            part(&mut key, place.as_os_str().as_bytes(), &bytes);
        }
    }
    Ok(key)
}

/// A part with its name and both lengths, so that no two lists of parts give the same text.
fn part(key: &mut Vec<u8>, name: &[u8], bytes: &[u8]) {
    key.extend(format!("{} {} ", name.len(), bytes.len()).bytes());
    key.extend([name, b"\n", bytes, b"\n"].concat());
}

/// What stands in a crate's folder and is a part of it, as far as it is there.
fn parts(top: &Path) -> Vec<PathBuf> {
    let entries = fs::read_dir(top).into_iter().flatten().flatten();
    let paths = entries.map(|entry| entry.path());
    paths
        .filter(|path| !APART.iter().any(|apart| *path == top.join(apart)))
        .collect()
}

/// All files of a crate, in order. A link is refused: `rt` follows none when it asks what has changed,
/// so it could take a crate for proved that isn't.
fn files(top: &Path) -> Had<Vec<PathBuf>> {
    let mut files = vec![];
    let mut folders = vec![top.to_path_buf()];
    while let Some(folder) = folders.pop() {
        for entry in fs::read_dir(&folder).map_err(|e| told(&folder, e))? {
            let entry = entry.map_err(|e| told(&folder, e))?;
            let path = entry.path();
            let kind = entry.file_type().map_err(|e| told(&path, e))?;
            if kind.is_symlink() {
                return Err(format!(
                    "{} is a link, and a crate may have none",
                    path.display()
                ));
            } else if !kind.is_dir() {
                files.push(path);
            } else if !APART.iter().any(|apart| path == top.join(apart)) {
                folders.push(path);
            }
        }
    }
    files.sort();
    Ok(files)
}
