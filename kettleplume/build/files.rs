//! Files and folders, with errors that say which.

use std::fs;
use std::io;
use std::path::Path;

/// Says in a line what can't be had.
pub type Had<T> = Result<T, String>;

pub fn told(path: &Path, error: io::Error) -> String {
    format!("{}: {error}", path.display())
}

pub fn copied(from: &Path, to: &Path) -> Had<()> {
    let copied = fs::copy(from, to);
    copied.map(|_| ()).map_err(|e| told(from, e))
}

/// Removes a file or a folder, if it is there.
pub fn removed(path: &Path) -> Had<()> {
    let gone = match path.is_dir() {
        true => fs::remove_dir_all(path),
        false => fs::remove_file(path),
    };
    match gone {
        Err(e) if e.kind() != io::ErrorKind::NotFound => Err(told(path, e)),
        _ => Ok(()),
    }
}

/// An empty folder.
pub fn renewed(folder: &Path) -> Had<()> {
    removed(folder)?;
    fs::create_dir_all(folder).map_err(|e| told(folder, e))
}
