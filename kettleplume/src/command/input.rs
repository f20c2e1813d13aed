//! Scripts from files and from standard input.

use std::ffi::OsStr;
use std::fs::File;
use std::io::{self, Read};

use kettleplume::LONGEST;

use super::letters::escaped;

/// How a file is called in reports.
pub fn name(file: &OsStr) -> String {
    match file.to_str() {
        Some("-") => "standard input".to_string(),
        _ => escaped(&file.to_string_lossy()),
    }
}

/// The bytes of a script, or why they can't be had, in words.
pub fn bytes(file: &OsStr) -> Result<Vec<u8>, String> {
    let read = match file.to_str() {
        Some("-") => start_of(io::stdin().lock()),
        _ => File::open(file).and_then(start_of),
    };
    read.map_err(|error| reason(&error))
}

/// At most one byte more than a script may have: that tells one that is too long, and a file without
/// end doesn't fill the memory.
fn start_of(from: impl Read) -> io::Result<Vec<u8>> {
    let mut bytes = vec![];
    from.take(LONGEST as u64 + 1).read_to_end(&mut bytes)?;
    Ok(bytes)
}

fn reason(error: &io::Error) -> String {
    match error.kind() {
        io::ErrorKind::NotFound => "there is no such file".to_string(),
        io::ErrorKind::PermissionDenied => "the file may not be read".to_string(),
        io::ErrorKind::IsADirectory => "this is a directory, not a script".to_string(),
        _ => format!("the file can't be read: {error}"),
    }
}
