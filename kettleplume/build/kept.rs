//! Archives of what was proved, kept for the next build.
//!
//! Each folder here has a key (`key.rs`) and the files that were made under it. It is written under
//! another name and renamed when it is complete, so what is found is whole. Its name says only when it
//! was made: which one fits is found by comparing keys.

use std::fs::{self, File};
use std::io::Write as _;
use std::path::{Path, PathBuf};
use std::process;
use std::time::{SystemTime, UNIX_EPOCH};

use crate::files::{copied, removed, renewed, told, Had};
use crate::made;

/// How many are kept: enough for some branches. The oldest goes when there are more.
const MOST: usize = 8;

/// What stands before the name of a folder that isn't complete.
const UNDER_WAY: &str = "new.";

/// The file with the key.
const KEY: &str = "key";

pub struct Kept {
    folder: PathBuf,
}

impl Kept {
    pub fn at(folder: PathBuf) -> Kept {
        Kept { folder }
    }

    /// Waits until no other build proves, for `rt` has one folder for all and the second build will find
    /// what the first one keeps. Where nothing can be written there is nothing to wait for.
    pub fn alone(&self) -> Option<File> {
        fs::create_dir_all(&self.folder).ok()?;
        let file = File::create(self.folder.join("lock")).ok()?;
        if file.try_lock().is_err() {
            eprintln!("another build looks for archives or proves: this one waits for it");
            file.lock().ok()?;
        }
        Some(file)
    }

    /// Copies the files that were made under this key, if they are here.
    pub fn fetch(&self, key: &[u8], to: &Path) -> bool {
        let fits = |folder: &PathBuf| fs::read(folder.join(KEY)).is_ok_and(|other| other == key);
        let mut found = self.complete().into_iter().filter(fits);
        found.any(|folder| copy(&folder, to).is_ok())
    }

    /// Keeps the files in a folder under this key.
    pub fn keep(&self, key: &[u8], from: &Path) -> Had<()> {
        let time = SystemTime::now()
            .duration_since(UNIX_EPOCH)
            .unwrap_or_default();
        let name = format!(
            "{:012}.{:09}.{}",
            time.as_secs(),
            time.subsec_nanos(),
            process::id()
        );
        let fresh = self.folder.join(format!("{UNDER_WAY}{name}"));
        let kept = write(key, from, &fresh).and_then(|()| {
            let place = self.folder.join(name);
            fs::rename(&fresh, &place).map_err(|e| told(&place, e))
        });
        if kept.is_err() {
            let _ = removed(&fresh);
        }
        self.forget();
        kept
    }

    /// Removes the oldest and what other builds left incomplete. None is under way, since this one is
    /// alone.
    fn forget(&self) {
        let complete = self.complete();
        let old = complete.len().saturating_sub(MOST);
        let left = self.folders(|name| name.starts_with(UNDER_WAY));
        for folder in complete[..old].iter().chain(&left) {
            let _ = removed(folder);
        }
    }

    fn complete(&self) -> Vec<PathBuf> {
        self.folders(|name| !name.starts_with(UNDER_WAY))
    }

    /// The folders whose names are such, the oldest first.
    fn folders(&self, such: impl Fn(&str) -> bool) -> Vec<PathBuf> {
        let entries = fs::read_dir(&self.folder).into_iter().flatten().flatten();
        let named = entries.filter(|entry| entry.file_name().to_str().is_some_and(&such));
        let mut folders: Vec<_> = named
            .map(|entry| entry.path())
            .filter(|p| p.is_dir())
            .collect();
        folders.sort();
        folders
    }
}

fn copy(from: &Path, to: &Path) -> Had<()> {
    for file in made() {
        let place = to.join(&file);
        fs::create_dir_all(place.parent().unwrap_or(to)).map_err(|e| told(&place, e))?;
        removed(&place)?;
        copied(&from.join(&file), &place)?;
    }
    Ok(())
}

/// Writes a complete folder, down to the disk: a rename must not come there before what it names.
fn write(key: &[u8], from: &Path, to: &Path) -> Had<()> {
    renewed(to)?;
    copy(from, to)?;
    let file = to.join(KEY);
    let mut written = File::create(&file).map_err(|e| told(&file, e))?;
    written.write_all(key).map_err(|e| told(&file, e))?;
    for file in made().chain([PathBuf::from(KEY)]) {
        let file = to.join(file);
        let synced = File::open(&file).and_then(|file| file.sync_all());
        synced.map_err(|e| told(&file, e))?;
    }
    Ok(())
}
