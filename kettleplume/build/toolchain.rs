//! The Rattle toolchain, and how archives are made with it. This file's text is a part of the key that
//! archives are kept under, so a change in it makes them anew.

use std::env;
use std::io;
use std::path::{self, Path, PathBuf};
use std::process::Command;

use crate::files::{copied, removed, told, Had};

/// Whether cargo builds for the one system that the toolchain makes archives for.
pub fn fits_the_build() -> Had<()> {
    let system = |name| env::var(name).unwrap_or_default();
    let (machine, os) = (
        system("CARGO_CFG_TARGET_ARCH"),
        system("CARGO_CFG_TARGET_OS"),
    );
    match (machine.as_str(), os.as_str()) {
        ("x86_64", "linux") => Ok(()),
        _ => Err(format!(
            "the Rattle toolchain makes static libraries for x86-64 Linux alone, so kettleplume can't \
             be linked on {machine} {os}"
        )),
    }
}

/// The Rattle toolchain: its command as it is found on the path, perhaps by a link, and its folder.
pub struct Kit {
    rt: PathBuf,
    home: PathBuf,
}

impl Kit {
    pub fn find() -> Had<Kit> {
        let path = env::var_os("PATH").unwrap_or_default();
        let rt = env::split_paths(&path)
            .map(|folder| folder.join("rt"))
            .find(|file| file.is_file())
            .and_then(|file| path::absolute(file).ok())
            .ok_or(
                "kettleplume is written in Rattle and proved while it is built: the Rattle \
                 toolchain's command `rt` isn't on the PATH",
            )?;
        let file = rt.canonicalize().map_err(|e| told(&rt, e))?;
        let home = file.ancestors().nth(2).unwrap_or(&file).to_path_buf();
        Ok(Kit { rt, home })
    }

    /// Has cargo run the build script again when there is another toolchain.
    pub fn watch(&self) {
        println!("cargo::rerun-if-env-changed=PATH");
        let identity = self.home.join("KIT-ID");
        for file in [&self.rt, &identity]
            .into_iter()
            .filter(|file| file.is_file())
        {
            println!("cargo::rerun-if-changed={}", file.display());
        }
    }

    /// The toolchain's identity.
    pub fn version(&self) -> Had<String> {
        let mut command = Command::new(&self.rt);
        let output = command.arg("version").output();
        let output = output.map_err(|error| format!("{command:?} doesn't start: {error}"))?;
        let text = String::from_utf8_lossy(&output.stdout).into_owned();
        if !output.status.success() || text.trim().is_empty() {
            return Err(format!("{command:?} doesn't tell which toolchain it is"));
        }
        Ok(text)
    }

    /// Proves a crate and makes its archive.
    pub fn archive(&self, root: &Path, name: &str, archive: &Path) -> Had<()> {
        let folder = root.join("crates").join(name);
        let written = folder.join(format!("out/lib{name}.a"));
        // What is there afterwards was then written by this run.
        removed(&written)?;
        run(Command::new(&self.rt).arg("lib").current_dir(folder))?;
        copied(&written, archive)
    }
}

/// Runs a tool to its end. What it prints goes to standard error at once; standard output is what cargo
/// reads orders from.
fn run(command: &mut Command) -> Had<()> {
    let status = command
        .stdout(io::stderr())
        .status()
        .map_err(|error| format!("{command:?} doesn't start: {error}"))?;
    match status.success() {
        true => Ok(()),
        false => Err(format!(
            "{command:?} failed; what it printed stands below, under stderr"
        )),
    }
}
