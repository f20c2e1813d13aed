//! What was proved is kept and linked again where it fits, and only there.
//!
//! The build script runs in a small repository of its own, with an `rt` that proves nothing and notes
//! what it was asked. So these tests are about when the script asks for a proof, and when not.

use std::env;
use std::ffi::OsString;
use std::fs;
use std::os::unix::fs::{symlink, PermissionsExt as _};
use std::path::{Path, PathBuf};
use std::process::{self, Command, Output};
use std::sync::atomic::{AtomicUsize, Ordering};

/// What stands for `rt`.
const RT: &str = r#"#!/bin/sh
kit=$(dirname "$(dirname "$0")")
case $1 in
version) cat "$kit/KIT-ID" ;;
lib)
    name=$(basename "$PWD")
    echo "$name" >>"$kit/calls"
    echo "rt: $name is looked at"
    if [ -e "$kit/meanwhile" ]; then . "$kit/meanwhile"; fi
    mkdir -p out
    printf '!<arch>\n' >"out/lib$name.a" ;;
esac
"#;

/// The list of crates: two that are linked, what they use, and one that they don't.
const LIST: &str =
    "base:\nwhole: base\nreader_c staticlib: whole base # for C\npair staticlib: base\napart: base\n";

/// The files of a crate that are proved, or that a proof needs.
const FILES: [&str; 3] = ["src/lib.rt", "specs/Spec.antt", "proofs/deep/Answers.antt"];

/// A proof of both crates.
const PROVED: [&str; 2] = ["reader_c", "pair"];
const NOTHING: [&str; 0] = [];

/// A folder with a repository, a toolchain and cargo's folders. It is outside of this repository, where
/// every file of Rattle has to belong to a crate.
struct Place(PathBuf);

impl Drop for Place {
    fn drop(&mut self) {
        let _ = fs::remove_dir_all(&self.0);
    }
}

/// The folder of this crate.
fn here() -> &'static Path {
    Path::new(env!("CARGO_MANIFEST_DIR"))
}

fn copy(from: &Path, to: &Path) {
    if from.is_file() {
        fs::create_dir_all(to.parent().unwrap()).unwrap();
        fs::copy(from, to).unwrap();
        return;
    }
    for entry in fs::read_dir(from).unwrap() {
        let name = entry.unwrap().file_name();
        copy(&from.join(&name), &to.join(&name));
    }
}

impl Place {
    /// A repository whose Rust crate has this crate's build script and no code.
    fn new() -> Place {
        let place = Place::without_code();
        place.write("repo/kettleplume/src/lib.rs", "");
        place
    }

    fn without_code() -> Place {
        static COUNT: AtomicUsize = AtomicUsize::new(0);
        let number = COUNT.fetch_add(1, Ordering::Relaxed);
        let name = format!("kettleplume-kept-{}-{number}", process::id());
        let place = Place(env::temp_dir().join(name));
        let _ = fs::remove_dir_all(&place.0);
        for part in ["build.rs", "build"] {
            copy(&here().join(part), &place.at("repo/kettleplume").join(part));
        }
        // What only tests use is not there.
        let manifest = fs::read_to_string(here().join("Cargo.toml")).unwrap();
        let manifest = manifest.split("[dev-dependencies]").next().unwrap();
        place.write("repo/kettleplume/Cargo.toml", manifest);
        place.write(
            "repo/Cargo.toml",
            "[workspace]\nresolver = \"2\"\nmembers = [\"kettleplume\"]\n",
        );
        place.crates();
        place.write("kit/KIT-ID", "a toolchain\n");
        place.tool("bin/rt", RT);
        place
    }

    fn crates(&self) {
        self.write("repo/crates.txt", LIST);
        for name in ["base", "whole", "reader_c", "pair", "apart"] {
            for file in FILES.into_iter().chain(["must-fail/a.edit"]) {
                self.write(&format!("repo/crates/{name}/{file}"), name);
            }
        }
    }

    fn at(&self, path: &str) -> PathBuf {
        self.0.join(path)
    }

    fn write(&self, path: &str, text: &str) {
        fs::create_dir_all(self.at(path).parent().unwrap()).unwrap();
        fs::write(self.at(path), text).unwrap();
    }

    fn tool(&self, path: &str, text: &str) {
        let path = format!("kit/{path}");
        self.write(&path, text);
        fs::set_permissions(self.at(&path), fs::Permissions::from_mode(0o755)).unwrap();
    }

    /// Cargo in the repository.
    fn cargo(&self, words: &[&str]) -> Command {
        self.cargo_in("repo", "target", words)
    }

    /// Cargo in a folder, which builds in another one.
    fn cargo_in(&self, folder: &str, target: &str, words: &[&str]) -> Command {
        let mut command = Command::new(env::var_os("CARGO").unwrap());
        command
            .args(words)
            .args(["--offline", "--quiet", "--target-dir"])
            .arg(self.at(target))
            .current_dir(self.at(folder))
            .env("PATH", self.path("nothing"))
            .env_remove("OUT_DIR");
        command
    }

    /// A path on which a folder comes first and this `rt` is found before any other.
    fn path(&self, first: &str) -> OsString {
        let others = env::var_os("PATH").unwrap();
        let ours = [self.at(first), self.at("kit/bin")].into_iter();
        env::join_paths(ours.chain(env::split_paths(&others))).unwrap()
    }

    /// What `rt` was asked to prove since the last time.
    fn calls(&self) -> Vec<String> {
        let calls = fs::read_to_string(self.at("kit/calls")).unwrap_or_default();
        let _ = fs::remove_file(self.at("kit/calls"));
        calls.lines().map(str::to_string).collect()
    }

    /// Runs cargo, which must succeed, and tells what `rt` was asked to prove.
    fn asks(&self, command: &mut Command) -> Vec<String> {
        succeeds(command);
        self.calls()
    }

    /// The same for a plain check.
    fn check(&self) -> Vec<String> {
        self.asks(&mut self.cargo(&["check"]))
    }

    /// The same where cargo has a reason to run the script: another path to the same `rt`.
    fn check_anew(&self) -> Vec<String> {
        static COUNT: AtomicUsize = AtomicUsize::new(0);
        let number = COUNT.fetch_add(1, Ordering::Relaxed);
        let path = self.path(&format!("nothing-{number}"));
        self.asks(self.cargo(&["check"]).env("PATH", path))
    }

    /// The folders of what is kept.
    fn kept(&self) -> Vec<PathBuf> {
        let entries = fs::read_dir(self.at("repo/target-cargo/proved"))
            .into_iter()
            .flatten();
        entries
            .map(|entry| entry.unwrap().path())
            .filter(|path| path.is_dir())
            .collect()
    }
}

fn said(output: &Output) -> String {
    String::from_utf8_lossy(&output.stderr).into_owned()
}

fn succeeds(command: &mut Command) {
    let output = command.output().unwrap();
    assert!(output.status.success(), "{command:?}\n{}", said(&output));
}

fn fails(command: &mut Command) -> String {
    let output = command.output().unwrap();
    assert!(!output.status.success(), "{command:?}");
    said(&output)
}

#[test]
fn one_proof_serves_every_build() {
    let place = Place::new();
    assert_eq!(place.check(), PROVED);
    assert_eq!(place.check(), NOTHING);
    assert_eq!(place.check_anew(), NOTHING);
    for words in [
        &["build"][..],
        &["check", "--release"],
        &["doc", "--no-deps"],
    ] {
        assert_eq!(place.asks(&mut place.cargo(words)), NOTHING, "{words:?}");
    }
    // A program elsewhere, with a folder of its own.
    place.write(
        "user/Cargo.toml",
        "[package]\nname = \"user\"\nedition = \"2021\"\n[dependencies]\nkettleplume = { path = \"../repo/kettleplume\" }\n",
    );
    place.write("user/src/main.rs", "use kettleplume as _;\nfn main() {}\n");
    let mut user = place.cargo_in("user", "user/target", &["build"]);
    assert_eq!(place.asks(&mut user), NOTHING);
}

#[test]
fn another_source_is_proved() {
    let place = Place::new();
    assert_eq!(place.check(), PROVED);
    for file in [
        "src/lib.rt",
        "specs/Spec.antt",
        "proofs/deep/Answers.antt",
        "proofs/must-fail/New.antt",
    ] {
        let path = format!("repo/crates/base/{file}");
        let before = fs::read_to_string(place.at(&path));
        place.write(&path, "basf");
        assert_eq!(place.check(), PROVED, "{file}");
        match before {
            Ok(text) => place.write(&path, &text),
            Err(_) => fs::remove_file(place.at(&path)).unwrap(),
        }
        assert_eq!(place.check(), NOTHING, "{file} as it was");
    }
    place.write(
        "repo/crates.txt",
        &LIST.replace("pair staticlib: base", "pair staticlib: base whole"),
    );
    assert_eq!(place.check(), PROVED);
    // What isn't linked is no matter, and neither are wrong versions and comments.
    place.write(
        "repo/crates.txt",
        &LIST
            .replace("for C", "for Rust and C")
            .replace("apart: base", "apart:"),
    );
    place.write("repo/crates/apart/src/lib.rt", "other");
    place.write("repo/crates/base/must-fail/a.edit", "other");
    assert_eq!(place.check_anew(), NOTHING);
}

#[test]
fn another_toolchain_proves() {
    let place = Place::new();
    assert_eq!(place.check(), PROVED);
    place.write("kit/KIT-ID", "another toolchain\n");
    assert_eq!(place.check(), PROVED);
    place.write("kit/KIT-ID", "a toolchain\n");
    assert_eq!(place.check(), NOTHING);
    place.write("kit/KIT-ID", "");
    assert!(fails(&mut place.cargo(&["check"])).contains("doesn't tell which toolchain"));
}

/// Nothing is linked where no toolchain says what it is, though archives are kept.
#[test]
fn a_toolchain_is_needed() {
    let place = Place::new();
    assert_eq!(place.check(), PROVED);
    fs::remove_file(place.at("kit/bin/rt")).unwrap();
    // Cargo still needs `rustc`, which may lie beside a true `rt`.
    let path = env::var_os("PATH").unwrap();
    let mut rustc = env::split_paths(&path).map(|folder| folder.join("rustc"));
    symlink(
        rustc.find(|file| file.is_file()).unwrap(),
        place.at("kit/bin/rustc"),
    )
    .unwrap();
    let said = fails(place.cargo(&["check"]).env("PATH", place.at("kit/bin")));
    assert!(said.contains("`rt` isn't on the PATH"), "{said}");
}

#[test]
fn what_is_not_proved_is_not_kept() {
    let place = Place::new();
    // Archives of an earlier proof are there.
    for name in PROVED {
        place.write(&format!("repo/crates/{name}/out/lib{name}.a"), "!<arch>\n");
    }
    place.write("kit/meanwhile", "echo 'rt: FAILED'; exit 1");
    let said = fails(&mut place.cargo(&["check"]));
    assert!(said.contains("rt: FAILED"), "{said}");
    assert_eq!(
        (place.calls(), place.kept()),
        (vec!["reader_c".to_string()], vec![])
    );
    // Nor are they taken because `rt` doesn't complain.
    place.write("kit/meanwhile", "exit 0");
    fails(&mut place.cargo(&["check"]));
    assert_eq!(place.kept(), Vec::<PathBuf>::new());
    place.calls();
    // A source that is changed during the proof.
    place.write("kit/meanwhile", "echo changed >>../base/src/lib.rt");
    let said = fails(&mut place.cargo(&["check"]));
    assert!(said.contains("changed while they were proved"), "{said}");
    assert_eq!(place.kept(), Vec::<PathBuf>::new());
    place.calls();
    fs::remove_file(place.at("kit/meanwhile")).unwrap();
    assert_eq!(place.check(), PROVED);
    assert_eq!(place.kept().len(), 1);
}

#[test]
fn what_is_not_whole_is_not_taken() {
    let place = Place::new();
    assert_eq!(place.check(), PROVED);
    let damages: [fn(&Path); 5] = [
        |folder| fs::remove_file(folder.join("key")).unwrap(),
        |folder| {
            let key = fs::read(folder.join("key")).unwrap();
            fs::write(folder.join("key"), &key[..key.len() - 1]).unwrap();
        },
        |folder| fs::remove_file(folder.join("lib/libkettleplume_pair.a")).unwrap(),
        |folder| fs::remove_file(folder.join("archives/libpair.a")).unwrap(),
        // A build that was killed leaves it so.
        |folder| fs::rename(folder, folder.with_file_name("new.1")).unwrap(),
    ];
    for (number, damage) in damages.into_iter().enumerate() {
        place.kept().iter().for_each(|folder| damage(folder));
        assert_eq!(place.check_anew(), PROVED, "damage {number}");
        assert_eq!(place.check_anew(), NOTHING, "after damage {number}");
        fs::remove_dir_all(place.at("repo/target-cargo/proved")).unwrap();
        assert_eq!(place.check_anew(), PROVED);
    }
}

/// Eight are kept, the newest, and nothing that isn't whole.
#[test]
fn the_oldest_goes() {
    let place = Place::new();
    for name in (0..9)
        .map(|number| format!("{number:012}.0.1"))
        .chain(["new.1".to_string()])
    {
        place.write(&format!("repo/target-cargo/proved/{name}/key"), "");
    }
    assert_eq!(place.check(), PROVED);
    let kept = place.kept();
    assert_eq!(kept.len(), 8, "{kept:?}");
    assert!(!kept
        .iter()
        .any(|folder| folder.ends_with("000000000001.0.1") || folder.ends_with("new.1")));
    assert_eq!(place.check_anew(), NOTHING);
}

/// Where nothing can be kept the build proves, and links what it proved.
#[test]
fn what_cannot_be_kept_is_linked() {
    let place = Place::new();
    place.write("repo/target-cargo/proved", "no folder");
    assert_eq!(place.check(), PROVED);
    assert_eq!(place.check_anew(), PROVED);
}

#[test]
fn a_link_is_refused() {
    let place = Place::new();
    let file = place.at("repo/crates/base/proofs/Elsewhere.antt");
    symlink(place.at("kit/KIT-ID"), file).unwrap();
    assert!(fails(&mut place.cargo(&["check"])).contains("is a link"));
}

/// Two builds at the same time, in folders of their own: the second waits, and proves nothing.
#[test]
fn two_builds_prove_once() {
    let place = Place::new();
    place.write("kit/meanwhile", "sleep 1");
    let children: Vec<_> = ["one", "two"]
        .into_iter()
        .map(|target| place.cargo_in("repo", target, &["check"]).spawn().unwrap())
        .collect();
    for mut child in children {
        assert!(child.wait().unwrap().success());
    }
    assert_eq!(place.calls(), PROVED);
    assert_eq!(place.kept().len(), 1);
}

/// Cargo's own override of the library: the whole crate compiles, and neither the script nor `rt` is run.
#[test]
fn the_library_can_be_overridden() {
    let place = Place::without_code();
    copy(&here().join("src"), &place.at("repo/kettleplume/src"));
    copy(&here().join("../oracle/src"), &place.at("repo/oracle/src"));
    place.tool(
        "bin/rt",
        "#!/bin/sh\nkit=$(dirname \"$(dirname \"$0\")\")\necho \"$1\" >>\"$kit/calls\"\nexit 1\n",
    );
    let rustc = Command::new("rustc").arg("-vV").output().unwrap();
    let rustc = String::from_utf8(rustc.stdout).unwrap();
    let host = rustc
        .lines()
        .find_map(|line| line.strip_prefix("host: "))
        .unwrap();
    let target = format!("target.{host}.kettleplume");
    let mut command = place.cargo(&["check"]);
    for setting in [
        "rustc-link-lib=['static=reader', 'static=pair']",
        "rustc-link-search=['/nowhere']",
    ] {
        command.args(["--config", &format!("{target}.{setting}")]);
    }
    assert_eq!(place.asks(&mut command), NOTHING);
}
