//! Tells where the crate `kettleplume` has the archives that it was made from.

fn main() {
    println!("cargo::rerun-if-changed=build.rs");
    match std::env::var("DEP_KETTLEPLUME_ARCHIVES") {
        Ok(archives) => println!("cargo::rustc-env=KETTLEPLUME_ARCHIVES={archives}"),
        Err(_) => println!(
            "cargo::error=no folder of archives: whoever overrides the library that `kettleplume` links \
             also sets `archives`, the folder with libreader.a and libpair.a"
        ),
    }
}
