//! The text of the crates as Rust: build.rs makes it.

include!(concat!(env!("OUT_DIR"), "/same.rs"));
