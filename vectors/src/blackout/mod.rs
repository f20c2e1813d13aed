//! What of a script may be blacked out (`docs/RULES.md`, 'Blacking out').
//!
//! `premise` says it in Rust, `change` makes pairs of scripts that it permits and others that it
//! doesn't, and `pairs` makes theorems that hold the Rattle definition against it.

pub mod change;
pub mod pairs;
pub mod premise;
pub mod tables;
