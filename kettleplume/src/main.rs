//! The command: reads scripts and says what is found in them. `kettleplume --help` says how.

mod command;

use std::process::ExitCode;

fn main() -> ExitCode {
    command::run(std::env::args_os().skip(1)).into()
}
