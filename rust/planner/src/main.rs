//! The command `planner`, which asks the planner about a network file. `planner --help` says how.
#![deny(unsafe_code)]

mod command;

use std::ffi::OsString;
use std::process::ExitCode;

fn main() -> ExitCode {
    let words: Vec<OsString> = std::env::args_os().skip(1).collect();
    command::run(&words)
}
