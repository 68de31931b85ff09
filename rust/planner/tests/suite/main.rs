//! The planner's interface in Rust and its command, through the static library.

mod calls;
mod commands;
mod common;
mod drills;
mod example_in_c;
mod files;
mod limits;
mod outputs;
mod pages;
mod ranks;
mod refusals;
mod tables;
mod texts;
mod worked;
