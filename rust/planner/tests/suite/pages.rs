//! The commands that the pages show print what they say.

use crate::common::root;
use oracle::page;
use std::env;
use std::path::{Path, PathBuf};
use std::process::Command;

/// What a shell prints for a line, run in the root of the repository with the built command on its
/// path.
fn printed(line: &str) -> String {
    let built = Path::new(env!("CARGO_BIN_EXE_planner")).parent().expect("a folder");
    let others = env::var_os("PATH").unwrap_or_default();
    let folders = [built.to_path_buf()].into_iter().chain(env::split_paths(&others));
    let folders = env::join_paths(folders.collect::<Vec<PathBuf>>()).expect("a path");
    let line = format!("({line}) 2>&1");
    let mut shell = Command::new("sh");
    let ended = shell.args(["-c", &line]).env("PATH", folders).current_dir(root()).output();
    String::from_utf8(ended.expect("the shell ends").stdout).expect("text")
}

#[test]
fn the_commands_of_the_pages() {
    for place in ["docs/SPECIFICATION.md", "rust/planner/README.md"] {
        let shown = page::commands(&page::read(place));
        let of_planner = shown.iter().filter(|shown| shown.command.starts_with("planner "));
        let mut count = 0;
        for shown in of_planner {
            assert_eq!(printed(&shown.command), shown.prints, "{place}: {}", shown.command);
            count += 1;
        }
        assert!(count > 0, "{place}");
    }
}
