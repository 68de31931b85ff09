//! The commands that a page of the documents shows, so that tests can run them.
//!
//! A command stands in an indented block after `$`, and the lines after it, up
//! to the next command or the end of the block, are what it prints:
//!
//! ```text
//!     $ target/bin/plan < examples/refused/03-head.net
//!     refused 3 0
//! ```

use crate::stored;
use std::fs;

/// A command and what the page says that it prints.
#[derive(Clone, Debug, PartialEq, Eq)]
pub struct Shown {
    pub command: String,
    pub prints: String,
}

/// A page of the repository, by its place below the root.
pub fn read(place: &str) -> String {
    let text = fs::read_to_string(stored::root().join(place));
    text.unwrap_or_else(|error| panic!("{place}: {error}"))
}

/// The commands of a page.
pub fn commands(page: &str) -> Vec<Shown> {
    let mut all: Vec<Shown> = Vec::new();
    let mut inside = false;
    for line in page.lines() {
        let indented = line.strip_prefix("    ");
        if let Some(command) = indented.and_then(|line| line.strip_prefix("$ ")) {
            all.push(Shown { command: command.to_string(), prints: String::new() });
            inside = true;
        } else if let (true, Some(printed), Some(last)) = (inside, indented, all.last_mut()) {
            last.prints += &format!("{printed}\n");
        } else {
            inside = false;
        }
    }
    all
}
