//! The stored files of the repository: the inputs of its programs and the
//! outputs that they have to print, made from the texts in `tests/cases` and
//! `examples`, and for drills from requests. The program `remake` writes them or
//! compares them.
//!
//! | Stored | Made from |
//! |---|---|
//! | `examples/NAME.net`, `examples/refused/NAME.net` | `NAME.txt` beside it |
//! | `crates/PROGRAM/stdin`, `crates/PROGRAM/stdout` | the cases that the program reads |
//! | `crates/stored_drills/stdin`, `crates/stored_drills/stdout` | the requests in `drills` |
//! | `tests/plan/stored.txt` | the networks and the files for the reader: the plan of each |
//!
//! The programs, their cases and the sections that they print are listed in
//! `programs`. A program whose folder does not exist is left out.

pub mod cases;
mod common;
mod distances;
pub mod drills;
pub mod programs;
mod reading;
mod repairs;
mod routes;
mod tables;

use crate::answer::plan_text;
use crate::fault::Context;
use cases::{Case, Cases};
use programs::PROGRAMS;
use std::fs;
use std::path::{Path, PathBuf};

/// How the program `remake` is used.
pub const USAGE: &str = "\
remake            writes every stored file of the repository that is not as it should be
remake --check    names those files and writes nothing; fails if there is one
remake --list     the numbers and names of the cases that each program reads
";

/// A stored file: its place below the repository's root, and its bytes.
#[derive(Clone, Debug, PartialEq, Eq)]
pub struct Stored {
    pub place: String,
    pub bytes: Vec<u8>,
}

/// What `remake` has to say, and whether it succeeded.
#[derive(Clone, Debug, PartialEq, Eq)]
pub struct Report {
    pub text: String,
    pub success: bool,
}

/// The root of the repository: this package lies in its `tests/oracle`.
pub fn root() -> PathBuf {
    Path::new(env!("CARGO_MANIFEST_DIR")).join("../..")
}

/// Runs `remake` on the repository with this root. An error is a wrong word, a
/// wrong text, or a file that cannot be read or written.
pub fn run(root: &Path, arguments: &[&str]) -> Result<Report, String> {
    match arguments {
        [] => write(root),
        ["--check"] => check(root),
        ["--list"] => list(root),
        _ => Err(format!("`{}` is unknown\n\n{USAGE}", arguments.join(" "))),
    }
}

/// Every stored file, as it should be.
pub fn made(root: &Path) -> Result<Vec<Stored>, String> {
    let cases = Cases::read(root)?;
    let examples = cases.examples.iter().chain(&cases.refused);
    let mut made: Vec<Stored> = examples.map(network_file).collect();
    for program in PROGRAMS {
        let folder = format!("crates/{}", program.name);
        if root.join(&folder).is_dir() {
            let chosen = program.chosen(&cases)?;
            let input = program.input(&chosen)?;
            let output = program.output(&Context::sound(), &chosen);
            made.push(Stored { place: format!("{folder}/stdin"), bytes: input });
            made.push(Stored { place: format!("{folder}/stdout"), bytes: output.into_bytes() });
        }
    }
    if root.join("tests/plan").is_dir() {
        made.push(plans(&cases));
    }
    Ok(made)
}

/// The plan of every case, each after a line `case NAME`.
fn plans(cases: &Cases) -> Stored {
    let plan =
        |case: &Case| format!("case {}\n{}", case.name, plan_text(&Context::sound(), &case.file));
    let text: String = cases.networks.iter().chain(&cases.reader).map(plan).collect();
    Stored { place: "tests/plan/stored.txt".to_string(), bytes: text.into_bytes() }
}

/// The network file of an example.
fn network_file(example: &Case) -> Stored {
    Stored { place: format!("examples/{}.net", example.name), bytes: example.file.clone() }
}

/// The stored files that are missing or are not as they should be.
fn differing(root: &Path) -> Result<Vec<Stored>, String> {
    let as_stored = |file: &Stored| fs::read(root.join(&file.place)).ok();
    let differs = |file: &Stored| as_stored(file).as_ref() != Some(&file.bytes);
    Ok(made(root)?.into_iter().filter(differs).collect())
}

fn write(root: &Path) -> Result<Report, String> {
    let mut text = String::new();
    for Stored { place, bytes } in differing(root)? {
        fs::write(root.join(&place), bytes).map_err(|error| format!("{place}: {error}"))?;
        text += &format!("{place} is written\n");
    }
    Ok(Report { text, success: true })
}

fn check(root: &Path) -> Result<Report, String> {
    let differing = differing(root)?;
    let text = differing.iter().map(|file| format!("{} differs\n", file.place)).collect();
    Ok(Report { text, success: differing.is_empty() })
}

fn list(root: &Path) -> Result<Report, String> {
    let cases = Cases::read(root)?;
    let mut text = String::new();
    for program in PROGRAMS {
        for (number, case) in program.chosen(&cases)?.iter().enumerate() {
            text += &format!("{} {number} {}\n", program.name, case.name);
        }
    }
    Ok(Report { text, success: true })
}
