//! Bytes of stack that each call of the planner's library takes, the most over all
//! questions about the largest networks, about others and about refused files.

use benchmark::networks;
use benchmark::stack_calls::{all, bytes, Case};
use std::path::Path;
use std::process::exit;

/// Stored network files, sound and refused, small ones.
const EXAMPLES: [&str; 2] = ["../examples", "../examples/refused"];

fn main() {
    let mut files: Vec<Vec<u8>> = networks::all().into_iter().map(|named| named.file).collect();
    files.push(networks::one_block());
    for folder in EXAMPLES {
        match stored(folder) {
            Ok(stored) => files.extend(stored),
            Err(error) => {
                eprintln!("{folder}: {error}");
                exit(1);
            }
        }
    }
    let cases: Vec<Case> = files.into_iter().map(Case::new).collect();
    println!("{} files\n\n| call | bytes |\n|---|---:|", cases.len());
    for call in all() {
        println!("| `{}` | {} |", call.name, bytes(&call, &cases, 1));
    }
}

/// The network files in a folder.
fn stored(folder: &str) -> std::io::Result<Vec<Vec<u8>>> {
    let folder = Path::new(env!("CARGO_MANIFEST_DIR")).join(folder);
    let mut files = Vec::new();
    for entry in std::fs::read_dir(folder)? {
        let path = entry?.path();
        if path.extension().is_some_and(|extension| extension == "net") {
            files.push(std::fs::read(path)?);
        }
    }
    Ok(files)
}
