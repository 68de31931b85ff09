//! Names the static library of the proved planner to the linker.

use std::path::Path;

/// The library, from the folder of this package.
const FOLDER: &str = "../../target/staticlib";

fn main() {
    let folder = Path::new(env!("CARGO_MANIFEST_DIR")).join(FOLDER);
    let library = folder.join("libplanner.a");
    // A library that is not there yet counts as changed, so that the next build looks again.
    println!("cargo::rerun-if-changed={}", library.display());
    println!("cargo::rerun-if-changed=build.rs");
    if !library.is_file() {
        println!(
            "cargo::error=target/staticlib/libplanner.a is not there: run `tools/build` \
             in the root of the repository first, which proves the planner and writes it"
        );
        return;
    }
    println!("cargo::rustc-link-search=native={}", folder.display());
    println!("cargo::rustc-link-lib=static=planner");
}
