//! Names the libraries to the linker that `benchmark/check-forms` builds.

use std::path::Path;

fn main() {
    let target = Path::new(env!("CARGO_MANIFEST_DIR")).join("../../target");
    println!("cargo::rerun-if-changed=build.rs");
    for (folder, name) in [
        ("staticlib", "check_forms"),
        ("check-forms", "plain_check_forms"),
        ("check-forms", "plain_planner"),
    ] {
        let folder = target.join(folder);
        println!("cargo::rerun-if-changed={}", folder.join(format!("lib{name}.a")).display());
        println!("cargo::rustc-link-search=native={}", folder.display());
        println!("cargo::rustc-link-lib=static={name}");
    }
}
