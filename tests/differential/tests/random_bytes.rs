//! Bytes that nobody meant as a network file.

use differential::campaign::{Breadth, Case, run};
use differential::files;
use differential::library::Library;

#[test]
fn random_bytes_and_blocks() {
    let mut files = files::random_bytes(150, 5);
    files.extend(files::repeated_bytes());
    let cases = files.into_iter().map(|file| Case::of_file(file, Breadth::Limits));
    let report = run(&Library, &cases.collect::<Vec<Case>>());
    println!("{}", report.summary());
    report.assert_same();
}
