//! Files that are refused: every row with each of its causes, several causes at
//! once, and bytes changed anywhere.

use differential::campaign::{Breadth, Case, Report, run};
use differential::coverage::of_rows;
use differential::files::{self, NamedFile};
use differential::library::Library;
use oracle::stored;
use oracle::stored::cases::Cases;

fn compared(files: Vec<NamedFile>) -> Report {
    let cases = files.into_iter().map(|file| Case::of_file(file, Breadth::Limits));
    let report = run(&Library, &cases.collect::<Vec<Case>>());
    println!("{}", report.summary());
    report.assert_same();
    report
}

#[test]
fn every_cause_alone_at_many_places() {
    compared(files::single_causes(20, 1)).assert_met(&of_rows(&[1, 2, 3, 4, 5, 6, 7, 8, 9]));
}

#[test]
fn every_two_causes_at_once() {
    compared(files::pairs_of_causes(2));
}

#[test]
fn several_causes_at_once() {
    compared(files::several_causes(300, 3));
}

#[test]
fn bytes_changed_anywhere() {
    compared(files::changed_bytes(400, 4));
}

#[test]
fn every_stored_case() {
    let cases = Cases::read(&stored::root()).expect("the texts of the repository");
    let tests = cases.networks.into_iter().chain(cases.reader);
    let all = tests.chain(cases.examples).chain(cases.refused);
    let files = all.map(|case| NamedFile { name: case.name, bytes: case.file });
    compared(files.collect()).assert_met(&of_rows(&[1, 2, 3, 4, 5, 6, 7, 8, 9]));
}
