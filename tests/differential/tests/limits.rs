//! Lengths and numbers at their limits: work area, table and route buffer of none, one
//! short, exact and longer, tables of 4,096 and 4,097 cells too; link, end and prefix just out of range and at the
//! largest value; networks on both sides of every limit of the file.

use differential::campaign::{Breadth, Case, Report, run};
use differential::coverage::of_rows;
use differential::files::{self, NamedFile};
use differential::library::Library;
use differential::networks::{self, SMALL};
use oracle::corpus;

fn compared(cases: &[Case]) -> Report {
    let report = run(&Library, cases);
    println!("{}", report.summary());
    report.assert_same();
    report
}

#[test]
fn random_networks() {
    let mut networks = networks::of_families(SMALL, 100..103);
    networks.extend(networks::of_extremes(6));
    let cases = networks.into_iter().map(|named| Case::of_network(named, Breadth::Limits));
    let report = compared(&cases.collect::<Vec<Case>>());
    report.assert_met(&of_rows(&[10, 18, 11, 12, 13, 15]));
}

#[test]
fn hand_worked_networks() {
    let mut cases = Vec::new();
    for breadth in [Breadth::Whole(5), Breadth::Limits] {
        cases.extend(files::worked().into_iter().map(|file| Case::of_file(file, breadth)));
    }
    compared(&cases);
}

#[test]
fn networks_at_the_limits_of_the_file() {
    let edges = corpus::edges().into_iter();
    let files = edges.map(|(name, bytes)| NamedFile { name, bytes });
    let cases = files.map(|file| Case::of_file(file, Breadth::Limits));
    compared(&cases.collect::<Vec<Case>>());
}
