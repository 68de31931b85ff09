//! Random networks of every family and size: every link, end and prefix of
//! each, and every played route hop by hop.

use differential::campaign::{Breadth, Case, Report, run};
use differential::coverage::of_repairs;
use differential::library::Library;
use differential::networks::{self, MIDDLE, Named, SMALL, WIDE};

fn compared(networks: Vec<Named>, routes: usize) -> Report {
    let cases = networks.into_iter().map(|named| Case::of_network(named, Breadth::Whole(routes)));
    let report = run(&Library, &cases.collect::<Vec<Case>>());
    println!("{}", report.summary());
    report.assert_same();
    report
}

#[test]
fn small_networks_of_every_family() {
    let report = compared(networks::of_families(SMALL, 1..25), 3);
    report.assert_met(&of_repairs());
}

#[test]
fn middle_networks_of_every_family() {
    compared(networks::of_families(MIDDLE, 1..3), 1);
}

#[test]
fn wide_networks_of_every_family() {
    compared(networks::of_families(WIDE, 1..2), 1);
}

#[test]
fn networks_with_the_least_and_the_most_of_everything() {
    compared(networks::of_extremes(1), 1);
}

#[test]
fn the_same_seeds_make_the_same_cases() {
    let cases = || {
        let networks = networks::of_families(SMALL, 1..3).into_iter();
        networks.map(|named| Case::of_network(named, Breadth::Whole(3)))
    };
    for (one, other) in cases().zip(cases()) {
        assert_eq!((&one.name, &one.file), (&other.name, &other.file));
        assert_eq!(one.asked(), other.asked());
    }
}
