//! Links under maintenance: random networks in which costs of 65,535 and 65,534
//! are frequent, in one direction and in both, and about a few routers most of
//! all.

use differential::campaign::{Breadth, Case, run};
use differential::library::Library;
use differential::maintenance::thing;
use differential::networks::{MIDDLE, SMALL, Size, of_family};
use differential::stand_in::assert_noticed;
use oracle::fault::Fault;
use oracle::generate::Family;

/// Networks of a size and of some seeds, with so many routes for each question.
fn cases(size: Size, seeds: std::ops::Range<u64>, routes: usize) -> Vec<Case> {
    let networks = seeds.map(|seed| of_family(Family::Maintenance, size, seed));
    networks.map(|named| Case::of_network(named, Breadth::Whole(routes))).collect()
}

#[test]
fn networks_with_many_links_under_maintenance() {
    let mut cases = cases(MIDDLE, 4001..4009, 1);
    cases.extend(self::cases(SMALL, 4010..4190, 2));
    let report = run(&Library, &cases);
    println!("{}\n{}", report.summary(), report.coverage);
    report.assert_same();
    for thing in thing::ALL {
        let count = report.coverage.count(thing);
        assert!(count >= 25, "met {count} times only: {thing}");
    }
}

/// A planner that leaves nothing out, as it was before, and every other wrong
/// planner of this kind differs in many of these networks.
#[test]
fn wrong_planners_are_noticed() {
    let cases = cases(SMALL, 4200..4260, 1);
    assert_noticed(&Fault::OF_MAINTENANCE, &cases, 5);
}
