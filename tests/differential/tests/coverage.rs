//! The whole campaign in one run: every kind of network and file, each call
//! compared, each route followed. At its end the run asserts that it met every
//! class, every refusal with each of its causes, every deciding key, and every
//! other thing of the list in `coverage`.

use differential::campaign::{Breadth, Case, run};
use differential::coverage::everything;
use differential::files;
use differential::library::Library;
use differential::networks::{self, MIDDLE, SMALL, WIDE, of_family};
use oracle::generate::Family;
use std::time::Instant;

/// Everything with other seeds than in the tests of the single parts. What
/// takes longest comes first, so that no thread waits for it at the end.
fn cases() -> Vec<Case> {
    let whole = |routes| move |named| Case::of_network(named, Breadth::Whole(routes));
    let limits = |named| Case::of_network(named, Breadth::Limits);
    let file = |file| Case::of_file(file, Breadth::Limits);
    let ranked = |file| Case::of_file(file, Breadth::DecidingRanks);
    let tables = |named| Case::of_network(named, Breadth::Tables);
    let tables_of_file = |file| Case::of_file(file, Breadth::Tables);
    let mut cases = vec![whole(1)(networks::largest(1001))];
    cases.extend(networks::of_extremes(1002).into_iter().map(whole(1)));
    cases.extend(networks::of_families(WIDE, 1003..1005).into_iter().map(whole(1)));
    cases.extend(networks::of_families(MIDDLE, 1005..1009).into_iter().map(whole(1)));
    cases.extend(networks::of_families(SMALL, 1010..1050).into_iter().map(whole(3)));
    cases.extend(networks::of_families(SMALL, 1050..1053).into_iter().map(limits));
    let in_parts = (1055..1058).map(|seed| of_family(Family::Disconnected, MIDDLE, seed));
    cases.extend(in_parts.map(tables));
    cases.extend(networks::of_families(SMALL, 1055..1057).into_iter().map(tables));
    cases.extend(files::worked().into_iter().map(ranked));
    cases.extend(files::worked().into_iter().map(tables_of_file));
    cases.extend(files::single_causes(8, 1060).into_iter().map(file));
    cases.extend(files::pairs_of_causes(1061).into_iter().map(file));
    cases.extend(files::several_causes(100, 1062).into_iter().map(file));
    cases.extend(files::changed_bytes(200, 1063).into_iter().map(file));
    cases.extend(files::random_bytes(50, 1064).into_iter().map(file));
    cases.extend(files::repeated_bytes().into_iter().map(file));
    cases.push(Case::of_writing(70));
    cases
}

#[test]
fn the_whole_campaign_meets_everything() {
    let start = Instant::now();
    let report = run(&Library, &cases());
    println!("{} in {:.1} s", report.summary(), start.elapsed().as_secs_f64());
    println!("{}", report.coverage);
    report.assert_same();
    report.assert_met(&everything());
    assert!(report.calls >= 100_000, "only {} calls were compared", report.calls);
}
