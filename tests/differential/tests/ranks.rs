//! Ranks: every decision between two classes on random networks, 1,000 arrangements at
//! random, all of them where every class has a pair, and every wrong table in every call
//! that takes ranks.

use differential::c_interface::CInterface;
use differential::call::Planner;
use differential::campaign::{Breadth, Case, Report, run};
use differential::coverage::of_rows;
use differential::files::{self, NamedFile};
use differential::library::Library;
use differential::networks::{self, MIDDLE, SMALL, Size};
use differential::ranks::{ANSWERED, all_decisions, thing};
use differential::stand_in::assert_noticed;
use oracle::fault::Fault;
use oracle::file::write;
use oracle::ranks::{arrangements, wrong_tables};
use oracle::worked::{four_classes, node_eight_classes};

/// So few routers that often only two classes have a pair.
const TINY: Size = Size { name: "tiny", routers: (3, 6), prefixes: (2, 4) };

fn compared(planner: &dyn Planner, cases: &[Case]) -> Report {
    let report = run(planner, cases);
    println!("{}\n{}", report.summary(), report.coverage);
    report.assert_same();
    report
}

fn assert_answered(report: &Report) {
    for thing in ANSWERED {
        let count = report.coverage.count(thing);
        assert!(count >= 1000, "met {count} times only: {thing}");
    }
}

/// Two classes in both orders, by each rank: 12 and 56 pairs of classes, 7 ranks.
#[test]
fn every_decision_on_random_networks() {
    let of_network = |named| Case::of_network(named, Breadth::DecidingRanks);
    let mut cases: Vec<Case> = files::worked()
        .into_iter()
        .map(|file| Case::of_file(file, Breadth::DecidingRanks))
        .collect();
    cases.extend(networks::of_families(SMALL, 5010..5012).into_iter().map(of_network));
    cases.extend(networks::of_families(TINY, 5020..5050).into_iter().map(of_network));
    let report = compared(&Library, &cases);
    let decisions = all_decisions();
    assert_eq!(decisions.len(), (12 + 56) * 7);
    report.assert_met(&decisions);
    assert_answered(&report);
}

#[test]
fn a_thousand_arrangements_at_random() {
    let ranked = |file| Case::of_file(file, Breadth::RandomRanks(1000));
    let mut cases: Vec<Case> = files::worked().into_iter().map(ranked).collect();
    let middle = networks::of_families(MIDDLE, 5001..5002).into_iter();
    cases.extend(middle.map(|named| Case::of_network(named, Breadth::RandomRanks(100))));
    for planner in [&Library as &dyn Planner, &CInterface] {
        assert_answered(&compared(planner, &cases));
    }
}

/// In the first network each class has a pair for the prefix, in the second each of 4 to
/// 7 for the link too.
#[test]
fn all_arrangements_where_every_class_has_a_pair() {
    let networks = [("eight classes", node_eight_classes()), ("four classes", four_classes())];
    let cases = networks.map(|(name, network)| {
        let file = NamedFile { name: name.to_string(), bytes: write(&network) };
        Case::of_file(file, Breadth::AllRanks)
    });
    for planner in [&Library as &dyn Planner, &CInterface] {
        let report = compared(planner, &cases);
        assert_eq!(report.calls, (cases.len() * 3 * arrangements().len()) as u64);
    }
}

#[test]
fn every_wrong_table_in_every_call() {
    let wrong = |file| Case::of_file(file, Breadth::WrongRanks);
    let mut cases: Vec<Case> = files::worked().into_iter().take(8).map(wrong).collect();
    let middle = networks::of_families(MIDDLE, 5040..5041).into_iter().take(2);
    cases.extend(middle.map(|named| Case::of_network(named, Breadth::WrongRanks)));
    cases.extend(files::repeated_bytes().into_iter().take(2).map(wrong));
    for planner in [&Library as &dyn Planner, &CInterface] {
        let report = compared(planner, &cases);
        assert_eq!(report.calls, (cases.len() * 3 * wrong_tables().len()) as u64);
        report.assert_met(&of_rows(&[15]));
        let met = [thing::LINK_15, thing::PREFIX_15, thing::ROUTE_15, thing::FILE_FIRST];
        report.assert_met(&met.map(str::to_string));
        report.assert_met(&thing::AFTER_15.map(str::to_string));
    }
}

/// Every planner that takes ranks wrongly differs in many networks, and so does
/// one with a mistake that shows only where the ranks do not ascend.
#[test]
fn wrong_planners_are_noticed() {
    let networks = || networks::of_families(SMALL, 5050..5052).into_iter();
    let whole = networks().map(|named| Case::of_network(named, Breadth::Whole(1)));
    let limits = networks().map(|named| Case::of_network(named, Breadth::Limits));
    let cases: Vec<Case> = whole.chain(limits).collect();
    assert_noticed(&[&Fault::OF_RANKS[..], &Fault::BEHIND_OTHERS].concat(), &cases, 3);
}
