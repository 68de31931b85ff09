//! Node protection: the class of every pair that is told is compared with its walks, all
//! of them; by ascending ranks a class from 4 on is held against every other pair. All
//! eight classes occur for prefixes, and 4 to 7 for links.

use differential::c_interface::CInterface;
use differential::call::{Call, Planner, Told};
use differential::campaign::{Breadth, Case, Report, run};
use differential::coverage::of_repairs;
use differential::files::NamedFile;
use differential::legs::Target;
use differential::library::Library;
use differential::networks::{self, MIDDLE, SMALL};
use differential::node::thing;
use differential::routes::Rules;
use differential::stand_in::{StandIn, assert_noticed};
use oracle::answer::Question;
use oracle::fault::{Context, Fault};
use oracle::file::write;
use oracle::network::Network;
use oracle::worked::{node_ring_4, node_second_leg, node_tunnel, nodes};

fn compared(planner: &dyn Planner, cases: &[Case]) -> Report {
    let report = run(planner, cases);
    println!("{}, {:?}\n{}", report.summary(), report.pairs, report.coverage);
    report.assert_same();
    report
}

/// Networks of every family, and those worked by hand.
fn many(first_seed: u64) -> Vec<Case> {
    let whole = |routes| move |named| Case::of_network(named, Breadth::Whole(routes));
    let middle = networks::of_families(MIDDLE, first_seed..first_seed + 1).into_iter();
    let small = networks::of_families(SMALL, first_seed + 10..first_seed + 40).into_iter();
    let mut cases: Vec<Case> = middle.map(whole(1)).collect();
    cases.extend(small.map(whole(2)));
    cases.extend(by_hand(Breadth::Whole(8)));
    cases
}

fn by_hand(breadth: Breadth) -> Vec<Case> {
    let case = |(name, network): (&str, Network)| {
        let file = NamedFile { name: name.to_string(), bytes: write(&network) };
        Case::of_file(file, breadth)
    };
    nodes().into_iter().map(case).collect()
}

/// Every kind of answer that node protection changes, every way to visit E, and every
/// class are met often, and the pairs are walked.
fn assert_met_often(report: &Report) {
    let things = thing::ALL.into_iter().map(str::to_string);
    let classes = of_repairs().into_iter().filter(|thing| thing.contains("class"));
    for thing in things.chain(classes) {
        let count = report.coverage.count(&thing);
        assert!(count >= 10, "met {count} times only: {thing}");
    }
    let pairs = &report.pairs;
    let walked = [pairs.of_links, pairs.of_prefixes, pairs.without_e];
    assert!(walked.iter().all(|count| *count >= 1000), "{walked:?} pairs were walked");
    assert!(pairs.none_without_e >= 200, "every pair of {} questions only", pairs.none_without_e);
}

#[test]
fn networks_of_every_family() {
    assert_met_often(&compared(&Library, &many(7001)));
}

#[test]
fn networks_of_every_family_by_the_c_interface() {
    assert_met_often(&compared(&CInterface, &many(7201)));
}

#[test]
fn networks_worked_by_hand() {
    for breadth in [Breadth::DecidingRanks, Breadth::Limits, Breadth::RandomRanks(200)] {
        for planner in [&Library as &dyn Planner, &CInterface] {
            compared(planner, &by_hand(breadth));
        }
    }
}

/// The oracle in the library's place: its classes are those of the walks.
#[test]
fn the_oracle_keeps_the_rules_too() {
    assert_met_often(&compared(&StandIn { ctx: Context::sound() }, &many(7401)));
}

/// Every wrong planner of this kind, but the one that no call shows, differs in many of
/// these networks; the first is the planner of before.
#[test]
fn wrong_planners_are_noticed() {
    let small = networks::of_families(SMALL, 7601..7606).into_iter();
    let cases: Vec<Case> = small.map(|named| Case::of_network(named, Breadth::Whole(1))).collect();
    let shown = Fault::OF_NODES.into_iter().filter(|fault| !fault.is_in_no_call());
    assert_noticed(&shown.collect::<Vec<Fault>>(), &cases, 3);
}

/// The library, with 4 added to a class or taken away.
struct OtherClass;

impl Planner for OtherClass {
    fn ask(&self, call: Call) -> Told {
        let prefix = matches!(call.question, Question::PrefixRepair { .. });
        match Library.ask(call) {
            Told::Pair { first, endpoint, class, cost } if prefix => {
                Told::Pair { first, endpoint, class: class ^ 4, cost }
            }
            told => told,
        }
    }
}

#[test]
fn another_class_is_noticed() {
    let cases = by_hand(Breadth::Whole(1));
    assert_eq!(run(&OtherClass, &cases).differences.len(), cases.len());
}

/// The legs by hand: which visit E, and that a class is compared with them.
#[test]
fn legs_that_visit_are_noticed() {
    let ring_4 = node_ring_4();
    let rules = Rules::of(&ring_4);
    let prefixes: Vec<Target> = ring_4.prefixes.iter().map(Target::Prefix).collect();
    // Delivered at E, at 2, at 2 though it is dear, at 3.
    assert_eq!(rules.both_legs((3, 2), prefixes[0], (0, 1)), Ok(true));
    assert_eq!(rules.both_legs((3, 3), prefixes[1], (0, 1)), Ok(false));
    assert_eq!(rules.both_legs((3, 2), prefixes[2], (0, 1)), Ok(false));
    assert_eq!(rules.both_legs((3, 3), prefixes[3], (0, 1)), Ok(false));
    assert_eq!(rules.both_legs((3, 2), Target::Router(1), (0, 1)), Ok(true));
    // One of two equal ways, of the tunnel and of the second leg.
    let (tunnel, second_leg) = (node_tunnel(), node_second_leg());
    let (rules, prefix) = (Rules::of(&tunnel), Target::Prefix(&tunnel.prefixes[0]));
    assert_eq!(rules.both_legs((1, 3), prefix, (0, 4)), Ok(true));
    assert_eq!(rules.both_legs((1, 2), prefix, (0, 4)), Ok(false));
    let (rules, prefix) = (Rules::of(&second_leg), Target::Prefix(&second_leg.prefixes[0]));
    assert_eq!(rules.both_legs((1, 1), prefix, (0, 4)), Ok(true));
    assert_eq!(rules.both_legs((1, 2), prefix, (0, 4)), Ok(false));
}
