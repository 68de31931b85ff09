//! Attached routers deliver: random networks whose prefixes have many dear
//! attachments, at any routers, at the neighbours of one router, at the ends of a
//! link. Every answer that differs from the one before, when walks passed attached
//! routers, is counted by its kind; every walk of both legs of every pair is
//! followed.

use differential::attached::thing;
use differential::c_interface::CInterface;
use differential::call::Planner;
use differential::campaign::{Breadth, Case, Report, run};
use differential::files::NamedFile;
use differential::legs::{Leg, Target};
use differential::library::Library;
use differential::networks::{MIDDLE, SMALL, Size, of_family};
use differential::routes::Rules;
use differential::stand_in::{StandIn, assert_noticed};
use oracle::fault::{Context, Fault};
use oracle::file::write;
use oracle::generate::Family;
use oracle::worked::{attached, attached_ring_4, ring};

/// Networks of the three families, of a size and of some seeds.
fn cases(size: Size, seeds: std::ops::Range<u64>, breadth: Breadth) -> Vec<Case> {
    let networks =
        seeds.flat_map(|seed| Family::ATTACHED.map(|family| of_family(family, size, seed)));
    networks.map(|named| Case::of_network(named, breadth)).collect()
}

/// The networks worked by hand, by every arrangement that decides and with many routes.
fn by_hand() -> Vec<Case> {
    let networks = || attached().into_iter();
    let breadths = [Breadth::Whole(8), Breadth::DecidingRanks, Breadth::Limits];
    let of = |breadth| {
        networks().map(move |(name, network)| {
            let file = NamedFile { name: name.to_string(), bytes: write(&network) };
            Case::of_file(file, breadth)
        })
    };
    breadths.into_iter().flat_map(of).collect()
}

fn compared(planner: &dyn Planner, cases: &[Case]) -> Report {
    let report = run(planner, cases);
    println!("{}, {:?}\n{}", report.summary(), report.pairs, report.coverage);
    report.assert_same();
    report
}

/// Every kind of answer that attached routers change, and every cause, is met often.
fn assert_met_often(report: &Report, least: u64) {
    for thing in thing::ALL {
        let count = report.coverage.count(thing);
        assert!(count >= least, "met {count} times only: {thing}");
    }
    let pairs = &report.pairs;
    let walked = [pairs.of_prefixes, pairs.of_links, pairs.of_links_for_prefixes];
    assert!(walked.iter().all(|count| *count >= 1000), "{walked:?} pairs were walked");
}

fn many(first_seed: u64) -> Vec<Case> {
    let mut cases = cases(MIDDLE, first_seed..first_seed + 2, Breadth::Whole(1));
    cases.extend(self::cases(SMALL, first_seed + 10..first_seed + 110, Breadth::Whole(3)));
    cases
}

#[test]
fn networks_with_many_dear_attachments() {
    assert_met_often(&compared(&Library, &many(6001)), 25);
}

#[test]
fn networks_with_many_dear_attachments_by_the_c_interface() {
    assert_met_often(&compared(&CInterface, &many(6201)), 25);
}

#[test]
fn networks_worked_by_hand() {
    for planner in [&Library as &dyn Planner, &CInterface] {
        compared(planner, &by_hand());
    }
}

/// The oracle in the library's place: its own pairs have legs that arrive and miss
/// the link, and its routes keep the rules.
#[test]
fn the_oracle_keeps_the_rules_too() {
    let oracle = StandIn { ctx: Context::sound() };
    compared(&oracle, &by_hand());
    assert_met_often(&compared(&oracle, &many(6401)), 25);
}

/// Every wrong planner of this kind differs in many of these networks; the first is
/// the planner of before.
#[test]
fn wrong_planners_are_noticed() {
    let cases = cases(SMALL, 6601..6701, Breadth::Whole(1));
    assert_noticed(&Fault::OF_ATTACHED, &cases, 5);
}

/// The legs of ring 4 with its dear attachment, for link 0, end 0.
#[test]
fn legs_that_cross_are_noticed() {
    let network = attached_ring_4();
    let rules = Rules::of(&network);
    let prefix = Target::Prefix(&network.prefixes[0]);
    let leg = |hops, visits| Ok(Leg { hops, visits });
    assert_eq!(rules.every_walk(3, prefix, (0, 1)), leg(0, false));
    assert_eq!(rules.every_walk(2, prefix, (0, 1)), leg(1, true));
    assert!(rules.every_walk(0, prefix, (0, 1)).is_err());
    assert!(rules.every_walk(0, prefix, (1, 0)).is_err());
    assert!(rules.both_legs((3, 3), prefix, (0, 1)).is_ok());
    // A tunnel passes 3; towards the router 1 a walk from 3 goes on.
    assert_eq!(rules.every_walk(0, Target::Router(2), (0, 3)).ok(), None);
    assert!(rules.every_walk(3, Target::Router(1), (0, 1)).is_err());
    assert!(rules.both_legs((3, 3), Target::Router(1), (0, 1)).is_err());
    assert!(rules.both_legs((3, 2), Target::Router(1), (0, 1)).is_ok());
    assert!(rules.may_cross((0, 1), &network.prefixes[0]));
    assert!(!rules.may_cross((3, 0), &network.prefixes[0]));
    // Without the attachment router 3 steps on over 0 and over 2.
    let plain = ring(4).prefix(&[(1, 0)]);
    let rules = Rules::of(&plain);
    let prefix = Target::Prefix(&plain.prefixes[0]);
    assert!(rules.every_walk(3, prefix, (0, 1)).is_err());
    assert_eq!(rules.every_walk(2, prefix, (0, 1)), leg(1, true));
    assert!(rules.may_cross((3, 0), &plain.prefixes[0]));
}
