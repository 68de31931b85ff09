//! Several failures together: 100,000 packets over links of which any set has failed, sent
//! on in any mixture of usual steps and neighbour repairs that are downstream, visit no
//! router twice and have fewer than N hops. Once by every pair that serves, once by what the
//! library answers, and once by what the C interface answers. With the classes 1 and 5
//! allowed some packet does visit a router twice.

use differential::c_interface::CInterface;
use differential::call::Planner;
use differential::each;
use differential::failures::{Asking, Report, by_oracle, by_planner, thing};
use differential::library::Library;
use differential::networks::{MIDDLE, Named, Size, WIDE, of_families};
use differential::stand_in::StandIn;
use oracle::failures::DOWNSTREAM;
use oracle::fault::{Context, Fault};

/// Networks in which most packets have several hops.
const GALE: Size = Size { name: "gale", routers: (3, 14), prefixes: (1, 4) };

const PACKETS: u64 = 100_000;

/// The reports of some networks, added up.
fn run(networks: &[Named], report: impl Fn(&Named) -> Report + Sync) -> Report {
    let mut whole = Report::default();
    each(networks, report).into_iter().for_each(|report| whole.add(report));
    println!("{} networks, {}\n{}", networks.len(), whole.summary(), whole.coverage);
    whole
}

/// Enough packets, every kind of them met often, and nothing wrong.
fn assert_kept(report: &Report, least: u64) {
    let count = report.wrong.len();
    assert!(count == 0, "{count} times; the first:\n{}", report.wrong[0]);
    assert!(report.packets >= PACKETS, "{} packets only", report.packets);
    for thing in thing::ALL {
        let count = report.coverage.count(thing);
        assert!(count >= least, "met {count} times only: {thing}");
    }
}

/// By every pair that serves: all sends there are, on networks of every family.
#[test]
fn by_every_pair_that_serves() {
    let mut networks = of_families(WIDE, 9001..9002);
    networks.extend(of_families(MIDDLE, 9002..9006));
    networks.extend(of_families(GALE, 9010..9050));
    let report = run(&networks, |named| by_oracle(&Context::sound(), named, 80));
    assert_kept(&report, 500);
}

/// The answers are held against a sound oracle; routers send by the classes 0 and 4.
fn downstream(packets: usize) -> Asking {
    let classes = DOWNSTREAM.to_vec();
    Asking { ctx: Context::sound(), classes, tables: 6, packets }
}

#[test]
fn by_the_answers_of_the_library() {
    let networks = of_families(GALE, 9101..9141);
    let asking = downstream(100);
    let report = run(&networks, |named| by_planner(&Library, named, &asking));
    assert_kept(&report, 100);
    assert!(report.answers >= 3000 && report.routes >= report.answers, "{}", report.summary());
}

#[test]
fn by_the_answers_of_the_c_interface() {
    let networks = of_families(GALE, 9201..9221);
    let asking = downstream(200);
    let report = run(&networks, |named| by_planner(&CInterface, named, &asking));
    assert_kept(&report, 100);
}

/// The promise is of downstream repairs: with the classes 1 and 5 allowed a packet visits a
/// router twice, by every pair that serves and by the answers of the library. So the tests
/// above can fail.
#[test]
fn with_class_1_a_packet_visits_a_router_twice() {
    let networks = of_families(GALE, 9301..9303);
    let ctx = Context::with(&[Fault::NotDownstreamSent]);
    let twice = |report: &Report| {
        let mut wrong = report.wrong.iter().filter(|wrong| wrong.contains("a router twice"));
        let first = wrong.next().expect("a packet that visits a router twice");
        println!("{first}");
        assert!(first.contains("failed links [") && first.contains("\nlink "), "{first}");
    };
    twice(&run(&networks, |named| by_oracle(&ctx, named, 90)));
    let classes = vec![0, 1, 4, 5];
    let asking = Asking { ctx: ctx.clone(), classes, ..downstream(90) };
    let report = run(&networks, |named| by_planner(&Library, named, &asking));
    twice(&report);
    // Every answer is a pair that serves all the same.
    assert!(report.wrong.iter().all(|wrong| wrong.contains("a packet visits a router twice")));
}

/// Planners that tell a wrong class, or a pair that there is not: their answers are not
/// among the oracle's sends. The oracle in the library's place keeps the promise.
#[test]
fn wrong_planners_are_noticed() {
    let networks = of_families(GALE, 9401..9403);
    let wrong = |faults: &[Fault]| {
        let planner = StandIn { ctx: Context::with(faults) };
        let asked = |named: &Named| by_planner(&planner as &dyn Planner, named, &downstream(10));
        run(&networks, asked).wrong.len()
    };
    assert_eq!(wrong(&[]), 0);
    let faults = [
        Fault::ClassNotStrict,
        Fault::ClassToldModulo4,
        Fault::RankToldAsClass,
        Fault::PairsOfEveryNeighbour,
        Fault::CostsWrongWayRound,
    ];
    for fault in faults {
        let count = wrong(&[fault]);
        println!("{} is noticed {count} times", fault.name());
        assert!(count > 0, "{}", fault.name());
    }
}
