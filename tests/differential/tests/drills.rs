//! Drills: every number of routers with many seeds, numbers out of range, buffers
//! of every length, and repairs in drills.

use differential::c_interface::CInterface;
use differential::call::{Planner, Told};
use differential::campaign::{Breadth, Case, run};
use differential::compare::{Asked, ask};
use differential::coverage::{self, Coverage};
use differential::each;
use differential::files::NamedFile;
use differential::library::Library;
use differential::writing::{compared, differing, thing};
use oracle::answer::{Answer, Question};
use oracle::drill::network;
use oracle::fault::{Context, Fault};
use oracle::network::Network;
use oracle::random::Random;
use oracle::write_questions::{DRILL, NO_DRILL};

/// Seeds at the limits of 16, 31 and 32 bits, some that follow each other, and
/// random ones: so many in all.
fn seeds(count: usize, random: &mut Random) -> Vec<u32> {
    let mut seeds = vec![65_535, 65_536, i32::MAX as u32, 1 << 31, u32::MAX - 1, u32::MAX];
    seeds.extend(0..50);
    seeds.resize_with(count, || random.any() as u32);
    seeds
}

/// The drill by way of both interfaces, as the oracle has it.
fn drilled(seed: u32, routers: u64) -> Vec<u8> {
    let outcome = compared(Question::Drill { seed, routers }, DRILL);
    assert_eq!(outcome.answer, Answer::Written(DRILL));
    outcome.left.made
}

/// The ring of document 01 with costs from 1 to 100 and no prefix.
fn assert_ring(network: &Network, routers: u64) {
    assert_eq!((u64::from(network.routers), network.links.len() as u64), (routers, routers));
    assert!(network.prefixes.is_empty());
    for (link, found) in (0..routers).zip(&network.links) {
        let next = if link + 1 == routers { 0 } else { link + 1 };
        assert_eq!((u64::from(found.a), u64::from(found.b)), (link, next));
        assert!((1..=100).contains(&found.forth) && (1..=100).contains(&found.back));
    }
}

/// How often each cost was met: a to b, and b to a.
type Costs = [[u64; 2]; 101];

/// The drills of a number of routers with some seeds. The reader accepts each, by
/// both interfaces, and tells the ring that was drawn.
fn every_drill(routers: u64, seeds: &[u32]) -> Costs {
    let mut costs = [[0; 2]; 101];
    let load = Asked::of_file(Question::Load, 0, 0);
    for seed in seeds {
        let file = drilled(*seed, routers);
        let drawn = network(&Context::sound(), *seed, routers).expect("a drill");
        assert_ring(&drawn, routers);
        for link in &drawn.links {
            costs[usize::from(link.forth)][0] += 1;
            costs[usize::from(link.back)][1] += 1;
        }
        let accepted = Told::Accepted(drawn);
        for planner in [&Library as &dyn Planner, &CInterface] {
            assert_eq!(ask(planner, &file, &load).told, accepted, "{seed} {routers}");
        }
    }
    costs
}

#[test]
fn every_number_of_routers_with_a_thousand_seeds() {
    let every: Vec<u64> = (3..=64).collect();
    let met =
        each(&every, |routers| every_drill(*routers, &seeds(1000, &mut Random::new(*routers))));
    let mut costs = [[0; 2]; 101];
    for (sum, count) in met.iter().flat_map(|costs| costs.iter().enumerate()) {
        costs[sum] = [costs[sum][0] + count[0], costs[sum][1] + count[1]];
    }
    // Each of the 62 numbers, and 2,077 links with each seed.
    let links = 1000 * (3..=64).sum::<u64>();
    assert_eq!(costs.iter().map(|count| count[0]).sum::<u64>(), links);
    assert_eq!(costs.iter().map(|count| count[1]).sum::<u64>(), links);
    let rarest = costs[1..].iter().flatten().min().expect("a cost");
    println!("{} drills, the rarest cost {rarest} times", 1000 * every.len());
    assert!(*rarest > links / 200, "a cost was met {rarest} times only");
}

#[test]
fn numbers_of_routers_out_of_range() {
    let mut met = Coverage::default();
    for routers in NO_DRILL {
        for seed in seeds(100, &mut Random::new(7002)) {
            let question = Question::Drill { seed, routers };
            for length in [0, 1, DRILL - 1, DRILL, 1100, 6656] {
                let outcome = compared(question.clone(), length);
                assert_eq!(outcome.answer, Answer::Written(0), "{question:?}");
                met.written(&question, 0);
            }
        }
    }
    let counts = [thing::TOO_FEW, thing::TOO_MANY].map(|thing| met.count(thing));
    assert_eq!(counts, [3 * 600, 10 * 600]);
}

#[test]
fn buffers_of_every_length() {
    let mut met = Coverage::default();
    for (routers, seed) in [(3, 1), (4, 0), (33, 7), (64, u32::MAX), (2, 1), (65, 1)] {
        for length in 0..=1100 {
            let question = Question::Drill { seed, routers };
            let outcome = compared(question.clone(), length);
            let count = if let Answer::Written(count) = outcome.answer { count } else { 0 };
            met.written(&question, count);
        }
    }
    let things = [thing::DRILL, thing::DRILL_SHORT, thing::TOO_FEW, thing::TOO_MANY];
    assert_eq!(things.map(|thing| met.count(thing)), [4 * 77, 4 * 1024, 1101, 1101]);
}

/// Every question about drills, each link and end among them: the planner and the
/// oracle agree, most links have a repair, and some have none.
#[test]
fn repairs_in_drills() {
    let mut cases = Vec::new();
    for routers in 3..=64 {
        let seeds = if routers < 20 { 0..8 } else { 0..1 };
        for seed in seeds {
            let name = format!("drill {seed} of {routers} routers");
            let file = NamedFile { name, bytes: drilled(1000 * routers as u32 + seed, routers) };
            cases.push(Case::of_file(file, Breadth::Whole(1)));
        }
    }
    // What takes longest comes first.
    cases.reverse();
    let report = run(&Library, &cases);
    report.assert_same();
    let classes = (4..8).map(|class| format!("link repair: class {class}"));
    let repairs: Vec<u64> = classes.map(|class| report.coverage.count(&class)).collect();
    let fourteen = report.coverage.count(coverage::thing::LINK_14);
    println!("{}; repairs by class {repairs:?}, 14 {fourteen} times", report.summary());
    assert!(repairs.iter().all(|count| *count >= 20), "{repairs:?}");
    assert!(fourteen >= 20, "14 came {fourteen} times only");
}

/// Questions for drills: every number of routers up to 70, with buffers that are
/// enough, and some with buffers of other lengths.
fn questions() -> Vec<Asked> {
    let drill = |seed, routers, length| Asked::of_buffer(Question::Drill { seed, routers }, length);
    let mut asked: Vec<Asked> = (0..=70).map(|routers| drill(3, routers, DRILL + 10)).collect();
    for length in [0, 1, 512, DRILL - 1, DRILL, DRILL + 1] {
        asked.extend([2, 3, 64, 65].map(|routers| drill(9, routers, length)));
    }
    asked
}

/// Every planner that makes drills wrongly would be noticed.
#[test]
fn wrong_planners_are_noticed() {
    let asked = questions();
    assert_eq!(differing(&asked, &[]), 0);
    for fault in Fault::OF_DRILLS.into_iter().chain(Fault::OF_FILES) {
        let count = differing(&asked, &[fault]);
        println!("{} differs in {count} of {} drills", fault.name(), asked.len());
        assert!(count > 0, "{} does not differ", fault.name());
    }
}
