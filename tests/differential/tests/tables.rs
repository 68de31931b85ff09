//! Second calls: tables of every kind on random networks of every family, by both
//! interfaces. With the file's distances each answers as the single call, with any other
//! table it is refused.

use differential::c_interface::CInterface;
use differential::call::{Planner, Told};
use differential::campaign::{Breadth, Case, Report, run};
use differential::compare::{Asked, ask, difference};
use differential::coverage::of_rows;
use differential::each;
use differential::files;
use differential::kinds::{self, Kind};
use differential::library::Library;
use differential::networks::{self, MIDDLE, Named, SMALL, Size, WIDE};
use differential::stand_in::assert_noticed;
use differential::tabled;
use differential::tables::{things, unlike};
use oracle::answer::{Opened, Question};
use oracle::fault::{Context, Fault};
use oracle::file::write;
use oracle::network::Network;
use oracle::random::Random;
use oracle::table;
use oracle::worked::ring_4_with_prefix;

/// So few routers that every cell is asked with by each of the three calls.
const TINY: Size = Size { name: "tiny", routers: (2, 4), prefixes: (1, 2) };

/// Networks of every family and size, files that are refused, and those worked by hand.
fn cases(first_seed: u64) -> Vec<Case> {
    let seeds = |from: u64, count: u64| first_seed + from..first_seed + from + count;
    let tables = |named| Case::of_network(named, Breadth::Tables);
    let of_file = |file| Case::of_file(file, Breadth::Tables);
    let wide = networks::of_families(WIDE, seeds(0, 1)).into_iter().take(3);
    let mut cases: Vec<Case> = wide.map(tables).collect();
    cases.extend(networks::of_families(MIDDLE, seeds(1, 1)).into_iter().map(tables));
    cases.extend(networks::of_families(SMALL, seeds(2, 6)).into_iter().map(tables));
    cases.extend(networks::of_families(TINY, seeds(10, 3)).into_iter().map(tables));
    cases.extend(files::worked().into_iter().map(of_file));
    cases.extend(files::single_causes(1, first_seed).into_iter().map(of_file));
    cases
}

fn compared(planner: &dyn Planner, cases: &[Case]) -> Report {
    let report = run(planner, cases);
    println!("{}\n{}", report.summary(), report.coverage);
    report.assert_same();
    report
}

/// Every cause of a table that is not the file's, every way to be near to it, every row
/// before and after, and every answer, by each call.
fn assert_met_often(report: &Report) {
    for thing in things() {
        let count = report.coverage.count(&thing);
        assert!(count >= 5, "met {count} times only: {thing}");
    }
    report.assert_met(&of_rows(&[1, 2, 3, 4, 5, 6, 7, 8, 9, 11, 12, 13, 14, 18]));
}

#[test]
fn tables_of_every_kind() {
    assert_met_often(&compared(&Library, &cases(9001)));
}

#[test]
fn tables_of_every_kind_by_the_c_interface() {
    assert_met_often(&compared(&CInterface, &cases(9101)));
}

/// A network as every planner is asked about it, each question as a single call and as a
/// second one by the cells that the planner's own first call leaves.
fn assert_alike(named: &Named) -> usize {
    let file = write(&named.network);
    let bytes = 2 * usize::from(named.network.routers);
    let questions = tabled::right_questions(&named.network, &mut Random::new(9301));
    for planner in [&Library as &dyn Planner, &CInterface] {
        let first = Asked::of_file(Question::Distances, bytes * bytes / 4 + 1, bytes);
        let filled = ask(planner, &file, &first).work;
        for question in &questions {
            let found = unlike(planner, &file, question, filled.contents(), bytes);
            assert_eq!(found, None, "{}", named.name);
        }
    }
    questions.len()
}

/// Every link, end and prefix, and routes. The oracle is not asked.
#[test]
fn a_second_call_answers_as_the_single_call() {
    let mut networks = networks::of_families(MIDDLE, 9311..9312);
    networks.extend(networks::of_families(SMALL, 9312..9322));
    let questions: usize = each(&networks, assert_alike).into_iter().sum();
    println!("{questions} questions about {} networks", networks.len());
    assert!(questions >= 10_000);
}

/// A table is of whatever file has its distances: here of two networks, one of which has a
/// link more that no path uses. And after one more change it is of one of them alone.
#[test]
fn a_table_is_of_every_file_with_its_distances() {
    let ring = ring_4_with_prefix();
    let with_link = ring.clone().link(0, 2, 65_535, 65_535);
    let cheaper = ring.clone().link(0, 2, 1, 65_535);
    let own = table::right(&ring);
    assert_eq!(own, table::right(&with_link));
    for planner in [&Library as &dyn Planner, &CInterface] {
        for question in [Question::link_repair(0, 0), Question::route(0, 0, 0, &[1])] {
            let asked = Asked::by_table(question.clone(), Kind::SameDistances, &own, 8);
            let told = |network| ask(planner, &write(network), &asked).told;
            let is_18 = Told::Refused { number: 18, value: 0 };
            assert_ne!(told(&ring), is_18);
            assert_ne!(told(&with_link), is_18);
            assert_eq!(told(&cheaper), is_18);
        }
    }
}

/// A line of five routers, and one that no link joins, or that one joins at this cost. The
/// distance along the line is the largest but one.
fn line(largest: u32, joined: Option<u16>) -> Network {
    let (third, rest) = ((largest / 3) as u16, (largest - largest / 3 * 2 - 1) as u16);
    let line = Network::of_routers(6)
        .link(0, 1, third, third)
        .link(1, 2, third, 1)
        .link(2, 3, 1, third)
        .link(4, 3, 1, rest);
    match joined {
        Some(cost) => line.link(4, 5, cost, 1),
        None => line,
    }
}

/// Every cell in turn as another number, most of which are the same in their lower bits.
fn tables_near(right: &[u32]) -> Vec<Vec<u32>> {
    let others = [13, 14, 15, 16, 17, 22, 30, 31].map(|bit| 1u32 << bit);
    let offsets = others.into_iter().chain([1, 2, u32::MAX, u32::MAX - 1]);
    offsets
        .flat_map(|offset| {
            (0..right.len()).map(move |place| {
                let mut cells = right.to_vec();
                cells[place] = cells[place].wrapping_add(offset);
                cells
            })
        })
        .collect()
}

/// Small distances are checked as numbers of 16 bits, others as numbers of 32. On both
/// sides of each power of two the right table is taken and every other refused.
#[test]
fn tables_about_the_bounds_of_16_bits() {
    let mut asked = 0;
    for bound in [1u32 << 13, 1 << 14, 1 << 15, 1 << 16, 1 << 17] {
        for largest in bound - 4..bound + 4 {
            for joined in [None, Some(1), Some(65_535)] {
                let network = line(largest, joined);
                let (file, right) = (write(&network), table::right(&network));
                assert_eq!(right[4], largest);
                let told = |cells: &[u32]| {
                    let question = Question::link_repair(0, 0);
                    ask(&Library, &file, &Asked::by_table(question, Kind::AtRandom, cells, 12)).told
                };
                let is_18 = Told::Refused { number: 18, value: 0 };
                assert_ne!(told(&right), is_18, "{largest} {joined:?}");
                for cells in tables_near(&right) {
                    assert_eq!(told(&cells), is_18, "{largest} {joined:?} {cells:?}");
                    asked += 1;
                }
            }
        }
    }
    assert_eq!(asked, 5 * 8 * 3 * 12 * 36);
}

/// No call may write into its table: every cell of it is compared, and those around it.
#[test]
fn a_changed_table_is_noticed() {
    let (ctx, file) = (Context::sound(), write(&ring_4_with_prefix()));
    let opened = Opened::new(&ctx, &file);
    let random = &mut Random::new(9401);
    for (kind, cells) in kinds::right(&ring_4_with_prefix(), random) {
        let asked = Asked::by_table(Question::link_repair(0, 0), kind, &cells, 8);
        let expected = opened.ask(&asked.question, &asked.buffers());
        let heard = ask(&Library, &file, &asked);
        assert_eq!(difference(&file, &asked, &expected, &heard), None);
        for place in [0, 5, 15, cells.len() - 1] {
            let mut changed = heard.clone();
            changed.table.lend()[place] ^= 1;
            let found = difference(&file, &asked, &expected, &changed).expect("the change shows");
            assert!(found.starts_with("in the table, the cells: cell"), "{found}");
        }
    }
}

/// Every planner that takes tables wrongly differs in many networks.
#[test]
fn wrong_planners_are_noticed() {
    let networks = networks::of_families(TINY, 9501..9504).into_iter();
    let cases = networks.map(|named| Case::of_network(named, Breadth::Tables));
    assert_noticed(&Fault::OF_TABLES, &cases.collect::<Vec<Case>>(), 3);
}
