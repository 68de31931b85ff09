//! Networks that are written: random ones, networks outside the limits in each
//! single way, cells that no entry speaks of, and buffers of many lengths.

use differential::c_interface::{by_value, write};
use differential::call::Told;
use differential::compare::{Asked, ask};
use differential::coverage::Coverage;
use differential::each;
use differential::library::{Library, network_from};
use differential::networks::{self, MIDDLE, SMALL, WIDE};
use differential::writing::{compared, differing, of_cause, thing, things};
use oracle::answer::{Answer, Question};
use oracle::columns::Columns;
use oracle::fault::Fault;
use oracle::file;
use oracle::network::Network;
use oracle::random::Random;
use oracle::row::Cause;
use oracle::spoil::{self, VALUES};
use oracle::write_questions;

/// Compares questions by way of both interfaces, and counts what was met.
fn all_compared(asked: Vec<write_questions::Asked>) -> Coverage {
    let mut met = Coverage::default();
    for (question, length) in asked {
        let outcome = compared(question.clone(), length);
        let Answer::Written(count) = outcome.answer else {
            panic!("{:?}", outcome.answer);
        };
        met.written(&question, count);
    }
    met
}

/// A network written with buffers of lengths about that of its file, with zeros
/// and with anything in the unused cells. The reader accepts the file and tells
/// the network again, and the crate's own network makes the same bytes.
fn round_trip(network: &Network, seed: u64) -> Coverage {
    let file = file::write(network);
    let load = Asked::of_file(Question::Load, 0, 0);
    assert_eq!(ask(&Library, &file, &load).told, Told::Accepted(network.clone()));
    let same = network_from(&Columns::of(network)).expect("within the limits");
    assert_eq!(same.to_bytes(), file);
    all_compared(write_questions::of_network(network, &mut Random::new(seed)))
}

#[test]
fn random_networks() {
    let mut networks = networks::of_families(SMALL, 8001..8061);
    networks.extend(networks::of_families(MIDDLE, 8061..8067));
    networks.extend(networks::of_families(WIDE, 8067..8069));
    networks.extend((8070..8076).flat_map(networks::of_extremes));
    networks.extend((8080..8084).map(networks::largest));
    let mut met = Coverage::default();
    for part in each(&networks, |named| round_trip(&named.network, 8090)) {
        met.add(&part);
    }
    println!("{} networks\n{met}", networks.len());
    let networks = networks.len() as u64;
    let things = [thing::NETWORK, thing::NETWORK_SHORT].map(|thing| met.count(thing));
    // Each of five lengths twice: two are too short, three are enough.
    assert_eq!(things, [6 * networks, 4 * networks]);
    assert!(met.count(thing::UNUSED) > 2 * networks);
}

#[test]
fn networks_outside_the_limits_in_each_single_way() {
    const TIMES: usize = 6;
    let met = all_compared(write_questions::outside(TIMES, &mut Random::new(8101)));
    println!("{met}");
    for cause in Cause::OF_NETWORKS {
        assert_eq!(met.count(&of_cause(cause)), (TIMES * VALUES) as u64, "{cause:?}");
    }
    assert_eq!(met.count(thing::NETWORK), 0);
}

#[test]
fn questions_of_every_kind_meet_everything() {
    let met = all_compared(write_questions::questions(&mut Random::new(8201)));
    assert_eq!(met.missing(&things()), Vec::<String>::new());
}

#[test]
fn buffers_of_every_length() {
    let random = &mut Random::new(8301);
    for (routers, links, prefixes) in [(1, 0, 0), (9, 20, 0), (9, 0, 14), (20, 85, 15)] {
        let network = oracle::generate::sized(routers, links, prefixes, random);
        let mut columns = Columns::of(&network);
        spoil::unused_cells(&mut columns, random);
        let needed = file::write(&network).len();
        let question = Question::Write { network: Box::new(columns) };
        for length in 0..=needed + 40 {
            let count = if length < needed { 0 } else { needed };
            assert_eq!(compared(question.clone(), length).answer, Answer::Written(count));
        }
    }
}

/// Whatever kind, number and value a network by value has.
#[test]
fn kind_number_and_value_are_not_looked_at() {
    let random = &mut Random::new(8401);
    let network = oracle::generate::sized(40, 90, 20, random);
    let (sound, file) = (Columns::of(&network), file::write(&network));
    let spoiled = spoil::network(Cause::LinkLoop, 0, random);
    for kind in (0..10).chain([255, 256, u32::MAX]) {
        for (number, value) in [(0, 0), (1, 0), (9, 3), (u32::MAX, u64::MAX)] {
            let mut made = vec![0xa5; file.len() + 9];
            let told = write(&by_value(&sound, (kind, number, value)), &mut made);
            assert_eq!(told, Told::Written(file.len() as u64));
            assert_eq!(made, [&file, &[0xa5; 9][..]].concat());
            let mut made = vec![0xa5; 7000];
            let told = write(&by_value(&spoiled, (kind, number, value)), &mut made);
            assert_eq!((told, made), (Told::Written(0), vec![0xa5; 7000]));
        }
    }
}

/// Every planner that writes networks wrongly would be noticed.
#[test]
fn wrong_planners_are_noticed() {
    let mut asked = write_questions::questions(&mut Random::new(8501));
    asked.retain(|(question, _)| matches!(question, Question::Write { .. }));
    let of_buffer = |(question, length)| Asked::of_buffer(question, length);
    let asked: Vec<Asked> = asked.into_iter().map(of_buffer).collect();
    assert_eq!(differing(&asked, &[]), 0);
    for fault in Fault::of_writing().into_iter().chain(Fault::OF_FILES) {
        let count = differing(&asked, &[fault]);
        println!("{} differs in {count} of {} networks", fault.name(), asked.len());
        assert!(count > 0, "{} does not differ", fault.name());
    }
}
