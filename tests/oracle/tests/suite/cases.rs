//! The stored texts: that each is what its name and its comment say.

use crate::common::{stored_cases, stored_file};
use oracle::answer::{Answer, Opened, Question, load};
use oracle::batch::enough;
use oracle::damage::causes;
use oracle::fault::{Context, Fault};
use oracle::file::{LARGEST, write};
use oracle::generate;
use oracle::network::Network;
use oracle::random::Random;
use oracle::ranks::ASCENDING;
use oracle::repair::{deciding_key, serving};
use oracle::row::Cause;
use oracle::space::Space;
use oracle::stored;
use oracle::stored::cases::Cases;
use oracle::worked::*;
use std::collections::BTreeSet;
use std::fs;

/// Every text of a bad file: its place below the root, and the file.
fn bad_files() -> Vec<(String, Vec<u8>)> {
    let Cases { reader, refused, .. } = stored_cases();
    let in_tests = reader.into_iter().map(|case| (format!("tests/cases/{}.txt", case.name), case));
    let examples = refused.into_iter().map(|case| (format!("examples/{}.txt", case.name), case));
    in_tests.chain(examples).map(|(place, case)| (place, case.file)).collect()
}

#[test]
fn the_first_line_of_a_bad_text_is_the_answer() {
    for (place, file) in bad_files() {
        let text = fs::read_to_string(stored::root().join(&place)).expect("a text");
        let answer = match load(&Context::sound(), &file) {
            Ok(_) => "# accepted: ".to_string(),
            Err(refusal) => format!("# refused {} {}: ", refusal.number, refusal.value),
        };
        assert!(text.starts_with(&answer), "{place} does not start with {answer}");
    }
}

#[test]
fn each_of_the_rows_1_to_9_has_an_example() {
    let refused = stored_cases().refused;
    assert_eq!(refused.len(), 9);
    for (number, case) in (1..).zip(refused) {
        assert!(case.name.starts_with(&format!("refused/{number:02}-")), "{}", case.name);
        let refusal = load(&Context::sound(), &case.file).expect_err("a refused file");
        assert_eq!(refusal.number, number, "{}", case.name);
    }
}

#[test]
fn every_cause_of_the_rows_1_to_9_has_a_reader_text() {
    let refusals = stored_cases().reader.into_iter();
    let refusals = refusals.filter_map(|case| load(&Context::sound(), &case.file).err());
    let met: BTreeSet<Cause> = refusals.map(|refusal| refusal.cause).collect();
    assert_eq!(met.into_iter().collect::<Vec<Cause>>(), causes());
}

#[test]
fn the_networks_worked_by_hand_are_stored() {
    let destinations =
        |network: Network| network.prefix(&[(3, 0)]).prefix(&[(4, 0)]).prefix(&[(5, 0)]);
    let stored = [
        ("one_router", lone_router()),
        ("two_routers", two_routers()),
        ("ring_3", ring(3)),
        ("ring_3_dear_back", ring_3_dear_back()),
        ("ring_4", ring(4)),
        ("ring_4_dear_link", ring_4_dear_link()),
        ("ring_4_prefix", ring_4_with_prefix()),
        ("ring_5", ring(5)),
        ("ring_5_prefix", ring_5_with_prefix()),
        ("source_000_figure_1", destinations(figure_1(1))),
        ("source_000_figure_1_dear", destinations(figure_1(4))),
        ("source_001_figure_1", topology_1()),
        ("source_001_figure_2", topology_2()),
        ("four_classes", four_classes()),
        ("neighbours_only", neighbours_only()),
        ("ring_3_dear_link", ring_3_dear_link()),
        ("maintenance_first_hops", maintenance_first_hops()),
        ("maintenance_tunnel", maintenance_tunnel()),
        ("maintenance_protected_link", maintenance_protected_link()),
        ("maintenance_extended_p", maintenance_extended_p()),
        ("maintenance_costs", maintenance_costs()),
        ("ring_6_costs_65534", ring_6_of_cost(65_534)),
        ("ring_6_costs_65535", ring_6_of_cost(65_535)),
        ("attached_ring_4", attached_ring_4()),
        ("attached_first_hop", attached_first_hop()),
        ("attached_far_end", attached_far_end()),
        ("attached_tunnel", attached_tunnel()),
        ("attached_s", attached_s()),
        ("attached_class", attached_class()),
        ("attached_everywhere", attached_everywhere()),
        ("node_eight_classes", node_eight_classes()),
        ("node_farther_neighbour", node_farther_neighbour()),
        ("node_ring_4", node_ring_4()),
        ("node_tunnel", node_tunnel()),
        ("node_second_leg", node_second_leg()),
        ("node_attached", node_attached()),
        ("node_neighbours", node_neighbours(1)),
        ("node_neighbours_far", node_neighbours(3)),
        ("node_tunnel_or_neighbour", node_tunnel_or_neighbour()),
        ("node_not_touched", node_not_touched()),
        ("node_ring_6_cost_3", node_ring_6(3)),
        ("node_ring_6_cost_5", node_ring_6(5)),
    ];
    let cases = stored_cases();
    for (name, network) in stored {
        assert_eq!(stored_file(&cases, name), write(&network), "{name}");
    }
}

#[test]
fn every_network_is_accepted() {
    for case in &stored_cases().networks {
        assert!(load(&Context::sound(), &case.file).is_ok(), "{} is refused", case.name);
    }
}

#[test]
fn the_largest_network_is_the_generators() {
    let network = generate::sized(64, 128, 128, &mut Random::new(21));
    let cases = stored_cases();
    assert_eq!(stored_file(&cases, "largest"), write(&network));
    assert_eq!(stored_file(&cases, "largest").len(), LARGEST);
}

#[test]
fn every_key_decides_in_the_network_of_keys() {
    let cases = stored_cases();
    let ctx = Context::sound();
    let opened = Opened::new(&ctx, stored_file(&cases, "keys"));
    let workings = opened.workings();
    let link_end = workings.network.link_end(&ctx, 0, 0).expect("link 0");
    let key = |target| deciding_key(&serving(workings, &link_end, target, &ASCENDING));
    assert_eq!(key(workings.to_router(link_end.e)), Some(4));
    for (prefix, expected) in [(0, 1), (1, 2), (2, 3), (3, 5)] {
        assert_eq!(key(workings.to_prefix(prefix)), Some(expected));
    }
}

#[test]
fn s_is_decided_by_the_direction_from_the_far_end() {
    let cases = stored_cases();
    let file = stored_file(&cases, "far_end_to_s");
    let extended_p = |ctx: &Context, link| {
        let question = Question::Space { space: Space::ExtendedP, link, end: 0 };
        Opened::new(ctx, file).ask(&question, &enough()).answer
    };
    let from_s_only = Context::with(&[Fault::OnlySToETested]);
    for (link, without_s, with_s) in [(0, 0b110, 0b111), (3, 0b110_000, 0b111_000)] {
        assert_eq!(extended_p(&Context::sound(), link), Answer::Set(without_s));
        assert_eq!(extended_p(&from_s_only, link), Answer::Set(with_s));
    }
}
