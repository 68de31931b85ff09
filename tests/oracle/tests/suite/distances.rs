//! Distances against Floyd and Warshall's method and against a list of paths.

use crate::brute::{Brute, FAR};
use crate::common::{ask_network, random_networks};
use oracle::answer::Question;
use oracle::distance::UNREACHABLE;
use oracle::generate;
use oracle::network::Network;
use oracle::random::Random;

fn distances(network: &Network) -> Vec<u32> {
    ask_network(network, &Question::Distances).left.work
}

fn cell(distance: u64) -> u32 {
    if distance == FAR { UNREACHABLE } else { u32::try_from(distance).expect("a distance fits") }
}

#[test]
fn as_floyd_and_warshall() {
    let mut networks = random_networks(6, 64, 11);
    networks.push(generate::largest(&mut Random::new(12)));
    for network in networks {
        let expected: Vec<u32> =
            Brute::new(&network).distance.iter().flatten().map(|d| cell(*d)).collect();
        assert_eq!(distances(&network), expected);
    }
}

#[test]
fn as_a_list_of_all_paths() {
    for network in random_networks(10, 6, 13) {
        let brute = Brute::new(&network);
        let all = 0..brute.routers;
        let pairs = all.clone().flat_map(|x| all.clone().map(move |t| (x, t)));
        let expected: Vec<u32> = pairs.map(|(x, t)| cell(brute.least_path(x, t, &[]))).collect();
        assert_eq!(distances(&network), expected);
    }
}

#[test]
fn the_largest_real_distance() {
    // A line of 64 routers whose costs are all 65,535, and a prefix at its end
    // with the same cost: 64 times 65,535 is 4,194,240.
    let mut network = Network::of_routers(64).prefix(&[(63, 65_535)]);
    for router in 1..64 {
        network = network.link(router - 1, router, 65_535, 65_535);
    }
    assert_eq!(distances(&network)[63], 63 * 65_535);
    let ctx = oracle::fault::Context::sound();
    let workings = oracle::workings::Workings::of(&ctx, network);
    assert_eq!(workings.to_prefix(0).remaining(0), 4_194_240);
}

#[test]
fn later_cells_are_untouched() {
    let file = oracle::file::write(&oracle::worked::two_routers());
    let lent = vec![7; 9];
    let outcome = oracle::answer::distances(&oracle::fault::Context::sound(), &file, &lent);
    assert_eq!(outcome.left.work, [0, 1, 1, 0, 7, 7, 7, 7, 7]);
}
