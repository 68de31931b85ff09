//! Played routes: the choices, and every hop of every route.

use crate::brute::{Brute, own_cost};
use crate::common::{pair, prefix_repair, random_networks, route};
use oracle::answer::Answer;
use oracle::generate::{self, Family};
use oracle::network::Network;
use oracle::random::Random;
use oracle::worked::*;

/// A grid of 4 by 4 whose link 0 joins 0 and 1, with a prefix at the far
/// corner. Traffic from 0 may cross the link; router 4 is the repair.
fn grid_with_corner() -> Network {
    grid(4, 4).prefix(&[(15, 0)])
}

#[test]
fn choices_on_a_grid() {
    let network = grid_with_corner();
    assert_eq!(prefix_repair(&network, 0, 0, 0), pair(4, 4, 0, 1));
    // From 4 on every step leads right (+1) or down (+4); lower numbers first.
    assert_eq!(route(&network, 0, 0, 0, &[]), [0, 4, 5, 6, 7, 11, 15]);
    assert_eq!(route(&network, 0, 0, 0, &[1]), [0, 4, 8, 9, 10, 11, 15]);
    assert_eq!(route(&network, 0, 0, 0, &[1, 1]), [0, 4, 8, 12, 13, 14, 15]);
    assert_eq!(route(&network, 0, 0, 0, &[0, 1, 0, 1]), [0, 4, 5, 9, 10, 14, 15]);
    // Modulo the number of options.
    assert_eq!(route(&network, 0, 0, 0, &[254, 255, 2, 3]), [0, 4, 5, 9, 10, 14, 15]);
    // At 7 there is a single option, which uses a byte too.
    assert_eq!(route(&network, 0, 0, 0, &[0, 0, 0, 1, 1]), [0, 4, 5, 6, 7, 11, 15]);
    // Bytes that are not needed change nothing.
    assert_eq!(route(&network, 0, 0, 0, &[1; 300]), [0, 4, 8, 12, 13, 14, 15]);
}

#[test]
fn a_single_option_uses_a_byte() {
    // S is 0 and E is 6. From 1 there is one step to 2, and from there are two
    // equal ways to 5 over 3 or 4.
    let network = Network::of_routers(7)
        .link(0, 6, 1, 1)
        .link(6, 5, 2, 2)
        .link(0, 1, 1, 1)
        .link(1, 2, 1, 1)
        .link(2, 3, 1, 1)
        .link(2, 4, 1, 1)
        .link(3, 5, 1, 1)
        .link(4, 5, 1, 1)
        .prefix(&[(5, 0)]);
    assert_eq!(prefix_repair(&network, 0, 0, 0), pair(1, 1, 1, 1));
    // The first byte is used by the single option at 1, the second at 2.
    assert_eq!(route(&network, 0, 0, 0, &[1]), [0, 1, 2, 3, 5]);
    assert_eq!(route(&network, 0, 0, 0, &[0, 1]), [0, 1, 2, 4, 5]);
    assert_eq!(route(&network, 0, 0, 0, &[7, 7]), [0, 1, 2, 4, 5]);
    assert_eq!(route(&network, 0, 0, 0, &[0, 0, 1, 1]), [0, 1, 2, 3, 5]);
}

#[test]
fn arrival_at_the_endpoint_uses_no_byte() {
    // S is 0 and E is 1. The tunnel leads from 2 over 3 or 4 to 5, and from
    // there are two equal ways to 8 over 6 or 7.
    let network = Network::of_routers(9)
        .link(0, 1, 1, 1)
        .link(1, 8, 2, 2)
        .link(0, 2, 1, 1)
        .link(2, 3, 1, 1)
        .link(2, 4, 1, 1)
        .link(3, 5, 1, 1)
        .link(4, 5, 1, 1)
        .link(5, 6, 1, 1)
        .link(5, 7, 1, 1)
        .link(6, 8, 1, 1)
        .link(7, 8, 1, 1)
        .prefix(&[(8, 0)]);
    assert_eq!(prefix_repair(&network, 0, 0, 0), pair(2, 5, 2, 3));
    assert_eq!(route(&network, 0, 0, 0, &[]), [0, 2, 3, 5, 6, 8]);
    assert_eq!(route(&network, 0, 0, 0, &[1]), [0, 2, 4, 5, 6, 8]);
    // The second byte is used by the single option at 3, the third at 5.
    assert_eq!(route(&network, 0, 0, 0, &[0, 1]), [0, 2, 3, 5, 6, 8]);
    assert_eq!(route(&network, 0, 0, 0, &[0, 0, 1]), [0, 2, 3, 5, 7, 8]);
    assert_eq!(route(&network, 0, 0, 0, &[1, 9, 3]), [0, 2, 4, 5, 7, 8]);
}

#[test]
fn delivery_is_the_only_option() {
    // Ring 4: router 3 is attached, at the cost of the way over 2 and above it.
    for own in [1, 2, 100, 65_535] {
        let network = ring(4).prefix(&[(1, 0), (2, 0), (3, own)]);
        assert_eq!(prefix_repair(&network, 0, 0, 0), pair(3, 3, 1, 1));
        for choices in [&[][..], &[1], &[3, 1], &[255; 8]] {
            assert_eq!(route(&network, 0, 0, 0, choices), [0, 3]);
        }
    }
}

/// A route once more, played by hand from the plain definitions.
fn replayed(
    network: &Network,
    s: usize,
    (n, y): (usize, usize),
    prefix: usize,
    choices: &[u8],
) -> Vec<usize> {
    let brute = Brute::new(network);
    let prefix = &network.prefixes[prefix];
    let mut used = 0;
    let mut pick = |options: &[Option<usize>]| {
        let byte = choices.get(used).copied().unwrap_or(0);
        used += 1;
        options[usize::from(byte) % options.len()]
    };
    let nexts = |x: usize, remaining: &dyn Fn(usize) -> u64| -> Vec<Option<usize>> {
        let tight = |z: &usize| {
            brute.cost[x][*z].is_some_and(|cost| remaining(*z).saturating_add(cost) == remaining(x))
        };
        (0..brute.routers).filter(tight).map(Some).collect()
    };
    let mut written = vec![s, n];
    let mut here = n;
    while here != y {
        here = pick(&nexts(here, &|z| brute.distance[z][y])).expect("a step");
        written.push(here);
    }
    loop {
        let mut options = nexts(here, &|z| brute.to_prefix(z, prefix));
        if own_cost(prefix, here).is_some() {
            options = vec![None];
        }
        match pick(&options) {
            Some(next) => here = next,
            None => return written,
        }
        written.push(here);
    }
}

#[test]
fn random_routes_are_those_their_choices_name() {
    let mut random = Random::new(61);
    let mut networks = random_networks(6, 9, 62);
    for family in [Family::Ties, Family::Grid, Family::Dense] {
        networks.extend((0..10).map(|_| generate::network(family, 25, &mut random)));
    }
    let mut played = 0;
    for network in networks {
        for (link, end) in (0..network.links.len()).flat_map(|link| [(link, 0), (link, 1)]) {
            let ends = network.links[link];
            let s = usize::from(if end == 0 { ends.a } else { ends.b });
            for prefix in 0..network.prefixes.len() {
                let answer = prefix_repair(&network, link as u64, end, prefix as u64);
                let Answer::Pair(pair) = answer else {
                    continue;
                };
                let count = random.below(12);
                let choices = random.bytes(count);
                let written = route(&network, link as u64, end, prefix as u64, &choices);
                let written: Vec<usize> = written.into_iter().map(usize::from).collect();
                let hop_and_endpoint = (pair.first_hop, pair.endpoint);
                assert_eq!(written, replayed(&network, s, hop_and_endpoint, prefix, &choices));
                // A route has at most 2 x N routers and never crosses the link.
                assert!(written.len() <= 2 * usize::from(network.routers));
                let e = usize::from(if end == 0 { ends.b } else { ends.a });
                let crosses = |hop: &[usize]| hop == [s, e] || hop == [e, s];
                assert!(!written.windows(2).any(crosses));
                played += 1;
            }
        }
    }
    assert!(played > 500, "only {played} routes were played");
}
