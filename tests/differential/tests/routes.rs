//! Played routes hop by hop: many routes where many paths are equal, and the
//! rules that they are held against, tried on routes that break them.

use differential::attached::thing::{PLAYED_DEAR, PLAYED_NEAR};
use differential::campaign::{Breadth, Case, run};
use differential::coverage::thing;
use differential::library::Library;
use differential::networks::{Size, of_family};
use differential::routes::{Asking, Rules};
use oracle::generate::Family;
use oracle::network::Network;
use oracle::worked::{attached_tunnel, grid, ring};

/// Routers and prefixes enough for choices on most routes.
const CHOICES: Size = Size { name: "choices", routers: (9, 20), prefixes: (2, 6) };

#[test]
fn many_routes_where_many_paths_are_equal() {
    let families = [Family::Ties, Family::Grid, Family::Dense, Family::Ring, Family::HighCost];
    let networks = families
        .iter()
        .flat_map(|family| (3001..3006).map(|seed| of_family(*family, CHOICES, seed)));
    let cases = networks.map(|named| Case::of_network(named, Breadth::Whole(12)));
    let report = run(&Library, &cases.collect::<Vec<Case>>());
    println!("{}", report.summary());
    report.assert_same();
    let things = [thing::PLAYED, thing::CHOICE, PLAYED_NEAR, PLAYED_DEAR];
    report.assert_met(&things.map(str::to_string));
    assert!(report.routes > 5000, "only {} routes were followed", report.routes);
}

/// Link 0, end 0 and prefix 0, with the first hop n and the endpoint y.
fn asking(pair: (usize, usize), choices: &[u8]) -> Asking<'_> {
    Asking { link: 0, end: 0, prefix: 0, pair, choices }
}

#[test]
fn a_route_that_breaks_a_rule_is_noticed() {
    let network = grid(4, 4).prefix(&[(15, 0)]);
    let rules = Rules::of(&network);
    let pair = (4, 4);
    assert!(rules.follow(&asking(pair, &[]), &[0, 4, 5, 6, 7, 11, 15]).is_ok());
    assert!(rules.follow(&asking(pair, &[1, 1]), &[0, 4, 8, 12, 13, 14, 15]).is_ok());
    let broken: [&[u8]; 10] = [
        // Nothing, S missing, another first hop, over the link.
        &[],
        &[4, 5, 6, 7, 11, 15],
        &[0, 1, 2, 3, 7, 11, 15],
        &[0, 4, 0, 1, 2, 3, 7, 11, 15],
        // No link, a router that is not there, a way back, another choice.
        &[0, 4, 6, 7, 11, 15],
        &[0, 4, 5, 6, 7, 11, 16],
        &[0, 4, 5, 4, 5, 6, 7, 11, 15],
        &[0, 4, 8, 9, 10, 11, 15],
        // Not delivered, not ended.
        &[0, 4, 5, 6, 7, 11],
        &[0, 4, 5, 6, 7, 11, 15, 14],
    ];
    for route in broken {
        assert!(rules.follow(&asking(pair, &[]), route).is_err(), "{route:?}");
    }
}

#[test]
fn a_tunnel_that_misses_its_endpoint_is_noticed() {
    // Ring 6: by 5 and 4 to the endpoint 3, and on to 2 and 1.
    let network = ring(6).prefix(&[(1, 0)]);
    let rules = Rules::of(&network);
    assert!(rules.follow(&asking((5, 3), &[]), &[0, 5, 4, 3, 2, 1]).is_ok());
    assert!(rules.follow(&asking((5, 3), &[]), &[0, 5, 4]).is_err());
    assert!(rules.follow(&asking((5, 3), &[]), &[0, 5, 4, 3, 3, 2, 1]).is_err());
    assert!(rules.follow(&asking((5, 2), &[]), &[0, 5, 4, 3]).is_err());
}

#[test]
fn a_first_hop_under_maintenance_is_noticed() {
    // Ring 4 with its prefix at 1: from 0 by 3 to the endpoint 2, and on to 1.
    let with_costs = |to_3: u16, from_2: u16| {
        let mut network = ring(4).prefix(&[(1, 0)]);
        network.links[3].back = to_3;
        network.links[1].back = from_2;
        network
    };
    let followed = |network: &Network| {
        Rules::of(network).follow(&asking((3, 2), &[]), &[0, 3, 2, 1]).map(|met| met.maintained)
    };
    assert_eq!(followed(&with_costs(65_534, 1)), Ok(0));
    let wrong = followed(&with_costs(65_535, 1)).expect_err("it starts over link 3");
    assert_eq!(wrong, "the first hop 3 is under maintenance");
    // A later hop may be at that cost, here from 2 to 1: the way round costs more.
    let mut network = with_costs(1, 65_535);
    network.links[3].forth = 65_535;
    assert_eq!(followed(&network), Ok(1));
}

#[test]
fn delivery_is_the_only_option() {
    // Router 3 is attached, at its distance and above it.
    for (own, near) in [(1, true), (2, false), (65_535, false)] {
        let network = ring(4).prefix(&[(1, 0), (2, 0), (3, own)]);
        let rules = Rules::of(&network);
        for choices in [&[][..], &[1], &[255]] {
            let met = rules.follow(&asking((3, 3), choices), &[0, 3]).expect("it delivers");
            assert_eq!((met.delivered_near, met.delivered_dear, met.choices), (near, !near, 0));
            assert!(rules.follow(&asking((3, 3), choices), &[0, 3, 2]).is_err());
        }
    }
}

#[test]
fn a_tunnel_that_ends_at_an_attached_router_is_noticed() {
    let network = attached_tunnel();
    let rules = Rules::of(&network);
    let met = rules.follow(&asking((2, 4), &[]), &[0, 2, 3, 4, 5]).expect("it passes 3");
    assert_eq!(met.passed, 1);
    assert!(rules.follow(&asking((2, 4), &[]), &[0, 2, 3]).is_err());
    let met = rules.follow(&asking((2, 3), &[]), &[0, 2, 3]).expect("it ends at 3");
    assert_eq!((met.passed, met.delivered_dear), (0, true));
}
