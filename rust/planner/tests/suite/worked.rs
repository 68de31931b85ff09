//! The networks of docs/SPECIFICATION.md, Networks worked by hand. All questions but one are about
//! link 0, end 0.

use crate::common::{ring, ring_4_with_prefix, with_prefix_at};
use planner::{
    Link, Network, Pair, Played, Refusal, Repair, Set, ASCENDING_RANKS, ROUTE_BYTES, WORK_CELLS,
};

fn link_repair(network: &Network) -> Result<Pair, Refusal> {
    planner::link_repair(&network.to_bytes(), &mut [0; WORK_CELLS], &ASCENDING_RANKS, 0, 0)
}

/// The repair of prefix 0 for link 0, end 0.
fn prefix_repair(network: &Network) -> Result<Repair, Refusal> {
    let (file, mut work) = (network.to_bytes(), [0; WORK_CELLS]);
    planner::prefix_repair(&file, &mut work, &ASCENDING_RANKS, 0, 0, 0)
}

/// The route to prefix 0 for link 0, end 0, with no choice bytes.
fn route(network: &Network) -> Vec<u8> {
    let (file, mut work, mut route) = (network.to_bytes(), [0; WORK_CELLS], [255; ROUTE_BYTES]);
    let played = planner::route(&file, &mut work, &ASCENDING_RANKS, 0, 0, 0, &[], &mut route);
    let Ok(Played::Written(count)) = played else { panic!("{played:?}") };
    assert!(route[count..].iter().all(|byte| *byte == 255));
    route[..count].to_vec()
}

/// The network with one link in place of link k.
fn with_link(network: &Network, k: usize, link: Link) -> Network {
    let mut changed = Network::new(network.routers() as u8).unwrap();
    for (number, old) in network.links().iter().enumerate() {
        changed.add_link(if number == k { link } else { *old }).unwrap();
    }
    changed
}

const NO_PAIR: Refusal = Refusal { number: 14, value: 0 };

#[test]
fn ring_4() {
    let file = ring(4).to_bytes();
    let mut work = [0; WORK_CELLS];
    let routers = |set: Set| set.routers().collect::<Vec<u8>>();
    let p = planner::p_space(&file, &mut work, 0, 0).unwrap();
    let extended_p = planner::extended_p_space(&file, &mut work, 0, 0).unwrap();
    let q = planner::q_space(&file, &mut work, 0, 0).unwrap();
    assert_eq!((routers(p), p.size()), (vec![0, 3], 2));
    assert_eq!((routers(extended_p), extended_p.size()), (vec![0, 2, 3], 3));
    assert_eq!((routers(q), q.size()), (vec![1, 2], 2));
    let pair = Pair { first: 3, endpoint: 2, class: 7, cost: 2 };
    assert_eq!(link_repair(&ring(4)), Ok(pair));
}

#[test]
fn ring_4_distances() {
    let mut work = [7; 18];
    assert_eq!(planner::distances(&ring(4).to_bytes(), &mut work), Ok(()));
    assert_eq!(work, [0, 1, 2, 1, 1, 0, 1, 2, 2, 1, 0, 1, 1, 2, 1, 0, 7, 7]);
}

#[test]
fn ring_4_with_its_prefix() {
    let network = ring_4_with_prefix();
    let pair = Pair { first: 3, endpoint: 3, class: 1, cost: 1 };
    assert_eq!(prefix_repair(&network), Ok(Repair::Pair(pair)));
    assert_eq!(route(&network), [0, 3, 2]);
    let file = network.to_bytes();
    let mut work = [0; WORK_CELLS];
    let ranks = &ASCENDING_RANKS;
    assert_eq!(planner::prefix_repair(&file, &mut work, ranks, 1, 1, 0), Ok(Repair::Untouched));
    let mut route = [255; ROUTE_BYTES];
    let played = planner::route(&file, &mut work, ranks, 1, 1, 0, &[], &mut route);
    assert_eq!((played, route), (Ok(Played::Untouched), [255; ROUTE_BYTES]));
}

#[test]
fn ring_5() {
    let pair = Pair { first: 4, endpoint: 2, class: 7, cost: 3 };
    assert_eq!(link_repair(&ring(5)), Ok(pair));
    assert_eq!(route(&with_prefix_at(ring(5), &[1])), [0, 4, 3, 2, 1]);
}

#[test]
fn ring_3() {
    let pair = Pair { first: 2, endpoint: 2, class: 5, cost: 1 };
    assert_eq!(link_repair(&ring(3)), Ok(pair));
    let dear_back = Link { a: 1, b: 2, out: 1, back: 2 };
    assert_eq!(link_repair(&with_link(&ring(3), 1, dear_back)), Err(NO_PAIR));
}

#[test]
fn no_pair_serves() {
    let dear = Link { a: 2, b: 3, out: 10, back: 10 };
    assert_eq!(link_repair(&with_link(&ring(4), 2, dear)), Err(NO_PAIR));
    let mut two_routers = Network::new(2).unwrap();
    two_routers.add_link(Link { a: 0, b: 1, out: 1, back: 1 }).unwrap();
    assert_eq!(link_repair(&two_routers), Err(NO_PAIR));
    // The distances are in the work area all the same.
    let mut work = [7; 5];
    let file = two_routers.to_bytes();
    assert_eq!(planner::link_repair(&file, &mut work, &ASCENDING_RANKS, 0, 0), Err(NO_PAIR));
    assert_eq!(work, [0, 1, 1, 0, 7]);
}

#[test]
fn one_router_alone() {
    let network = Network::new(1).unwrap();
    assert_eq!(planner::load(&network.to_bytes()), Ok(network.clone()));
    let no_link = Refusal { number: 12, value: 0 };
    assert_eq!(link_repair(&network), Err(no_link));
    assert_eq!(prefix_repair(&network), Err(no_link));
    let mut work = [0; WORK_CELLS];
    assert_eq!(planner::q_space(&network.to_bytes(), &mut work, 0, 0), Err(no_link));
}

#[test]
fn a_prefix_that_no_path_leads_to() {
    let mut network = Network::new(3).unwrap();
    network.add_link(Link { a: 0, b: 1, out: 1, back: 1 }).unwrap();
    let network = with_prefix_at(network, &[2]);
    assert_eq!(prefix_repair(&network), Ok(Repair::Unreachable));
    let file = network.to_bytes();
    let (mut work, mut route) = ([0; WORK_CELLS], [255; ROUTE_BYTES]);
    let played = planner::route(&file, &mut work, &ASCENDING_RANKS, 0, 0, 0, &[], &mut route);
    assert_eq!((played, route), (Ok(Played::Unreachable), [255; ROUTE_BYTES]));
    assert_eq!(work[..3], [0, 1, planner::UNREACHABLE]);
}

#[test]
fn choices_decide_between_equal_hops() {
    // Two routers, 2 and 3, lead from router 1 to router 4 at the same cost; link 0 joins 0 and 4.
    let mut network = Network::new(5).unwrap();
    for (a, b, cost) in [(0, 4, 3), (0, 1, 1), (1, 2, 1), (1, 3, 1), (2, 4, 1), (3, 4, 1)] {
        network.add_link(Link { a, b, out: cost, back: cost }).unwrap();
    }
    let file = with_prefix_at(network, &[4]).to_bytes();
    let played = |choices: &[u8]| {
        let (mut work, mut route) = ([0; WORK_CELLS], [255; ROUTE_BYTES]);
        let ranks = &ASCENDING_RANKS;
        let played = planner::route(&file, &mut work, ranks, 0, 0, 0, choices, &mut route);
        let Ok(Played::Written(count)) = played else { panic!("{played:?}") };
        route[..count].to_vec()
    };
    assert_eq!(played(&[]), [0, 1, 2, 4]);
    assert_eq!(played(&[0]), [0, 1, 2, 4]);
    assert_eq!(played(&[1]), [0, 1, 3, 4]);
    assert_eq!(played(&[255, 9]), [0, 1, 3, 4]);
    // Choices that are a part of the file, which starts with its kind, 1.
    assert_eq!(played(&file[..1]), [0, 1, 3, 4]);
    assert_eq!(played(&file[1..]), [0, 1, 2, 4]);
    assert_eq!(played(&file), [0, 1, 3, 4]);
}
