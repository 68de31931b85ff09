//! Walks, spaces, repairs and demand 3 against lists of all walks, on tiny
//! networks.

use crate::brute::{Brute, FAR, Walk};
use crate::common::{ask_network, link_repair, prefix_repair, random_networks, spaces};
use crate::pairs::{Serving, Target, all_serving, far_routers, first_pair};
use oracle::answer::{Answer, Question};
use oracle::fault::Context;
use oracle::network::Hop;
use oracle::random::Random;
use oracle::ranks::{ASCENDING, Arrangement, DESCENDING, deciding_tables, random_table};
use oracle::walk::Walks;
use oracle::workings::Workings;
use std::collections::BTreeSet;

fn routers_of(start: usize, hops: &[Hop]) -> Walk {
    [start].into_iter().chain(hops.iter().map(|hop| hop.to)).collect()
}

/// The oracle's list of walks from x, if every one arrives in fewer than N
/// hops, in the order of their routers.
fn listed(workings: &Workings, walks: &Walks, x: usize) -> Vec<Walk> {
    if !walks.reachable_from(x) {
        return Vec::new();
    }
    let listed = walks.enumerate(x, workings.hops.routers()).expect("every walk arrives");
    let mut listed: Vec<Walk> = listed.iter().map(|hops| routers_of(x, hops)).collect();
    listed.sort();
    listed
}

#[test]
fn all_walks_are_found_and_arrive() {
    for network in random_networks(12, 6, 21) {
        let brute = Brute::new(&network);
        let workings = Workings::of(&Context::sound(), network.clone());
        for x in 0..brute.routers {
            for t in 0..brute.routers {
                let mut expected = brute.walks_to_router(x, t);
                expected.sort();
                assert_eq!(listed(&workings, workings.to_router(t), x), expected);
            }
            for (number, prefix) in network.prefixes.iter().enumerate() {
                let mut expected = brute.walks_to_prefix(x, prefix);
                expected.sort();
                assert_eq!(listed(&workings, workings.to_prefix(number as u64), x), expected);
            }
        }
    }
}

#[test]
fn avoiding_is_what_the_list_of_walks_says() {
    let ctx = Context::sound();
    for network in random_networks(12, 6, 22) {
        let brute = Brute::new(&network);
        let workings = Workings::of(&ctx, network.clone());
        for (link, end, s, e) in far_routers(&network) {
            let link_end = network.link_end(&ctx, link, end).expect("a link");
            assert_eq!((link_end.s, link_end.e), (s, e));
            for x in 0..brute.routers {
                for t in 0..brute.routers {
                    let expected = Brute::avoid(&brute.walks_to_router(x, t), s, e);
                    assert_eq!(workings.to_router(t).avoids(&ctx, x, &link_end), expected);
                }
                for (number, prefix) in network.prefixes.iter().enumerate() {
                    let walks = brute.walks_to_prefix(x, prefix);
                    let expected = Brute::avoid(&walks, s, e);
                    let to_prefix = workings.to_prefix(number as u64);
                    assert_eq!(to_prefix.avoids(&ctx, x, &link_end), expected);
                    let touched = Brute::touch(&walks, s, e);
                    assert_eq!(to_prefix.takes(x, link_end.s_to_e()), touched);
                }
            }
        }
    }
}

#[test]
fn spaces_are_what_the_lists_of_walks_say() {
    for network in random_networks(12, 6, 23) {
        let brute = Brute::new(&network);
        for (link, end, s, e) in far_routers(&network) {
            let avoids = |x, t| Brute::avoid(&brute.walks_to_router(x, t), s, e);
            let set = |member: &dyn Fn(usize) -> bool| {
                let weights = (0..brute.routers).filter(|r| member(*r)).map(|r| 1u64 << r);
                Answer::Set(weights.sum())
            };
            let p = set(&|r| avoids(s, r));
            let extended_p = set(&|r| brute.first_hops(s, e).iter().any(|n| avoids(*n, r)));
            let q = set(&|r| avoids(r, e));
            assert_eq!(spaces(&network, link, end), [p, extended_p, q]);
        }
    }
}

/// The ranks ascending, some at random, and those that decide between the classes of
/// these pairs.
fn some_tables(serving: &[Serving], random: &mut Random) -> Vec<Arrangement> {
    let classes: BTreeSet<u32> = serving.iter().map(|(class, ..)| *class).collect();
    let mut tables = vec![ASCENDING, DESCENDING];
    tables.extend((0..4).map(|_| random_table(random)));
    tables.extend(deciding_tables(&classes));
    tables
}

#[test]
fn repairs_are_the_first_pairs_by_many_arrangements_of_ranks() {
    let mut random = Random::new(26);
    for network in random_networks(14, 6, 24) {
        let brute = Brute::new(&network);
        for (link, end, s, e) in far_routers(&network) {
            let serving = all_serving(&brute, s, e, &Target::router(&brute, e));
            for ranks in some_tables(&serving, &mut random) {
                let question = Question::link_repair(link, end).with_ranks(&ranks);
                let expected = first_pair(serving.clone(), &ranks);
                assert_eq!(ask_network(&network, &question).answer, expected);
            }
            for (prefix, number) in network.prefixes.iter().zip(0..) {
                let unreachable = brute.to_prefix(s, prefix) == FAR;
                let touched = Brute::touch(&brute.walks_to_prefix(s, prefix), s, e);
                let serving = all_serving(&brute, s, e, &Target::prefix(&brute, prefix));
                for ranks in some_tables(&serving, &mut random) {
                    let question = Question::prefix_repair(link, end, number).with_ranks(&ranks);
                    let expected = match (unreachable, touched) {
                        (true, _) => Answer::Unreachable,
                        (_, false) => Answer::Untouched,
                        _ => first_pair(serving.clone(), &ranks),
                    };
                    assert_eq!(ask_network(&network, &question).answer, expected);
                }
            }
        }
    }
}

/// Demand 3's last part: a link's own repair serves every prefix whose traffic
/// from that end may cross the link.
#[test]
fn a_links_own_repair_serves_every_prefix_that_may_cross_it() {
    let mut served = 0;
    for network in random_networks(20, 6, 25) {
        let brute = Brute::new(&network);
        for (link, end, s, e) in far_routers(&network) {
            let Answer::Pair(pair) = link_repair(&network, link, end) else {
                continue;
            };
            for (prefix, number) in network.prefixes.iter().zip(0..) {
                if Brute::touch(&brute.walks_to_prefix(s, prefix), s, e) {
                    let second_leg = brute.walks_to_prefix(pair.endpoint, prefix);
                    assert!(Brute::avoid(&second_leg, s, e));
                    let own = prefix_repair(&network, link, end, number);
                    assert!(matches!(own, Answer::Pair(_)), "{own:?}");
                    served += 1;
                }
            }
        }
    }
    assert!(served > 100, "only {served} prefixes were served");
}
