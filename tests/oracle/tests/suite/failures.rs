//! Several failures together: routers send a packet on by usual steps and by neighbour
//! repairs that are downstream, in any mixture, and it visits no router twice. With each
//! mistake that lets them send by something else some packet does, on networks made by hand.

use crate::brute::Brute;
use crate::common::{dearly_attached, random_networks};
use crate::pairs::{Target, all_serving, far_routers};
use oracle::failures::{DOWNSTREAM, End, Sending, Sends, Trail, Way, neighbour_repairs};
use oracle::fault::{Context, Fault};
use oracle::network::Network;
use oracle::random::Random;
use oracle::worked::*;
use oracle::workings::Workings;
use std::collections::BTreeSet;

/// The sends for prefix 0, with some faults.
fn sends(network: &Network, faults: &[Fault]) -> Sends {
    Sends::of(&Workings::of(&Context::with(faults), network.clone()), 0)
}

/// Whether each link of a network has failed.
fn failed(network: &Network, links: &[usize]) -> Vec<bool> {
    (0..network.links.len()).map(|link| links.contains(&link)).collect()
}

/// The trail of a packet for prefix 0 where the failed links leave one way to go.
fn trail(network: &Network, faults: &[Fault], start: usize, links: &[usize]) -> Trail {
    sends(network, faults).trail(start, &failed(network, links), &mut Random::new(1))
}

/// Where a packet goes, and how it ends.
fn went(network: &Network, faults: &[Fault], start: usize, links: &[usize]) -> (Vec<usize>, End) {
    let trail = trail(network, faults, start, links);
    (trail.routers(), trail.end)
}

/// With these links failed a packet from a router visits it twice where a fault is turned
/// on, going there and back, and is dropped at the first router otherwise.
fn there_and_back(fault: Fault, network: &Network, links: &[usize], start: usize, other: usize) {
    let back = (vec![start, other, start], End::Twice);
    assert_eq!(went(network, &[fault], start, links), back, "{}", fault.name());
    assert_eq!(went(network, &[], start, links), (vec![start], End::Dropped), "{}", fault.name());
    assert_eq!(sends(network, &[]).endless(), []);
    let endless = sends(network, &[fault]).endless();
    assert!(endless.contains(&start) && endless.contains(&other), "{endless:?}");
}

/// Classes 1 and 5: the other router is as far from the prefix. A class that counts as
/// downstream what is equally far has the same effect.
#[test]
fn a_neighbour_that_is_not_downstream_may_send_back() {
    for fault in [Fault::NotDownstreamSent, Fault::ClassNotStrict] {
        there_and_back(fault, &failures_equally_near(), &[0, 2], 0, 3);
        there_and_back(fault, &failures_over_far(), &[0, 1], 0, 2);
    }
    let repairs = |network: &Network, links: &[usize]| {
        trail(network, &[Fault::NotDownstreamSent], 0, links).repairs()
    };
    assert_eq!(repairs(&failures_equally_near(), &[0, 2]), [(1, 1), (2, 1)]);
    assert_eq!(repairs(&failures_over_far(), &[0, 1]), [(1, 5), (1, 5)]);
}

/// Classes 2 and 6: the endpoint is downstream, but not the first hop.
#[test]
fn a_tunnel_s_first_hop_may_send_back() {
    let fault = Fault::TunnelSentPlain;
    there_and_back(fault, &failures_tunnel(), &[0, 4], 0, 5);
    there_and_back(fault, &node_second_leg(), &[0, 3, 4], 0, 1);
    let from_0 = |network: &Network, n| {
        let sends = sends(network, &[fault]);
        let to_n = sends.at(0).iter().filter(|sending| sending.hop.to == n);
        to_n.map(|sending| sending.way).collect::<BTreeSet<Way>>()
    };
    let repair = |far, class| Way::Repair { far, class };
    assert_eq!(from_0(&failures_tunnel(), 5), BTreeSet::from([repair(1, 6)]));
    assert_eq!(from_0(&node_second_leg(), 1), BTreeSet::from([repair(4, 2), repair(4, 6)]));
}

#[test]
fn a_step_towards_another_prefix_may_send_back() {
    there_and_back(Fault::OtherPrefixStepSent, &failures_two_prefixes(), &[0, 2], 1, 2);
}

/// A link's own repair of class 4 is downstream towards E, and E may be the wrong way.
#[test]
fn a_link_s_own_repair_may_send_back() {
    there_and_back(Fault::LinkRepairSent, &failures_link_repair(), &[5], 0, 2);
}

/// "All by one file's costs": router 1 has not heard of the maintenance. By one file, either
/// of the two, no packet visits a router twice.
#[test]
fn two_files_may_send_back() {
    let network = failures_maintenance();
    let two_files = [Fault::SendsByTwoFiles];
    assert_eq!(went(&network, &two_files, 1, &[2]), (vec![1, 2, 1], End::Twice));
    assert_eq!(went(&network, &two_files, 2, &[2]), (vec![2, 1, 2], End::Twice));
    // No repair starts over link 0 from router 2, and the usual step is over 1.
    assert_eq!(went(&network, &[], 2, &[2]), (vec![2, 1], End::Dropped));
    assert_eq!(went(&network, &[], 2, &[]), (vec![2, 1, 0], End::Delivered));
    let mut before = network.clone();
    (before.links[0].forth, before.links[0].back) = (1, 1);
    assert_eq!(went(&before, &[], 1, &[2]), (vec![1, 2, 0], End::Delivered));
    assert_eq!(went(&before, &[], 1, &[0, 2]), (vec![1, 2], End::Dropped));
    assert_eq!((sends(&network, &[]).endless(), sends(&before, &[]).endless()), (vec![], vec![]));
    assert_eq!(sends(&network, &two_files).endless(), [1, 2]);
}

/// Each mistake of the list is shown above; on random networks too the sends then lead
/// round, and without one they never do.
#[test]
fn mistakes_on_random_networks() {
    let shown = |fault: Option<Fault>| {
        let ctx = Context::with(fault.as_slice());
        let rounds = |network: &Network| {
            let workings = Workings::of(&ctx, network.clone());
            let prefixes = 0..network.prefixes.len() as u64;
            prefixes.filter(|p| !Sends::of(&workings, *p).endless().is_empty()).count()
        };
        random_networks(40, 8, 121).iter().map(rounds).sum::<usize>()
    };
    assert_eq!(shown(None), 0);
    for fault in Fault::OF_FAILURES.into_iter().chain([Fault::ClassNotStrict]) {
        let count = shown(Some(fault));
        println!("{}: sends lead round for {count} prefixes", fault.name());
        assert!(count >= 5, "{}: for {count} prefixes only", fault.name());
    }
}

/// The first repair is of class 4, over the far router, or of class 0; the second of class
/// 0. With link 6 failed in place of link 3 the packet comes to the far router.
#[test]
fn two_repairs_by_two_routers() {
    let network = failures_two_repairs();
    let packet = trail(&network, &[], 0, &[0, 2, 3]);
    assert_eq!((packet.routers(), packet.end), (vec![0, 2, 3, 4], End::Delivered));
    assert!(packet.repairs().len() >= 2 && packet.passed_by > 0);
    let sends = sends(&network, &[]);
    let from_0: BTreeSet<(usize, Way)> =
        sends.at(0).iter().map(|sending| (sending.hop.to, sending.way)).collect();
    let repair = |far, class| Way::Repair { far, class };
    let expected = [
        (1, Way::Step),
        (1, repair(2, 0)),
        (1, repair(3, 0)),
        (2, repair(1, 4)),
        (2, repair(3, 0)),
        (3, repair(1, 0)),
        (3, repair(2, 0)),
    ];
    assert_eq!(from_0, BTreeSet::from(expected));
    let second = |sending: &Sending| (sending.hop.to, sending.way) == (3, repair(1, 0));
    assert!(sends.at(2).iter().any(second));
    assert_eq!(went(&network, &[], 0, &[0, 2, 6]), (vec![0, 2, 1, 4], End::Delivered));
    assert_eq!(went(&network, &[], 0, &[0, 1, 2]), (vec![0], End::Dropped));
    assert_eq!(went(&network, &[], 4, &[0, 1, 2, 3, 4, 5, 6]), (vec![4], End::Delivered));
}

/// The sends by the list of all walks: the second router of each walk, and the pairs (n, n)
/// that serve, of classes 0 and 4.
fn by_the_lists(network: &Network, prefix: usize) -> BTreeSet<(usize, usize, Way)> {
    let brute = Brute::new(network);
    let attached = &network.prefixes[prefix];
    let target = Target::prefix(&brute, attached);
    let reachable = |x: &usize| (target.distance)(*x) != crate::brute::FAR;
    let mut sends = BTreeSet::new();
    for x in (0..brute.routers).filter(reachable) {
        let walks = (target.walks)(x).into_iter().filter(|walk| walk.len() > 1);
        sends.extend(walks.map(|walk| (x, walk[1], Way::Step)));
    }
    for (_, _, s, far) in far_routers(network) {
        let delivers = attached.attachments.iter().any(|own| usize::from(own.router) == s);
        let serving = all_serving(&brute, s, far, &target).into_iter();
        let neighbours = serving.filter(|(class, _, y, _, n)| {
            y == n && DOWNSTREAM.contains(class) && !delivers && reachable(n)
        });
        let repair = |class| Way::Repair { far, class };
        sends.extend(neighbours.map(|(class, _, _, _, n)| (s, n, repair(class))));
    }
    sends
}

#[test]
fn the_sends_are_what_the_lists_say() {
    let mut counts = [0, 0, 0];
    for network in dearly_attached(24, 6, 122) {
        let workings = Workings::of(&Context::sound(), network.clone());
        for prefix in 0..network.prefixes.len() {
            let sends = Sends::of(&workings, prefix as u64);
            let told = |sending: &Sending| (sending.hop.from, sending.hop.to, sending.way);
            let found: BTreeSet<(usize, usize, Way)> = sends.all().map(told).collect();
            assert_eq!(found, by_the_lists(&network, prefix), "{network:?}, prefix {prefix}");
            for (_, _, way) in found {
                match way {
                    Way::Step => counts[0] += 1,
                    Way::Repair { class: 0, .. } => counts[1] += 1,
                    Way::Repair { .. } => counts[2] += 1,
                }
            }
        }
    }
    println!("{} steps, {} repairs of class 0, {} of class 4", counts[0], counts[1], counts[2]);
    assert!(counts.iter().all(|count| *count > 200), "{counts:?}");
}

/// Packets over random failed links: every kind of end but the one at a router visited
/// before, and fewer hops than routers.
#[test]
fn packets_over_random_failed_links() {
    let random = &mut Random::new(123);
    let (mut delivered, mut dropped) = (0, 0);
    for network in dearly_attached(6, 9, 124) {
        let workings = Workings::of(&Context::sound(), network.clone());
        for prefix in 0..network.prefixes.len() as u64 {
            let sends = Sends::of(&workings, prefix);
            for _ in 0..20 {
                let out_of = random.between(1, 8);
                let failed: Vec<bool> =
                    network.links.iter().map(|_| random.one_in(out_of)).collect();
                let start = random.below(usize::from(network.routers));
                let trail = sends.trail(start, &failed, random);
                let routers: BTreeSet<usize> = trail.routers().into_iter().collect();
                assert_eq!(routers.len(), trail.sends.len() + 1, "{network:?}: {trail:?}");
                assert!(trail.sends.len() < usize::from(network.routers));
                assert!(trail.sends.iter().all(|sending| !failed[sending.hop.link()]));
                match trail.end {
                    End::Delivered => delivered += 1,
                    End::Dropped => dropped += 1,
                    End::Twice => panic!("{network:?}: {trail:?}"),
                }
            }
        }
    }
    println!("{delivered} packets delivered, {dropped} dropped");
    assert!(delivered > 1000 && dropped > 1000);
}

/// More than is asked: attached routers too might send by the pairs that serve, in place of
/// delivery, and no packet would visit a router twice.
#[test]
fn attached_routers_that_send_on_lead_no_packet_round() {
    let mut added = 0;
    for network in dearly_attached(6, 8, 125) {
        let workings = Workings::of(&Context::sound(), network.clone());
        for prefix in 0..network.prefixes.len() as u64 {
            let sends = Sends::of(&workings, prefix);
            let repairs = neighbour_repairs(&workings, prefix);
            let wider = sends.with_attached(&repairs);
            added += wider.all().count() - sends.all().count();
            assert_eq!(wider.endless(), [], "{network:?}, prefix {prefix}");
        }
    }
    assert!(added > 300, "{added} sends of attached routers only");
}
