//! Attached routers deliver: a walk towards a prefix ends at the first attached
//! router on it, however dear that attachment is. Each way to get this wrong is
//! noticed on networks made by hand.

use crate::brute::{Brute, own_cost};
use crate::common::{
    ask_network, dearly_attached, link_ends, noticed_by, pair, prefix_repair, refused, route,
    wrongly,
};
use oracle::answer::{Answer, Buffers, Opened, Outcome, Question, ask};
use oracle::batch::enough;
use oracle::class::NOT_PROTECTING;
use oracle::corpus::valid_questions;
use oracle::fault::{Context, Fault};
use oracle::file::write;
use oracle::generate::{self, Family};
use oracle::network::{LinkEnd, Network};
use oracle::random::Random;
use oracle::ranks::{ASCENDING, Arrangement};
use oracle::repair::{Candidate, Pair, serving};
use oracle::walk::Walks;
use oracle::worked::*;
use oracle::workings::Workings;
use std::collections::BTreeSet;

/// As it was before attached routers delivered.
const BEFORE: Fault = Fault::AttachedPassed;

/// The answer for link 0, end 0 and a prefix, and the one of before.
fn now_and_before(network: &Network, prefix: u64) -> (Answer, Answer) {
    let question = Question::prefix_repair(0, 0, prefix);
    (prefix_repair(network, 0, 0, prefix), wrongly(BEFORE, network, &question))
}

/// The route that a planner with a fault writes for link 0, end 0 and prefix 0.
fn wrong_route(fault: Fault, network: &Network, ranks: &Arrangement) -> Vec<u8> {
    let question = Question::route(0, 0, 0, &[1, 1, 1, 1]).with_ranks(ranks);
    let outcome = ask(&Context::with(&[fault]), &write(network), &question, &enough());
    let Answer::Count(count) = outcome.answer else {
        panic!("no route but {:?}", outcome.answer);
    };
    outcome.left.route[..count].to_vec()
}

#[test]
fn ring_4_with_a_dear_attachment() {
    let network = attached_ring_4();
    // Router 3 delivers: it is its own endpoint. Before, a walk from it went on over
    // link 0, and router 2 was the endpoint.
    assert_eq!(now_and_before(&network, 0), (pair(3, 3, 1, 1), pair(3, 2, 7, 2)));
    assert_eq!(route(&network, 0, 0, 0, &[]), [0, 3]);
    assert_eq!(wrong_route(BEFORE, &network, &ASCENDING), [0, 3, 2, 1]);
    // As S router 3 is untouched on both sides.
    for (link, end) in [(3, 0), (2, 1)] {
        assert_eq!(prefix_repair(&network, link, end, 0), Answer::Untouched);
        let question = Question::prefix_repair(link, end, 0);
        assert!(matches!(wrongly(BEFORE, &network, &question), Answer::Pair(_)));
        let repaired = wrongly(Fault::AttachedSRepaired, &network, &question);
        assert!(matches!(repaired, Answer::Pair(_)));
    }
}

/// Router 3 avoids link 0 towards the prefix though the sum over the link, 1 + 1
/// + 0, is its distance, 2.
#[test]
fn sums_do_not_decide() {
    let network = attached_ring_4();
    let ctx = Context::sound();
    let workings = Workings::of(&ctx, network.clone());
    let link_end = network.link_end(&ctx, 0, 0).expect("link 0");
    let walks = workings.to_prefix(0);
    assert_eq!((0..4).map(|x| walks.remaining(x)).collect::<Vec<u32>>(), [1, 0, 1, 2]);
    assert!(walks.avoids(&ctx, 3, &link_end) && !walks.avoids(&ctx, 0, &link_end));
    let question = Question::prefix_repair(0, 0, 0);
    let by_sums = wrongly(Fault::PrefixAvoidedBySums, &network, &question);
    assert_eq!(by_sums, pair(3, 2, 7, 2));
}

#[test]
fn an_attached_first_hop_is_its_own_endpoint() {
    let network = attached_first_hop();
    assert_eq!(now_and_before(&network, 0), (pair(2, 2, 1, 1), refused(14, 0)));
    assert_eq!(route(&network, 0, 0, 0, &[]), [0, 2]);
    let question = Question::prefix_repair(0, 0, 0);
    assert_eq!(wrongly(Fault::DearestDeliversNot, &network, &question), refused(14, 0));
    assert_eq!(wrongly(Fault::DeliveredWhereTight, &network, &question), refused(14, 0));
    // A tunnel to 3 would go back over 0 and the link. Tunnels over E come first.
    let tunnels = question.with_ranks(&[4, 5, 2, 3, 6, 7, 0, 1]);
    assert_eq!(ask_network(&network, &tunnels).answer, pair(2, 2, 1, 1));
    assert_eq!(wrongly(Fault::TunnelJudgedToAttached, &network, &tunnels), pair(2, 3, 7, 4));
    // Prefix 1 is attached to S, at the highest cost.
    assert_eq!(now_and_before(&network, 1), (Answer::Untouched, refused(14, 0)));
}

#[test]
fn the_far_router_delivers_what_reaches_it_by_another_link() {
    let network = attached_far_end();
    // Delivered at E, or behind it: 4 more than class 3.
    let same = pair(3, 2, 7, 2);
    for (prefix, now, before) in [
        (0, vec![0, 3, 2, 1], vec![0, 3, 2, 1, 4]),
        (1, vec![0, 3, 2, 1], vec![0, 3, 2, 1]),
        (2, vec![0, 3, 2, 1, 4], vec![0, 3, 2, 1, 4]),
    ] {
        assert_eq!(now_and_before(&network, prefix), (same.clone(), same.clone()));
        assert_eq!(route(&network, 0, 0, prefix, &[]), now);
        let question = Question::route(0, 0, prefix, &[]);
        let played = ask(&Context::with(&[BEFORE]), &write(&network), &question, &enough());
        assert_eq!(played.left.route[..before.len()], before);
    }
}

#[test]
fn a_tunnel_passes_an_attached_router() {
    let network = attached_tunnel();
    assert_eq!(now_and_before(&network, 0), (pair(2, 4, 2, 12), pair(2, 4, 2, 12)));
    assert_eq!(route(&network, 0, 0, 0, &[]), [0, 2, 3, 4, 5]);
    assert_eq!(wrong_route(Fault::TunnelPlayedToAttached, &network, &ASCENDING), [0, 2, 3]);
}

#[test]
fn an_attached_s_is_untouched() {
    let network = attached_s();
    // At the cost of the way over E, above it, and below it.
    let repaired = pair(3, 2, 7, 2);
    assert_eq!(now_and_before(&network, 0), (Answer::Untouched, repaired.clone()));
    assert_eq!(now_and_before(&network, 1), (Answer::Untouched, repaired));
    assert_eq!(now_and_before(&network, 2), (Answer::Untouched, Answer::Untouched));
    let question = Question::prefix_repair(0, 0, 1);
    let wrong = wrongly(Fault::AttachedSRepaired, &network, &question);
    assert!(matches!(wrong, Answer::Pair(_)));
}

#[test]
fn the_distance_is_not_the_own_cost() {
    let network = attached_class();
    // When walks went on from 3 they came to E.
    assert_eq!(now_and_before(&network, 0), (pair(3, 3, 0, 1), pair(3, 3, 4, 1)));
    assert_eq!(route(&network, 0, 0, 0, &[]), [0, 3]);
    assert_eq!(wrong_route(BEFORE, &network, &ASCENDING), [0, 3, 2, 1]);
    assert_eq!(wrong_route(Fault::AttachedPlayedOn, &network, &ASCENDING), [0, 3, 2, 1]);
    let question = Question::prefix_repair(0, 0, 0);
    assert_eq!(wrongly(Fault::AttachedAtOwnCost, &network, &question), pair(3, 3, 1, 1));
}

#[test]
fn a_prefix_at_every_router_is_untouched() {
    let network = attached_everywhere();
    for (link, end) in (0..8).flat_map(|link| [(link, 0), (link, 1)]) {
        assert_eq!(prefix_repair(&network, link, end, 0), Answer::Untouched);
        // Of every two neighbours one is attached to the other prefix. An S that is
        // not has it one hop away on either side.
        let answer = prefix_repair(&network, link, end, 1);
        match answer {
            Answer::Pair(pair) => assert_eq!(pair.first_hop, pair.endpoint),
            other => assert_eq!(other, Answer::Untouched),
        }
    }
}

/// A walk crosses at its second or at its third hop.
#[test]
fn crossing_is_looked_for_to_the_end() {
    let network = line_of_4();
    let question = Question::prefix_repair(0, 0, 0);
    assert_eq!(ask_network(&network, &question).answer, refused(14, 0));
    assert_eq!(wrongly(Fault::CrossingOneHop, &network, &question), pair(2, 2, 5, 1));
    assert_eq!(wrongly(Fault::CrossingTwoHops, &network, &question), pair(2, 3, 7, 2));
}

/// All questions about each network made by hand: each wrong planner answers one
/// of them otherwise, and no other call than prefix repair and route shows it.
#[test]
fn every_wrong_planner_is_noticed_by_hand() {
    let networks = [attached(), vec![("line", line_of_4())]].concat();
    for fault in Fault::OF_ATTACHED {
        let by = noticed_by(fault, &networks, &about_prefix);
        assert!(!by.is_empty(), "{} is not noticed", fault.name());
    }
}

/// S is 0, E is 1, and the only other way from S is a dead end of two routers.
fn line_of_4() -> Network {
    Network::of_routers(4).link(0, 1, 1, 1).link(2, 0, 1, 1).link(3, 2, 1, 1).prefix(&[(1, 0)])
}

fn about_prefix(question: &Question) -> bool {
    matches!(question, Question::PrefixRepair { .. } | Question::Route { .. })
}

/// The walks of before, by which answers are compared, are those that the lists
/// of walks have with the meaning of before.
#[test]
fn the_walks_of_before_are_listed_too() {
    let ctx = Context::with(&[BEFORE]);
    for network in dearly_attached(4, 6, 101) {
        let brute = Brute::new(&network);
        let workings = Workings::of(&ctx, network.clone());
        for (link, end) in link_ends(&network) {
            let link_end = network.link_end(&ctx, link, end).expect("a link");
            let (s, e) = (link_end.s, link_end.e);
            for (prefix, number) in network.prefixes.iter().zip(0..) {
                for x in 0..brute.routers {
                    let listed = brute.walks_to_prefix_before(x, prefix);
                    let walks = workings.to_prefix(number);
                    assert_eq!(walks.avoids(&ctx, x, &link_end), Brute::avoid(&listed, s, e));
                    assert_eq!(walks.takes(x, link_end.s_to_e()), Brute::touch(&listed, s, e));
                }
            }
        }
    }
}

/// Walks only became shorter: each is the beginning of one of before, and where
/// one of before ended it ends or has ended.
#[test]
fn every_walk_is_the_beginning_of_one_of_before() {
    let mut shorter = 0;
    for network in dearly_attached(8, 6, 102) {
        let brute = Brute::new(&network);
        for prefix in &network.prefixes {
            for x in 0..brute.routers {
                let now = brute.walks_to_prefix(x, prefix);
                let before = brute.walks_to_prefix_before(x, prefix);
                for walk in &now {
                    assert!(before.iter().any(|longer| longer.starts_with(walk)));
                    let (end, passed) = walk.split_last().expect("a walk has its start");
                    assert!(own_cost(prefix, *end).is_some());
                    assert!(passed.iter().all(|router| own_cost(prefix, *router).is_none()));
                }
                shorter += usize::from(now != before);
            }
        }
    }
    assert!(shorter > 200, "only {shorter} starts have shorter walks");
}

/// How often answers differed from those of before, by kind.
#[derive(Debug, Default)]
struct Changed {
    untouched_for_pair: usize,
    untouched_for_14: usize,
    repaired: usize,
    other_pair: usize,
    other_class: usize,
    other_route: usize,
    same: usize,
}

/// What the new meaning changes: the answers to prefix repairs and routes alone. A
/// serving pair serves still, and is node-protecting if it was. S is untouched if it is
/// attached, 14 makes room for a pair, and a pair, while the ranks ascend, for one of
/// the same or a lower class. The work area is the same.
#[test]
fn what_attached_routers_change() {
    let (sound, base) = (Context::sound(), Context::with(&[BEFORE]));
    let mut changed = Changed::default();
    for network in dearly_attached(16, 8, 103) {
        let file = write(&network);
        let (now, before) = (Opened::new(&sound, &file), Opened::new(&base, &file));
        let lent = enough();
        for question in valid_questions(&network, &mut Random::new(104)) {
            look_at(&now, &before, &question, &lent, &mut changed);
        }
    }
    println!("{changed:?}");
    let Changed { untouched_for_pair, untouched_for_14, repaired, .. } = changed;
    assert!(untouched_for_pair > 500 && untouched_for_14 > 200 && repaired > 30);
    assert!(changed.other_pair > 100 && changed.other_class > 30 && changed.other_route > 200);
    assert!(changed.same > 5000);
}

fn look_at(
    now: &Opened,
    before: &Opened,
    question: &Question,
    lent: &Buffers,
    changed: &mut Changed,
) {
    let (old, new) = (before.ask(question, lent), now.ask(question, lent));
    assert_eq!(new.left.work, old.left.work);
    let Some((link_end, prefix)) = asked_about(now, question) else {
        assert_eq!(new, old, "{question:?}");
        return;
    };
    let attached = now.workings().to_prefix(prefix).delivers(link_end.s);
    let untouched = new.answer == Answer::Untouched;
    assert!(untouched || !attached);
    assert!(attached || !untouched || new == old, "{question:?}");
    let ranks = question.ranks().expect("a repair has ranks");
    changed.count(ranks, &new, &old);
    serving_before_is_serving_now(now, before, &link_end, prefix, ranks);
    assert_no_step_no_change(now, prefix, &new, &old);
}

impl Changed {
    /// Counts how an answer about a prefix differs from the one of before. No other
    /// change is possible.
    fn count(&mut self, ranks: &[u8], new: &Outcome, old: &Outcome) {
        match (&new.answer, &old.answer) {
            (Answer::Untouched, Answer::Pair(_) | Answer::Count(_)) => self.untouched_for_pair += 1,
            (Answer::Untouched, Answer::Refused { number: 14, .. }) => self.untouched_for_14 += 1,
            (Answer::Pair(_), Answer::Refused { number: 14, .. }) => self.repaired += 1,
            (Answer::Count(_), Answer::Refused { number: 14, .. }) => {}
            (Answer::Pair(new), Answer::Pair(old)) if new != old => {
                assert!(ranks != ASCENDING || new.class <= old.class);
                self.other_pair += 1;
                self.other_class += usize::from(new.class != old.class);
            }
            (Answer::Count(_), Answer::Count(_)) => {
                self.other_route += usize::from(new != old);
                self.same += usize::from(new == old);
            }
            _ => {
                assert_eq!(new, old);
                self.same += 1;
            }
        }
    }
}

/// The link, end and prefix of a question about a prefix.
fn asked_about(opened: &Opened, question: &Question) -> Option<(LinkEnd, u64)> {
    let workings = opened.workings();
    match question {
        Question::PrefixRepair { link, end, prefix, .. }
        | Question::Route { link, end, prefix, .. } => {
            Some((workings.network.link_end(&workings.ctx, *link, *end)?, *prefix))
        }
        _ => None,
    }
}

/// A pair that served serves, with the same class or, where its walks no longer come to
/// E, with 4 less; and a first hop that is attached serves as its own endpoint.
fn serving_before_is_serving_now(
    now: &Opened,
    before: &Opened,
    link_end: &LinkEnd,
    prefix: u64,
    ranks: &[u8],
) {
    let all = |opened: &Opened| -> Vec<Candidate> {
        let workings = opened.workings();
        serving(workings, link_end, workings.to_prefix(prefix), ranks)
    };
    let (now_serving, before_serving) = (all(now), all(before));
    for before in before_serving {
        let same = |now: &&Candidate| without_four(&now.pair) == without_four(&before.pair);
        let now = now_serving.iter().find(same).expect("it serves still");
        assert!(now.pair.class <= before.pair.class);
    }
    let walks: &Walks = now.workings().to_prefix(prefix);
    for n in oracle::space::first_hops(now.workings(), link_end) {
        let own = now_serving.iter().any(|c| (c.pair.first_hop, c.pair.endpoint) == (n, n));
        assert!(own || !walks.delivers(n));
    }
}

/// The pair with its class of before there was node protection.
fn without_four(pair: &Pair) -> Pair {
    Pair { class: pair.class % NOT_PROTECTING, ..*pair }
}

/// Where no tight step leaves an attached router every answer stays.
fn assert_no_step_no_change(now: &Opened, prefix: u64, new: &Outcome, old: &Outcome) {
    let walks = now.workings().to_prefix(prefix);
    let mut attached = now.workings().routers().filter(|x| walks.delivers(*x));
    if attached.all(|x| walks.tight(x).is_empty()) {
        assert_eq!(new, old);
    }
}

/// The families with dear attachments meet what they are made for.
#[test]
fn families_with_dear_attachments() {
    let mut met: BTreeSet<&str> = BTreeSet::new();
    for family in Family::ATTACHED {
        let mut random = Random::new(105);
        for _ in 0..200 {
            let network = generate::network(family, 9, &mut random);
            let brute = Brute::new(&network);
            for prefix in &network.prefixes {
                let costs = || prefix.attachments.iter().map(|attached| attached.cost);
                let dear = |attached: &oracle::network::Attachment| {
                    let x = usize::from(attached.router);
                    u64::from(attached.cost) > brute.to_prefix(x, prefix)
                };
                let dear_ones = prefix.attachments.iter().filter(|attached| dear(attached));
                let all = prefix.attachments.len() == usize::from(network.routers);
                met.extend(costs().any(|cost| cost == 65_535).then_some("cost 65,535"));
                met.extend(costs().any(|cost| cost == 0).then_some("cost 0"));
                met.extend((all && network.routers > 5).then_some("all routers"));
                met.extend((dear_ones.count() > 4).then_some("five dear"));
                met.extend(network.links.iter().filter_map(|link| {
                    let own = |router: u8| own_cost(prefix, usize::from(router)).is_some();
                    match (own(link.a), own(link.b)) {
                        (true, true) => Some("both ends"),
                        (true, false) | (false, true) => Some("one end"),
                        _ => None,
                    }
                }));
            }
        }
    }
    let all = ["all routers", "both ends", "cost 0", "cost 65,535", "five dear", "one end"];
    assert_eq!(met.into_iter().collect::<Vec<_>>(), all);
}
