//! Node protection: a pair is node-protecting when no walk of either leg visits the far
//! router E. Its class is then 0 to 3, and otherwise 4 more. Each way to get this wrong
//! is noticed on networks made by hand.

use crate::common::{
    ask_network, link_ends, noticed_by, pair, prefix_repair, refused, route, set, wrongly,
};
use oracle::answer::{Answer, Question, ask};
use oracle::batch::enough;
use oracle::class::NOT_PROTECTING;
use oracle::fault::{Context, Fault};
use oracle::file::write;
use oracle::network::Network;
use oracle::ranks::DESCENDING;
use oracle::repair::serving_classes;
use oracle::space::Space;
use oracle::worked::*;
use oracle::workings::Workings;
use std::collections::BTreeSet;

/// As it was before there was node protection.
const BEFORE: Fault = Fault::NodeNotLookedAt;

/// The question about link 0, end 0 and a prefix, with the ranks ascending.
fn asked(prefix: u64) -> Question {
    Question::prefix_repair(0, 0, prefix)
}

#[test]
fn a_farther_neighbour_that_does_without_e() {
    let network = node_farther_neighbour();
    assert_eq!(prefix_repair(&network, 0, 0, 0), pair(3, 3, 1, 2));
    assert_eq!(route(&network, 0, 0, 0, &[]), [0, 3, 4]);
    assert_eq!(wrongly(BEFORE, &network, &asked(0)), pair(2, 2, 0, 2));
    // Members may prefer the nearer one all the same.
    let nearer = asked(0).with_ranks(&[0, 2, 3, 4, 1, 5, 6, 7]);
    assert_eq!(ask_network(&network, &nearer).answer, pair(2, 2, 4, 2));
    assert_eq!(wrongly(Fault::NodeBeforeRank, &network, &nearer), pair(3, 3, 1, 2));
    assert_eq!(wrongly(Fault::RankOfClassModulo4, &network, &asked(0)), pair(2, 2, 4, 2));
    assert_eq!(wrongly(Fault::FourForProtecting, &network, &asked(0)), pair(2, 2, 0, 2));
    assert_eq!(wrongly(Fault::VisitTowardsE, &network, &asked(0)), pair(2, 2, 4, 2));
}

#[test]
fn delivery_at_e_is_a_visit() {
    let network = node_ring_4();
    let [at_e, at_2_too, dear_2, dear_3] = [0, 1, 2, 3];
    assert_eq!(prefix_repair(&network, 0, 0, at_e), pair(3, 2, 7, 2));
    for fault in [Fault::DeliveryNotVisited, Fault::EndNotVisited, Fault::OnlyFirstLegVisits] {
        assert_eq!(wrongly(fault, &network, &asked(at_e)), pair(3, 2, 3, 2));
    }
    assert_eq!(prefix_repair(&network, 0, 0, at_2_too), pair(3, 3, 1, 1));
    // A walk ends at the first attached router, whatever the sums of distances say.
    assert_eq!(prefix_repair(&network, 0, 0, dear_2), pair(3, 2, 3, 2));
    assert_eq!(wrongly(Fault::VisitBySums, &network, &asked(dear_2)), pair(3, 2, 7, 2));
    assert_eq!(prefix_repair(&network, 0, 0, dear_3), pair(3, 3, 1, 1));
    assert_eq!(wrongly(Fault::VisitBySums, &network, &asked(dear_3)), pair(3, 3, 5, 1));
}

#[test]
fn one_of_two_equal_ways_of_a_tunnel() {
    let network = node_tunnel();
    assert_eq!(prefix_repair(&network, 0, 0, 0), pair(1, 2, 3, 3));
    assert_eq!(route(&network, 0, 0, 0, &[]), [0, 1, 2, 3, 5]);
    // Endpoint 3 is nearer, and on its own does without E.
    for fault in [Fault::OnlySecondLegVisits, Fault::VisitOnEveryWalk, Fault::OnlyEndVisited] {
        let answer = wrongly(fault, &network, &asked(0));
        assert_ne!(answer, pair(1, 2, 3, 3), "{}", fault.name());
    }
    assert_eq!(wrongly(Fault::OnlySecondLegVisits, &network, &asked(0)), pair(1, 3, 2, 5));
    let tunnel = asked(0).with_ranks(&[7, 6, 1, 3, 4, 5, 0, 2]);
    assert_eq!(ask_network(&network, &tunnel).answer, pair(1, 3, 6, 5));
    assert_eq!(wrongly(Fault::VisitOneShortestPath, &network, &tunnel), pair(1, 3, 2, 5));
}

#[test]
fn one_of_two_equal_ways_of_the_second_leg() {
    let network = node_second_leg();
    assert_eq!(prefix_repair(&network, 0, 0, 0), pair(1, 2, 2, 2));
    let faults =
        [BEFORE, Fault::OnlyFirstLegVisits, Fault::VisitOneShortestPath, Fault::VisitOnEveryWalk];
    for fault in faults {
        assert_eq!(wrongly(fault, &network, &asked(0)), pair(1, 1, 1, 1), "{}", fault.name());
    }
    assert_eq!(prefix_repair(&network, 0, 0, 1), pair(1, 1, 5, 1));
    assert_eq!(wrongly(Fault::OnlyNodeProtectingServe, &network, &asked(1)), refused(14, 0));
}

#[test]
fn attached_routers_deliver_before_e() {
    let network = node_attached();
    for prefix in [0, 1] {
        assert_eq!(prefix_repair(&network, 0, 0, prefix), pair(2, 2, 0, 5));
        assert_eq!(route(&network, 0, 0, prefix, &[]), [0, 2, 3]);
        assert_eq!(wrongly(Fault::VisitBySums, &network, &asked(prefix)), pair(2, 2, 4, 5));
    }
    // A tunnel passes the attached router, and then E. While the ranks ascend no such
    // tunnel is the repair: its first hop delivers at that router, and comes first.
    let tunnel = asked(1).with_ranks(&[7, 6, 5, 1, 4, 3, 2, 0]);
    assert_eq!(ask_network(&network, &tunnel).answer, pair(2, 4, 7, 12));
    assert_eq!(wrongly(Fault::VisitTunnelToAttached, &network, &tunnel), pair(2, 4, 3, 12));
}

#[test]
fn a_visit_is_looked_for_to_the_end() {
    let network = node_ring_6(5);
    assert_eq!(prefix_repair(&network, 0, 0, 0), pair(5, 5, 4, 1));
    assert_eq!(wrongly(Fault::VisitOneHop, &network, &asked(0)), pair(5, 5, 0, 1));
    assert_eq!(wrongly(Fault::VisitTwoHops, &network, &asked(0)), pair(5, 5, 0, 1));
    // Router 4 delivers before E.
    assert_eq!(prefix_repair(&network, 0, 0, 1), pair(5, 5, 0, 1));
    assert_eq!(route(&network, 0, 0, 1, &[]), [0, 5, 4]);
    let network = node_ring_6(3);
    assert_eq!(prefix_repair(&network, 0, 0, 0), pair(5, 3, 6, 3));
    assert_eq!(prefix_repair(&network, 0, 0, 1), pair(5, 4, 3, 2));
    assert_eq!(route(&network, 0, 0, 1, &[]), [0, 5, 4]);
}

/// Two classes have a pair, and a prefix's attachments decide which two.
#[test]
fn two_classes() {
    let two = |network: &Network, prefix, first: Answer, other: Answer| {
        let served = serving_classes(
            &Workings::of(&Context::sound(), network.clone()),
            &Question::prefix_repair(0, 0, prefix),
        );
        assert_eq!(served.len(), 2, "{served:?}");
        assert_eq!(prefix_repair(network, 0, 0, prefix), first);
        let last = asked(prefix).with_ranks(&DESCENDING);
        assert_eq!(ask_network(network, &last).answer, other);
    };
    let network = node_neighbours(1);
    two(&network, 0, pair(2, 2, 0, 1), pair(3, 3, 5, 1));
    two(&network, 1, pair(3, 3, 1, 1), pair(2, 2, 4, 1));
    two(&network, 2, pair(2, 2, 0, 1), pair(3, 3, 1, 1));
    two(&network, 3, pair(3, 3, 0, 1), pair(2, 2, 4, 1));
    let network = node_neighbours(3);
    two(&network, 0, pair(2, 2, 1, 1), pair(3, 3, 5, 1));
    two(&network, 1, pair(3, 3, 1, 1), pair(2, 2, 5, 1));
    two(&network, 3, pair(3, 3, 0, 1), pair(2, 2, 5, 1));
    assert_eq!(prefix_repair(&network, 0, 0, 2), pair(2, 2, 1, 1));
    two(&node_tunnel_or_neighbour(), 0, pair(2, 3, 3, 7), pair(2, 2, 4, 2));
    two(&node_ring_6(3), 1, pair(5, 4, 3, 2), pair(5, 3, 6, 3));
}

/// What drops is the link: traffic that visits E over another one is not touched, and
/// spaces and routes are as they were.
#[test]
fn only_the_class_looks_at_e() {
    // From 0 the packet goes to E over 2.
    let network = node_not_touched();
    assert_eq!(prefix_repair(&network, 0, 0, 0), Answer::Untouched);
    assert_eq!(wrongly(Fault::TouchedByVisit, &network, &asked(0)), pair(2, 2, 4, 1));
    // From 1 routers 3 and 4 are reached by way of E, which is 4.
    let network = node_second_leg();
    let space = Question::Space { space: Space::ExtendedP, link: 0, end: 0 };
    assert_eq!(ask_network(&network, &space).answer, set(&[0, 1, 2, 3, 4]));
    assert_eq!(wrongly(Fault::SpacesMissE, &network, &space), set(&[0, 1, 2]));
    // By a pair that may visit E the choice decides whether a packet does.
    let neighbours_first = [0, 1, 4, 5, 2, 3, 6, 7];
    let played = Question::route(0, 0, 0, &[1]).with_ranks(&neighbours_first);
    let outcome = ask_network(&network, &played);
    assert_eq!(outcome.left.route[..4], [0, 1, 4, 3]);
    let ctx = Context::with(&[Fault::RouteMissesE]);
    let outcome = ask(&ctx, &write(&network), &played, &enough());
    assert_eq!(outcome.left.route[..4], [0, 1, 2, 3]);
}

#[test]
fn a_link_repair_has_a_class_from_4_to_7() {
    let network = four_classes();
    let question = Question::link_repair(0, 0);
    assert_eq!(ask_network(&network, &question).answer, pair(2, 2, 4, 3));
    for fault in [BEFORE, Fault::LinkClassesBelowFour, Fault::ClassToldModulo4] {
        assert_eq!(wrongly(fault, &network, &question), pair(2, 2, 0, 3));
    }
    // A planner may be right about prefixes and wrong about links.
    let prefixes = node_farther_neighbour();
    assert_eq!(wrongly(Fault::LinkClassesBelowFour, &prefixes, &asked(0)), pair(3, 3, 1, 2));
    for (name, network) in all() {
        for (link, end) in link_ends(&network) {
            let answer = ask_network(&network, &Question::link_repair(link, end)).answer;
            let below = matches!(answer, Answer::Pair(pair) if pair.class < NOT_PROTECTING);
            assert!(!below, "{name}: link {link}, end {end}: {answer:?}");
        }
    }
}

/// While the ranks ascend each of the eight classes is the answer for some prefix of
/// these networks.
#[test]
fn all_eight_classes() {
    let networks = || nodes().into_iter().map(|(_, network)| network);
    let answers = networks().flat_map(|network| {
        let prefixes = 0..network.prefixes.len() as u64;
        prefixes.map(move |prefix| prefix_repair(&network, 0, 0, prefix)).collect::<Vec<_>>()
    });
    let class = |answer: Answer| match answer {
        Answer::Pair(pair) => Some(pair.class),
        _ => None,
    };
    let classes: BTreeSet<u32> = answers.filter_map(class).collect();
    assert_eq!(classes, (0..8).collect());
}

/// All questions about each network made by hand: each wrong planner but one answers
/// one of them otherwise, and only the calls that it may get wrong show it.
#[test]
fn every_wrong_planner_is_noticed_by_hand() {
    for fault in Fault::OF_NODES {
        let by = noticed_by(fault, &nodes(), &|question| may_show(fault, question));
        assert_eq!(by.is_empty(), fault.is_in_no_call(), "{}", fault.name());
    }
}

/// The questions whose answers a wrong planner may change: repairs, routes and the plan,
/// unless it gets other calls wrong.
fn may_show(fault: Fault, question: &Question) -> bool {
    match fault {
        Fault::SpacesMissE => matches!(question, Question::Space { .. }),
        Fault::RouteMissesE => matches!(question, Question::Route { .. }),
        _ => question.ranks().is_some() || *question == Question::Plan,
    }
}

/// A leg starts at n or at y, and neither is E: that the start counts shows in the
/// visits alone.
#[test]
fn the_start_and_the_end_of_a_walk_are_visited() {
    let visits =
        |ctx: &Context, x, t, router| Workings::of(ctx, ring(6)).to_router(t).visits(x, router);
    let sound = Context::sound();
    assert!(visits(&sound, 1, 3, 1) && visits(&sound, 1, 3, 2) && visits(&sound, 1, 3, 3));
    assert!(visits(&sound, 1, 1, 1) && !visits(&sound, 1, 3, 4) && !visits(&sound, 1, 3, 0));
    let start = Context::with(&[Fault::StartNotVisited]);
    assert!(!visits(&start, 1, 3, 1) && visits(&start, 1, 3, 2) && visits(&start, 1, 3, 3));
    let end = Context::with(&[Fault::EndNotVisited]);
    assert!(visits(&end, 1, 3, 1) && visits(&end, 1, 3, 2) && !visits(&end, 1, 3, 3));
}
