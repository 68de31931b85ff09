//! Ranks: the rank of a pair's class is the first key.

use crate::common::{ask_network, noticed_by, pair, random_networks, route, wrongly};
use oracle::answer::{Answer, Opened, Question};
use oracle::batch::enough;
use oracle::fault::{Context, Fault};
use oracle::file::write;
use oracle::network::Network;
use oracle::random::Random;
use oracle::ranks::{ASCENDING, Arrangement, arrangements, random_tables};
use oracle::worked::*;

/// The three calls that take ranks, about link 0, end 0 and prefix 0.
pub fn calls() -> [Question; 3] {
    [Question::link_repair(0, 0), Question::prefix_repair(0, 0, 0), Question::route(0, 0, 0, &[1])]
}

/// The best pair of each class for the prefix of the network with all eight, and its
/// route.
fn best_of_eight() -> [(Answer, &'static [u8]); 8] {
    [
        (pair(2, 2, 0, 3), &[0, 2, 6]),
        (pair(3, 3, 1, 3), &[0, 3, 6]),
        (pair(3, 2, 2, 9), &[0, 3, 0, 2, 6]),
        (pair(2, 3, 3, 9), &[0, 2, 0, 3, 6]),
        (pair(4, 4, 4, 3), &[0, 4, 1, 6]),
        (pair(5, 5, 5, 3), &[0, 5, 1, 6]),
        (pair(2, 4, 6, 9), &[0, 2, 0, 4, 1, 6]),
        (pair(2, 5, 7, 9), &[0, 2, 0, 5, 1, 6]),
    ]
}

/// The class that has rank 0.
fn preferred(ranks: &Arrangement) -> usize {
    ranks.iter().position(|rank| *rank == 0).expect("a rank of 0")
}

#[test]
fn every_arrangement_where_every_class_has_a_pair() {
    let (ctx, file, lent) = (Context::sound(), write(&node_eight_classes()), enough());
    let opened = Opened::new(&ctx, &file);
    let best = best_of_eight();
    let [_, prefix, played] = calls();
    for ranks in arrangements() {
        let (pair, route) = &best[preferred(&ranks)];
        assert_eq!(opened.ask(&prefix.clone().with_ranks(&ranks), &lent).answer, *pair);
        let outcome = opened.ask(&played.clone().with_ranks(&ranks), &lent);
        assert_eq!(outcome.answer, Answer::Count(route.len()));
        assert_eq!(&outcome.left.route[..route.len()], *route);
    }
}

/// The best pair of each class for link 0, end 0 of the network of four classes.
fn best_of_four() -> [Answer; 4] {
    [pair(2, 2, 4, 3), pair(3, 3, 5, 3), pair(3, 2, 6, 9), pair(2, 3, 7, 9)]
}

/// Of a link the ranks of the classes 4 to 7 decide, in whatever order the others are.
#[test]
fn every_arrangement_for_a_link_with_a_pair_of_each_of_its_classes() {
    let (ctx, file, lent) = (Context::sound(), write(&four_classes()), enough());
    let opened = Opened::new(&ctx, &file);
    let best = best_of_four();
    let [link, prefix, _] = calls();
    for ranks in arrangements() {
        let lowest = (4..8).min_by_key(|class| ranks[*class]).expect("a class");
        for question in [&link, &prefix] {
            let answer = opened.ask(&question.clone().with_ranks(&ranks), &lent).answer;
            assert_eq!(answer, best[lowest - 4], "{ranks:?}");
        }
    }
}

#[test]
fn tunnels_first_on_ring_4() {
    // Router 2 is attached and reached over 3; without a tunnel 3 repairs.
    let network = ring_4_with_prefix();
    let question = Question::prefix_repair(0, 0, 0);
    let tunnel = question.clone().with_ranks(&[4, 5, 0, 1, 6, 7, 2, 3]);
    assert_eq!(ask_network(&network, &question).answer, pair(3, 3, 1, 1));
    assert_eq!(ask_network(&network, &tunnel).answer, pair(3, 2, 2, 2));
    assert_eq!(route(&network, 0, 0, 0, &[]), [0, 3, 2]);
}

#[test]
fn ranks_read_wrongly() {
    let network = node_eight_classes();
    let of_class = |class: usize| best_of_eight()[class].0.clone();
    let ask = |ranks: &Arrangement| Question::prefix_repair(0, 0, 0).with_ranks(ranks);
    // Class 3 comes first, then 6; class 2 has rank 5, and rank 0 stands at place 3.
    let question = ask(&[2, 4, 5, 0, 7, 3, 1, 6]);
    assert_eq!(ask_network(&network, &question).answer, of_class(3));
    for (fault, class) in [
        // Read as a map from ranks to classes, 2 comes first.
        (Fault::ClassOfRank, 2),
        (Fault::RankOfNextClass, 2),
        (Fault::RankOfTurnedClass, 3),
        (Fault::RankOfOtherHalf, 7),
        (Fault::HighestRankFirst, 4),
        (Fault::ClassBeforeRank, 0),
    ] {
        assert_eq!(wrongly(fault, &network, &question), of_class(class), "{}", fault.name());
    }
    // Rank 0 stands at place 6, and class 0 has rank 4.
    let other = ask(&[4, 5, 6, 7, 1, 2, 0, 3]);
    assert_eq!(ask_network(&network, &other).answer, of_class(6));
    assert_eq!(wrongly(Fault::ClassOfRank, &network, &other), of_class(4));
    assert_eq!(wrongly(Fault::RankOfTurnedClass, &network, &other), of_class(5));
    assert_eq!(wrongly(Fault::RankToldAsClass, &network, &other), pair(2, 4, 0, 9));
    // By the first four ranks class 0 comes first, and class 4 with it.
    assert_eq!(wrongly(Fault::RankOfClassModulo4, &network, &other), of_class(0));
    let played = Question::route(0, 0, 0, &[]).with_ranks(&[4, 5, 6, 7, 1, 2, 0, 3]);
    assert_eq!(wrongly(Fault::RouteRankOfClassModulo4, &network, &played), Answer::Count(3));
    assert_eq!(ask_network(&network, &played).answer, Answer::Count(6));
}

/// A pair that is none: with the ranks ascending it stands behind another one.
#[test]
fn what_other_classes_hide() {
    let answers = |fault, network: &Network, question: Question, ranks: &[u8]| {
        let question = question.with_ranks(ranks);
        (ask_network(network, &question).answer, wrongly(fault, network, &question))
    };
    let link = || Question::link_repair(0, 0);
    let tunnels_first = [4, 5, 0, 1, 6, 7, 2, 3];
    for (fault, network, wrong) in [
        // The tunnel from 3 to 2 goes over E and then over the link to S.
        (Fault::OnlySToETested, neighbours_only(), pair(3, 2, 6, 5)),
        (Fault::EndpointMayBeE, neighbours_only(), pair(2, 1, 6, 2)),
        (Fault::EndpointMayBeS, ring_3_dear_link(), pair(2, 0, 7, 2)),
    ] {
        let sound = pair(2, 2, 4, 1);
        assert_eq!(answers(fault, &network, link(), &ASCENDING), (sound.clone(), sound.clone()));
        let expected = (sound, wrong);
        assert_eq!(answers(fault, &network, link(), &tunnels_first), expected);
        if fault != Fault::EndpointMayBeS {
            let prefix = Question::prefix_repair(0, 0, 0);
            assert_eq!(answers(fault, &network, prefix, &tunnels_first), expected);
        }
    }
}

/// All questions about hand-worked networks: each wrong planner answers one of
/// them otherwise.
#[test]
fn every_wrong_planner_is_noticed_by_hand() {
    let networks = [
        ("four classes", four_classes()),
        ("eight classes", node_eight_classes()),
        ("ring 4 with prefix", ring_4_with_prefix()),
        ("two routers with prefix", two_routers().prefix(&[(1, 0)])),
    ];
    for fault in Fault::OF_RANKS {
        let by = noticed_by(fault, &networks, &|_| true);
        assert!(!by.is_empty(), "{} is not noticed", fault.name());
    }
}

/// How often the answers of two arrangements differed, by call.
#[derive(Debug, Default)]
struct Changed {
    link: usize,
    prefix: usize,
    route: usize,
}

/// The laws of Point 2: who gets a repair and who gets 14, untouched or
/// unreachable does not depend on the arrangement, nor does the work area; and
/// the answer is the best pair of the first class, by rank, that has one.
#[test]
fn what_the_arrangement_changes() {
    let ctx = Context::sound();
    let mut changed = Changed::default();
    for network in random_networks(16, 8, 91) {
        let file = write(&network);
        let opened = Opened::new(&ctx, &file);
        for question in oracle::corpus::valid_questions(&network, &mut Random::new(92)) {
            if question.ranks() == Some(&ASCENDING[..]) {
                look_at_arrangements(&opened, &question, &mut changed);
            }
        }
    }
    println!("{changed:?}");
    assert!(changed.link > 1000 && changed.prefix > 1000 && changed.route > 1000);
}

/// For each class a table that prefers it, and some at random.
fn some_tables() -> Vec<Arrangement> {
    let turned = |turn: u8| ASCENDING.map(|class| (class + 8 - turn) % 8);
    (0..8).map(turned).chain(random_tables(16, 96)).collect()
}

fn look_at_arrangements(opened: &Opened, question: &Question, changed: &mut Changed) {
    let lent = enough();
    let told = |ranks: &Arrangement| opened.ask(&question.clone().with_ranks(ranks), &lent);
    let all: Vec<(Arrangement, _)> = some_tables().into_iter().map(|r| (r, told(&r))).collect();
    let ascending = &all[0].1;
    // The best pair of each class that has one: it comes first by some ranks.
    let best = |class: usize| {
        let first = all.iter().find(|(ranks, _)| ranks[class] == 0).map(|(_, told)| &told.answer);
        first.filter(|answer| matches!(answer, Answer::Pair(pair) if pair.class as usize == class))
    };
    for (ranks, outcome) in &all {
        assert_eq!(outcome.left.work, ascending.left.work);
        let count = match (&outcome.answer, &ascending.answer) {
            (Answer::Pair(_), Answer::Pair(_)) => {
                let mut classes = [0, 1, 2, 3, 4, 5, 6, 7];
                classes.sort_by_key(|class| ranks[*class]);
                assert_eq!(classes.into_iter().find_map(best), Some(&outcome.answer));
                let link = matches!(question, Question::LinkRepair { .. });
                if link { &mut changed.link } else { &mut changed.prefix }
            }
            (Answer::Count(_), Answer::Count(_)) => &mut changed.route,
            (other, expected) => {
                assert_eq!(other, expected, "{question:?}");
                continue;
            }
        };
        *count += usize::from(outcome != ascending);
    }
}

/// A planner that compares the class first answers as before there were ranks,
/// whatever is lent; with the ranks ascending that is the sound answer.
#[test]
fn ascending_ranks_are_as_without_any() {
    let (sound, before) = (Context::sound(), Context::with(&[Fault::ClassBeforeRank]));
    for network in random_networks(6, 8, 93) {
        let file = write(&network);
        let (now, before) = (Opened::new(&sound, &file), Opened::new(&before, &file));
        for question in oracle::corpus::valid_questions(&network, &mut Random::new(94)) {
            let ascending = question.clone().with_ranks(&ASCENDING);
            assert_eq!(before.ask(&question, &enough()), now.ask(&ascending, &enough()));
        }
    }
}
