//! The laws of node protection, against lists of all walks: what a class tells, and what
//! node protection changes.

use crate::brute::{Brute, Walk};
use crate::common::{dearly_attached, prefix_repair, random_networks};
use crate::pairs::{Target, all_serving, far_routers};
use oracle::answer::{Answer, Opened, Question};
use oracle::batch::enough;
use oracle::class::NOT_PROTECTING;
use oracle::corpus::valid_questions;
use oracle::fault::{Context, Fault};
use oracle::file::write;
use oracle::random::Random;
use oracle::ranks::{ASCENDING, random_tables};
use oracle::repair::Pair;
use oracle::workings::Workings;

/// As it was before there was node protection.
const BEFORE: Fault = Fault::NodeNotLookedAt;

#[test]
fn visits_are_what_the_list_of_walks_says() {
    for network in dearly_attached(8, 6, 111) {
        let brute = Brute::new(&network);
        let workings = Workings::of(&Context::sound(), network.clone());
        let all = || 0..brute.routers;
        for (x, router) in all().flat_map(|x| all().map(move |router| (x, router))) {
            for t in all().filter(|t| workings.to_router(*t).reachable_from(x)) {
                let expected = Brute::visit(&brute.walks_to_router(x, t), router);
                assert_eq!(workings.to_router(t).visits(x, router), expected);
            }
            for (prefix, number) in network.prefixes.iter().zip(0..) {
                let walks = workings.to_prefix(number);
                let expected = Brute::visit(&brute.walks_to_prefix(x, prefix), router);
                assert!(!walks.reachable_from(x) || walks.visits(x, router) == expected);
            }
        }
    }
}

/// The walks of both legs of a pair, as lists.
fn legs(brute: &Brute, pair: &Pair, target: &Target) -> [Vec<Walk>; 2] {
    let first_leg = brute.walks_to_router(pair.first_hop, pair.endpoint);
    [first_leg, (target.walks)(pair.endpoint)]
}

/// How many pairs were told, by the two halves of the classes.
#[derive(Debug, Default)]
struct Told {
    protecting: usize,
    others: usize,
}

/// What a user reads from the class while the ranks ascend: below 4 every walk misses
/// E, and from 4 on no serving pair is node-protecting.
#[test]
fn what_a_class_tells_while_the_ranks_ascend() {
    let mut told = Told::default();
    for network in dearly_attached(32, 6, 112) {
        let brute = Brute::new(&network);
        for (link, end, s, e) in far_routers(&network) {
            for (prefix, number) in network.prefixes.iter().zip(0..) {
                let Answer::Pair(pair) = prefix_repair(&network, link, end, number) else {
                    continue;
                };
                let target = Target::prefix(&brute, prefix);
                let visited = legs(&brute, &pair, &target).iter().any(|leg| Brute::visit(leg, e));
                assert_eq!(visited, pair.class >= NOT_PROTECTING);
                if visited {
                    let serving = all_serving(&brute, s, e, &target);
                    assert!(serving.iter().all(|(class, ..)| *class >= NOT_PROTECTING));
                    told.others += 1;
                } else {
                    told.protecting += 1;
                }
            }
        }
    }
    println!("{told:?}");
    assert!(told.protecting > 400 && told.others > 400);
}

/// By any ranks the class tells whether the pair that is given does without E, and who
/// gets a repair does not depend on the ranks.
#[test]
fn what_a_class_tells_by_any_ranks() {
    let (ctx, lent) = (Context::sound(), enough());
    for network in dearly_attached(4, 6, 113) {
        let (brute, file) = (Brute::new(&network), write(&network));
        let opened = Opened::new(&ctx, &file);
        for (link, end, _, e) in far_routers(&network) {
            for (prefix, number) in network.prefixes.iter().zip(0..) {
                let question = Question::prefix_repair(link, end, number);
                let ascending = opened.ask(&question, &lent).answer;
                for ranks in random_tables(20, 114) {
                    let answer = opened.ask(&question.clone().with_ranks(&ranks), &lent).answer;
                    let Answer::Pair(pair) = answer else {
                        assert_eq!(answer, ascending);
                        continue;
                    };
                    assert!(matches!(ascending, Answer::Pair(_)));
                    let legs = legs(&brute, &pair, &Target::prefix(&brute, prefix));
                    let visited = legs.iter().any(|leg| Brute::visit(leg, e));
                    assert_eq!(visited, pair.class >= NOT_PROTECTING);
                }
            }
        }
    }
}

/// How answers differ from those of before, while the ranks ascend.
#[derive(Debug, Default)]
struct Changed {
    link: usize,
    same: usize,
    four_added: usize,
    another: usize,
    route: usize,
}

/// What node protection changes while the ranks ascend: a link's pair has 4 more and is
/// the same; a prefix's pair is the same, the same with 4 more, or makes room for one
/// that does without E. Nothing else changes.
#[test]
fn what_node_protection_changes() {
    let (sound, before) = (Context::sound(), Context::with(&[BEFORE]));
    let mut changed = Changed::default();
    for network in random_networks(32, 8, 115) {
        let file = write(&network);
        let (now, before) = (Opened::new(&sound, &file), Opened::new(&before, &file));
        for question in valid_questions(&network, &mut Random::new(116)) {
            if question.ranks().is_none_or(|ranks| ranks == ASCENDING) {
                look_at(&now, &before, &question, &mut changed);
            }
        }
    }
    println!("{changed:?}");
    let Changed { link, same, four_added, another, route } = changed;
    assert!(link > 1000 && same > 500 && four_added > 300 && another > 100 && route > 50);
}

fn look_at(now: &Opened, before: &Opened, question: &Question, changed: &mut Changed) {
    let (new, old) = (now.ask(question, &enough()), before.ask(question, &enough()));
    assert_eq!(new.left.work, old.left.work);
    match (&new.answer, &old.answer) {
        (Answer::Pair(new), Answer::Pair(old)) => {
            let four_more = Pair { class: old.class + NOT_PROTECTING, ..*old };
            let link = matches!(question, Question::LinkRepair { .. });
            let another = !link && new.class < NOT_PROTECTING && new.class >= old.class;
            let count = match new {
                new if link && *new == four_more => &mut changed.link,
                new if !link && new == old => &mut changed.same,
                new if !link && *new == four_more => &mut changed.four_added,
                _ if another => &mut changed.another,
                _ => panic!("{question:?}: {new:?} and before {old:?}"),
            };
            *count += 1;
        }
        (Answer::Count(_), Answer::Count(_)) => changed.route += usize::from(new != old),
        (Answer::Text(_), Answer::Text(_)) => {}
        (new, old) => assert_eq!(new, old, "{question:?}"),
    }
}
