//! Links under maintenance: a first hop is a neighbour of S, not E, to which the
//! cost from S is below 65,535. Each way to get this wrong is noticed on
//! networks made by hand.

use crate::common::{
    ask_network, link_repair, noticed_by, pair, prefix_repair, random_networks, refused, route,
    set, spaces, wrongly,
};
use oracle::answer::{Answer, Opened, Question};
use oracle::batch::enough;
use oracle::fault::{Context, Fault, Limit};
use oracle::file::write;
use oracle::random::Random;
use oracle::repair::Pair;
use oracle::space::Space;
use oracle::worked::*;

/// As it was before there was maintenance.
const BEFORE: Fault = Fault::NOTHING_LEFT_OUT;

const EXTENDED_P: Question = Question::Space { space: Space::ExtendedP, link: 0, end: 0 };

fn link_0_end_0() -> Question {
    Question::link_repair(0, 0)
}

#[test]
fn every_first_hop_is_left_out() {
    let network = maintenance_first_hops();
    assert_eq!(spaces(&network, 0, 0), [set(&[0]), set(&[]), set(&[1, 4])]);
    assert_eq!(link_repair(&network, 0, 0), refused(14, 0));
    assert_eq!(prefix_repair(&network, 0, 0, 0), refused(14, 0));
    let played = Question::route(0, 0, 0, &[]);
    assert_eq!(ask_network(&network, &played).answer, refused(14, 0));
    assert_eq!(wrongly(BEFORE, &network, &link_0_end_0()), pair(2, 4, 7, 65_536));
    // From the other end nothing is left out: the directions to 0 cost 1.
    assert_eq!(link_repair(&network, 0, 1), pair(4, 2, 7, 2));
    assert_eq!(spaces(&network, 0, 1)[1], set(&[1, 2, 3, 4]));
}

#[test]
fn a_tunnel_goes_over_a_link_under_maintenance() {
    let network = maintenance_tunnel();
    assert_eq!(link_repair(&network, 0, 0), pair(5, 3, 6, 65_537));
    assert_eq!(prefix_repair(&network, 0, 0, 0), pair(5, 3, 6, 65_537));
    assert_eq!(route(&network, 0, 0, 0, &[]), [0, 5, 4, 3, 2, 1]);
    // From 4 that link would be the first hop.
    assert_eq!(link_repair(&network, 4, 0), refused(14, 0));
}

#[test]
fn the_link_that_drops_is_under_maintenance() {
    let network = maintenance_protected_link();
    for question in [link_0_end_0(), Question::prefix_repair(0, 0, 0)] {
        let answer = ask_network(&network, &question).answer;
        assert_eq!(answer, pair(3, 3, 4, 30_000));
        assert_eq!(wrongly(BEFORE, &network, &question), answer);
    }
    assert_eq!(link_repair(&network, 0, 1), pair(2, 2, 4, 30_000));
    // As a first hop for link 3 it is left out; a second leg goes over it.
    assert_eq!(link_repair(&network, 3, 1), refused(14, 0));
    assert_eq!(link_repair(&network, 3, 0), pair(2, 1, 7, 60_000));
}

#[test]
fn extended_p_loses_members_and_p_and_q_do_not() {
    let network = maintenance_extended_p();
    let [p, extended_p, q] = [set(&[0, 2]), set(&[0, 2, 5]), set(&[1, 4, 5])];
    assert_eq!(spaces(&network, 0, 0), [p, extended_p, q]);
    assert_eq!(wrongly(BEFORE, &network, &EXTENDED_P), set(&[0, 2, 3, 4, 5]));
    assert_eq!(link_repair(&network, 0, 0), pair(2, 5, 7, 3));
    assert_eq!(wrongly(BEFORE, &network, &link_0_end_0()), pair(3, 4, 7, 65_536));
    let question = Question::prefix_repair(0, 0, 0);
    assert_eq!(prefix_repair(&network, 0, 0, 0), pair(2, 5, 7, 3));
    assert_eq!(wrongly(BEFORE, &network, &question), pair(3, 3, 0, 65_535));
}

#[test]
fn a_cost_of_65_534_is_not_left_out() {
    let network = ring_6_of_cost(65_534);
    assert_eq!(link_repair(&network, 0, 0), pair(5, 3, 7, 3 * 65_534));
    let strict = Fault::LimitTight(Limit::FirstHopCost);
    assert_eq!(wrongly(strict, &network, &link_0_end_0()), refused(14, 0));
    let network = ring_6_of_cost(65_535);
    assert_eq!(link_repair(&network, 0, 0), refused(14, 0));
    assert_eq!(spaces(&network, 0, 0), [set(&[0, 4, 5]), set(&[]), set(&[1, 2, 3])]);
    assert_eq!(wrongly(BEFORE, &network, &link_0_end_0()), pair(5, 3, 7, 3 * 65_535));
}

/// The same neighbour, once at 65,535 from S and once at 65,535 to S.
#[test]
fn the_direction_from_s_decides() {
    let with_costs = |forth, back| {
        let mut network = ring(4);
        // Link 3 joins 3 and 0.
        (network.links[3].back, network.links[3].forth) = (forth, back);
        network
    };
    let (from_s, to_s) = (with_costs(65_535, 1), with_costs(1, 65_535));
    assert_eq!(link_repair(&from_s, 0, 0), refused(14, 0));
    assert_eq!(link_repair(&to_s, 0, 0), pair(3, 3, 5, 1));
    let wrong = Fault::MaintenanceTowardsS;
    assert_eq!(wrongly(wrong, &from_s, &link_0_end_0()), pair(3, 2, 7, 65_536));
    assert_eq!(wrongly(wrong, &to_s, &link_0_end_0()), refused(14, 0));
}

#[test]
fn walks_go_over_links_under_maintenance() {
    let network = maintenance_protected_link();
    let touched = Question::prefix_repair(0, 0, 0);
    assert_eq!(wrongly(Fault::MaintenanceNotWalked, &network, &touched), Answer::Untouched);
    assert_eq!(wrongly(Fault::MaintenanceNotThere, &network, &touched), Answer::Untouched);
    let other_leg = Question::link_repair(3, 0);
    assert_eq!(wrongly(Fault::MaintenanceNotThere, &network, &other_leg), refused(14, 0));
}

#[test]
fn extended_p_and_pairs_have_the_same_first_hops() {
    let network = maintenance_extended_p();
    let wrong = Fault::ExtendedPOfEveryNeighbour;
    assert_eq!(wrongly(wrong, &network, &EXTENDED_P), set(&[0, 2, 3, 4, 5]));
    assert_eq!(wrongly(wrong, &network, &link_0_end_0()), pair(2, 5, 7, 3));
    let wrong = Fault::PairsOfEveryNeighbour;
    assert_eq!(wrongly(wrong, &network, &EXTENDED_P), set(&[0, 2, 5]));
    assert_eq!(wrongly(wrong, &network, &link_0_end_0()), pair(3, 4, 7, 65_536));
    let network = maintenance_first_hops();
    assert_eq!(wrongly(wrong, &network, &link_0_end_0()), pair(2, 4, 7, 65_536));
}

/// All questions about each network made by hand: which of them each wrong
/// planner answers otherwise.
#[test]
fn every_wrong_planner_is_noticed_by_hand() {
    for fault in Fault::OF_MAINTENANCE {
        let by = noticed_by(fault, &maintenance(), &|question| may_show(fault, question));
        assert!(!by.is_empty(), "{} is not noticed", fault.name());
    }
}

/// The questions whose answers a wrong planner may change.
fn may_show(fault: Fault, question: &Question) -> bool {
    let in_extended_p = matches!(question, Question::Space { space: Space::ExtendedP, .. });
    let in_pairs = matches!(
        question,
        Question::LinkRepair { .. }
            | Question::PrefixRepair { .. }
            | Question::Route { .. }
            | Question::Plan
    );
    match fault {
        Fault::ExtendedPOfEveryNeighbour => in_extended_p,
        Fault::PairsOfEveryNeighbour => in_pairs,
        Fault::MaintenanceNotWalked | Fault::MaintenanceNotThere => true,
        _ => in_extended_p || in_pairs,
    }
}

/// What the new meaning changes: extended P loses members, and a pair makes room
/// for one behind it or for 14. Nothing else changes.
#[test]
fn what_maintenance_changes() {
    let (sound, loose) = (Context::sound(), Context::with(&[BEFORE]));
    let (mut smaller, mut fourteen, mut another) = (0, 0, 0);
    for network in random_networks(30, 8, 81) {
        let file = write(&network);
        let (now, before) = (Opened::new(&sound, &file), Opened::new(&loose, &file));
        let lent = enough();
        for question in oracle::corpus::valid_questions(&network, &mut Random::new(82)) {
            let (now, before) = (now.ask(&question, &lent), before.ask(&question, &lent));
            assert_eq!(now.left.work, before.left.work);
            if now == before {
                continue;
            }
            match (&now.answer, &before.answer) {
                (Answer::Set(now), Answer::Set(before)) => {
                    let extended = matches!(question, Question::Space { space, .. }
                        if space == Space::ExtendedP);
                    assert!(extended && now & before == *now);
                    smaller += 1;
                }
                (Answer::Refused { number: 14, value: 0 }, Answer::Pair(_)) => fourteen += 1,
                (Answer::Pair(now), Answer::Pair(before)) => {
                    let ranks = question.ranks().expect("a repair has ranks");
                    let rank = |pair: &Pair| ranks[pair.class as usize];
                    assert!(rank(now) >= rank(before) && now.first_hop != before.first_hop);
                    another += 1;
                }
                (Answer::Refused { number: 14, value: 0 }, Answer::Count(_)) => {}
                (Answer::Count(_), Answer::Count(_)) | (Answer::Text(_), Answer::Text(_)) => {}
                (now, before) => panic!("{question:?}: {now:?} and before {before:?}"),
            }
        }
    }
    println!("smaller {smaller}, 14 {fourteen}, another pair {another}");
    assert!(smaller > 100 && fourteen > 100 && another > 10);
}
