//! Tables of ranks: a table that is no arrangement of the numbers 0 to 7 is refused as
//! 15, and tables that decide.

use crate::common::{ask_network, pair, refused, wrongly};
use crate::ranks::calls;
use oracle::answer::{Answer, Opened, Question};
use oracle::batch::enough;
use oracle::corpus::marked;
use oracle::fault::{Context, Fault, Limit};
use oracle::file::write;
use oracle::ranks::{
    ASCENDING, Arrangement, DESCENDING, Decision, WRONG, arrangements, deciding, deciding_tables,
    decisions, exchanged, random_tables, wrong_tables,
};
use oracle::row::Cause;
use oracle::worked::*;
use std::collections::BTreeSet;

#[test]
fn there_are_40_320_arrangements() {
    let all = arrangements();
    assert_eq!((all.len(), all[0], all[40_319]), (40_320, ASCENDING, DESCENDING));
    assert!(all.is_sorted_by(|one, next| one < next));
    let random: BTreeSet<Arrangement> = random_tables(1000, 95).into_iter().collect();
    assert!(random.len() > 950 && random.iter().all(|ranks| all.contains(ranks)));
    assert_eq!(exchanged(&[2, 3, 1, 0, 7, 6, 5, 4], 0), [2, 3, 0, 1, 7, 6, 5, 4]);
    assert_eq!(exchanged(&[2, 3, 1, 0, 7, 6, 5, 4], 6), [2, 3, 1, 0, 6, 7, 5, 4]);
}

#[test]
fn wrong_tables_are_of_every_kind() {
    let tables: BTreeSet<Vec<u8>> = wrong_tables().into_iter().collect();
    let sound: BTreeSet<Vec<u8>> = arrangements().into_iter().map(|ranks| ranks.into()).collect();
    assert!(tables.len() > 2000 && tables.is_disjoint(&sound));
    assert!(WRONG.iter().all(|table| tables.contains(*table)));
    let lengths: BTreeSet<usize> = tables.iter().map(Vec::len).collect();
    assert_eq!(lengths, (0..=17).collect());
    let of_four = |table: &&Vec<u8>| {
        table.len() == 4 && BTreeSet::from_iter(table.iter().copied()) == BTreeSet::from_iter(0..4)
    };
    assert_eq!(tables.iter().filter(of_four).count(), 24);
    for rank in [8, 9, 15, 16, 32, 64, 128, 255] {
        assert!(tables.iter().any(|table| table.len() == 8 && table.contains(&rank)), "{rank}");
    }
}

#[test]
fn every_wrong_table_is_15_and_writes_nothing() {
    for network in [four_classes(), ring_4_with_prefix(), two_routers().prefix(&[(1, 0)])] {
        let (ctx, file, lent) = (Context::sound(), write(&network), marked(20, 12));
        let opened = Opened::new(&ctx, &file);
        for question in calls() {
            for table in wrong_tables() {
                let outcome = opened.ask(&question.clone().with_ranks(&table), &lent);
                assert_eq!(outcome.answer, refused(15, 0), "{table:?}");
                assert_eq!(outcome.left, lent, "{table:?}");
            }
        }
    }
}

#[test]
fn wrong_tables_that_are_taken() {
    let network = four_classes();
    let taken = |fault, table: &[u8]| {
        let question = Question::link_repair(0, 0).with_ranks(table);
        assert_eq!(ask_network(&network, &question).answer, refused(15, 0));
        wrongly(fault, &network, &question) != refused(15, 0)
    };
    let with_last = |last: u8| [0, 1, 2, 3, 4, 5, 6, last];
    let ignored = [Cause::RanksShort, Cause::RanksLong, Cause::RankOver, Cause::RankTwice];
    let [short, long, over, twice] = ignored.map(Fault::CauseIgnored);
    assert!(taken(short, &[]) && taken(short, &ASCENDING[..7]) && !taken(short, &[0, 1, 1]));
    assert!(taken(long, &[0, 1, 2, 3, 4, 5, 6, 7, 0]));
    assert!(!taken(long, &[0, 1, 2, 3, 4, 5, 6, 6, 7]));
    assert!(taken(over, &with_last(8)) && taken(over, &with_last(255)));
    assert!(taken(twice, &with_last(6)) && taken(twice, &[1; 8]));
    let loose = |limit| Fault::LimitLoose(limit);
    assert!(taken(loose(Limit::LeastRanks), &ASCENDING[..7]));
    assert!(!taken(loose(Limit::LeastRanks), &ASCENDING[..6]));
    assert!(taken(loose(Limit::MostRanks), &[0, 1, 2, 3, 4, 5, 6, 7, 8]));
    assert!(taken(loose(Limit::Rank), &with_last(8)) && !taken(loose(Limit::Rank), &with_last(9)));
    assert!(taken(Fault::RanksInSetOf8, &with_last(15)));
    assert!(taken(Fault::RanksInSetOf32, &with_last(39)));
    assert!(taken(Fault::RanksInSetOf64, &with_last(71)));
    assert!(!taken(Fault::RanksInSetOf64, &with_last(39)));
    assert!(taken(Fault::RanksJudgedBySum, &[7, 0, 7, 0, 7, 0, 7, 0]));
    assert!(taken(Fault::RowDropped(15), &[9, 9]));
}

/// Tables of before there was node protection.
#[test]
fn four_ranks_are_too_few() {
    let network = four_classes();
    let asked = |ranks: &[u8]| Question::link_repair(0, 0).with_ranks(ranks);
    for fault in [Fault::FourRanksTaken, Fault::FourRanksOnly] {
        for four in [[0, 1, 2, 3], [2, 3, 1, 0]] {
            assert_eq!(ask_network(&network, &asked(&four)).answer, refused(15, 0));
            assert!(matches!(wrongly(fault, &network, &asked(&four)), Answer::Pair(_)));
        }
        assert_eq!(wrongly(fault, &network, &asked(&[0, 1, 2, 2])), refused(15, 0));
    }
    assert_eq!(wrongly(Fault::FourRanksOnly, &network, &asked(&ASCENDING)), refused(15, 0));
    assert_eq!(wrongly(Fault::FourRanksTaken, &network, &asked(&ASCENDING)), pair(2, 2, 4, 3));
    for table in [[0, 1, 2, 3, 0, 1, 2, 3], [3, 2, 1, 0, 9, 9, 9, 9]] {
        assert_eq!(ask_network(&network, &asked(&table)).answer, refused(15, 0));
        let taken = wrongly(Fault::RanksJudgedToFour, &network, &asked(&table));
        assert!(matches!(taken, Answer::Pair(_)));
    }
}

/// The tables that decide a question do so, in every way there is.
#[test]
fn tables_that_decide() {
    assert_eq!((decisions(0..8).len(), decisions(4..8).len()), (8 * 7 * 7, 4 * 3 * 7));
    let (ctx, lent) = (Context::sound(), enough());
    for (network, question, served) in [
        (node_eight_classes(), Question::prefix_repair(0, 0, 0), BTreeSet::from_iter(0..8)),
        (four_classes(), Question::prefix_repair(0, 0, 0), BTreeSet::from_iter(4..8)),
        (four_classes(), Question::link_repair(0, 0), BTreeSet::from_iter(4..8)),
        (neighbours_only(), Question::link_repair(0, 0), BTreeSet::from([4, 5])),
    ] {
        let file = write(&network);
        let opened = Opened::new(&ctx, &file);
        let decide = |ranks: &Arrangement| {
            let question = question.clone().with_ranks(ranks);
            let Answer::Pair(pair) = opened.ask(&question, &lent).answer else {
                panic!("no pair for {question:?}");
            };
            deciding(&opened, &question, &lent, &pair).expect("a decision")
        };
        let decided: BTreeSet<Decision> = deciding_tables(&served).iter().map(decide).collect();
        let last = 8 - served.len() as u8;
        let among = |decision: &Decision| {
            let both = [decision.first, decision.next].iter().all(|class| served.contains(class));
            both && decision.rank <= last
        };
        let expected: BTreeSet<Decision> = decisions(0..8).into_iter().filter(among).collect();
        assert_eq!(decided, expected);
    }
}
