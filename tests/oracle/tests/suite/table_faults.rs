//! Planners that take tables wrongly: each is noticed on networks made by hand.

use crate::common::{noticed_by, pair, random_networks, refused};
use crate::tables::{RING_4, cheap_one_way, many_tables, ring_3_and_router_3, with_causes};
use oracle::answer::{Answer, Opened, Outcome, Question, ask};
use oracle::corpus::marked;
use oracle::fault::{Context, Fault, Limit};
use oracle::file::write;
use oracle::network::Network;
use oracle::random::Random;
use oracle::row::Cause;
use oracle::table::{right, tables};
use oracle::worked::*;

/// What a planner with a fault answers to the link repair of link 0, end 0, by a table.
fn wrongly(fault: Fault, network: &Network, table: &[u32]) -> Answer {
    let question = Question::link_repair(0, 0).with_table(table);
    ask(&Context::with(&[fault]), &write(network), &question, &marked(0, 0)).answer
}

/// The right table with another number in one cell.
fn with_cell(network: &Network, number: usize, other: u32) -> Vec<u32> {
    let mut table = right(network);
    table[number] = other;
    table
}

/// The table of a kind.
fn of_kind(network: &Network, name: &str) -> Vec<u32> {
    let found = tables(network).into_iter().find(|table| table.name == name);
    found.unwrap_or_else(|| panic!("no table {name}")).cells
}

/// The numbers of the cells that a planner with a fault does not look at: with 1 more
/// in such a cell, or 1 less, it takes the table.
fn not_looked_at(fault: Fault, network: &Network) -> Vec<usize> {
    let right = right(network);
    let taken = |number: &usize| {
        let cell = right[*number];
        let other = if cell == u32::MAX { cell - 1 } else { cell + 1 };
        wrongly(fault, network, &with_cell(network, *number, other)) != refused(18, 0)
    };
    (0..right.len()).filter(taken).collect()
}

#[test]
fn cells_that_are_not_looked_at() {
    let network = ring_3_and_router_3();
    assert!(not_looked_at(Fault::SLeftOut, &network).is_empty());
    assert_eq!(not_looked_at(Fault::TableDiagonalNotCompared, &network), [0, 5, 10, 15]);
    assert_eq!(not_looked_at(Fault::TableLastRowNotCompared, &network), [12, 13, 14, 15]);
    let unreachable = [3, 7, 11, 12, 13, 14];
    assert_eq!(not_looked_at(Fault::TableUnreachableNotCompared, &network), unreachable);
    // S is router 0.
    let other_rows: Vec<usize> = (4..16).collect();
    assert_eq!(not_looked_at(Fault::TableOnlyRowOfS, &network), other_rows);
    let every_cell: Vec<usize> = (0..16).collect();
    for fault in [Fault::RowDropped(18), Fault::TableIgnored] {
        assert_eq!(not_looked_at(fault, &network), every_cell);
    }
}

/// Zeros everywhere, and the distances of a network with a lower cost, are never above
/// a cost plus the cell one hop on.
#[test]
fn slack_is_not_enough() {
    let zeros = of_kind(&ring(4), "zeros");
    assert_ne!(wrongly(Fault::TableOnlySlack, &ring(4), &zeros), refused(18, 0));
    assert_eq!(wrongly(Fault::TableOnlyTight, &ring(4), &zeros), refused(18, 0));
    let network = cheap_one_way();
    let lower = of_kind(&network, "link 0 cheaper from b to a");
    assert_ne!(wrongly(Fault::TableOnlySlack, &network, &lower), refused(18, 0));
    assert_eq!(wrongly(Fault::TableOnlyTight, &network, &lower), refused(18, 0));
    for number in [0, 1, 2] {
        let more = with_cell(&ring(4), number, RING_4[number] + 1);
        assert_eq!(wrongly(Fault::TableOnlySlack, &ring(4), &more), refused(18, 0));
    }
}

/// The way round ring 4 the other way is a sum of costs too, but not the least.
#[test]
fn tightness_is_not_enough() {
    let longer = of_kind(&ring(4), "link 0 dearer from a to b");
    assert_eq!(longer[..4], [0, 3, 2, 1]);
    let apart = of_kind(&ring(4), "unreachable but for the diagonal");
    for table in [longer, apart] {
        assert_ne!(wrongly(Fault::TableOnlyTight, &ring(4), &table), refused(18, 0));
        assert_eq!(wrongly(Fault::TableOnlySlack, &ring(4), &table), refused(18, 0));
        assert_eq!(wrongly(Fault::TableDiagonalFree, &ring(4), &table), refused(18, 0));
    }
}

/// With 1 more to router 0 from everywhere only the diagonal tells.
#[test]
fn slack_and_tightness_are_not_enough() {
    let more = of_kind(&ring(4), "one more to router 0");
    assert_ne!(wrongly(Fault::TableDiagonalFree, &ring(4), &more), refused(18, 0));
    for fault in [Fault::TableOnlySlack, Fault::TableOnlyTight, Fault::TableDiagonalNotCompared] {
        assert_eq!(wrongly(fault, &ring(4), &more), refused(18, 0));
    }
}

/// A diagonal of 0, slack and tightness together are what the definition asks for.
#[test]
fn slack_tightness_and_the_diagonal_are_the_distances() {
    let mut random = Random::new(181);
    let contexts = [&[][..], &[Fault::TableOnlySlack], &[Fault::TableOnlyTight]];
    let contexts = contexts.map(Context::with);
    let (mut taken, mut refused_by_one) = (0, 0);
    for network in random_networks(6, 7, 182) {
        let file = write(&network);
        let [sound, slack, tight] = contexts.each_ref().map(|ctx| Opened::new(ctx, &file));
        for table in many_tables(&network, &mut random) {
            let question = Question::link_repair(0, 0).with_table(&table);
            let takes = |opened: &Opened| {
                let refusal = opened.refusal(&oracle::answer::inputs(&question, &marked(0, 0)));
                !refusal.is_some_and(|refusal| [10, 18].contains(&refusal.number))
            };
            assert_eq!(takes(&sound), takes(&slack) && takes(&tight), "{table:?}");
            taken += usize::from(takes(&sound));
            refused_by_one += usize::from(takes(&slack) != takes(&tight));
        }
    }
    println!("{taken} taken, {refused_by_one} refused by one of the two");
    assert!(taken > 300 && refused_by_one > 1000);
}

#[test]
fn later_cells_and_the_length() {
    let with = |later: &[u32]| [&RING_4[..], later].concat();
    let sound = pair(3, 2, 7, 2);
    let beyond = |later: &[u32]| wrongly(Fault::TableBeyondCompared, &ring(4), &with(later));
    assert_eq!(beyond(&[0, 0, 7]), refused(18, 0));
    assert_eq!([beyond(&[]), beyond(&[0, 0])], [sound.clone(), sound.clone()]);
    let exact = |later: &[u32]| wrongly(Fault::TableLengthExact, &ring(4), &with(later));
    assert_eq!([exact(&[]), exact(&[0])], [sound.clone(), refused(10, 16)]);
    // A table that is too short is not the file's, where row 10 lets it pass.
    let short = |fault, cells: usize| wrongly(fault, &ring(4), &RING_4[..cells]);
    let ignored = Fault::CauseIgnored(Cause::TableShort);
    assert_eq!([short(ignored, 15), short(ignored, 0)], [refused(18, 0), refused(18, 0)]);
    let loose = Fault::LimitLoose(Limit::Table);
    assert_eq!([short(loose, 15), short(loose, 14)], [refused(18, 0), refused(10, 16)]);
    assert_eq!(short(Fault::LimitTight(Limit::Table), 16), refused(10, 16));
    assert_eq!(wrongly(Fault::LimitTight(Limit::Table), &ring(4), &with(&[7])), sound);
    // The limit of the work area is another one.
    assert_eq!(short(Fault::LimitTight(Limit::WorkArea), 16), sound);
}

#[test]
fn a_table_by_destination() {
    let network = cheap_one_way();
    let question = Question::link_repair(0, 1);
    let ctx = Context::with(&[Fault::TableByDestination]);
    let answer = |table: &[u32]| {
        let question = question.clone().with_table(table);
        ask(&ctx, &write(&network), &question, &marked(0, 0)).answer
    };
    assert_eq!(answer(&of_kind(&network, "right")), refused(18, 0));
    assert_eq!(answer(&of_kind(&network, "row = destination")), pair(2, 2, 4, 2));
    // Where costs are the same both ways nothing shows.
    assert_eq!(wrongly(Fault::TableByDestination, &ring(4), &RING_4), pair(3, 2, 7, 2));
}

/// Without the check a planner believes what it reads.
#[test]
fn answers_by_the_numbers_of_the_table() {
    let ring_4 = ring(4);
    // By zeros no step is tight: no walk crosses the link or visits E, and none arrives.
    let zeros = of_kind(&ring_4, "zeros");
    assert_eq!(wrongly(Fault::RowDropped(18), &ring_4, &zeros), pair(3, 3, 1, 1));
    assert_eq!(wrongly(Fault::CauseIgnored(Cause::TableOther), &ring_4, &zeros), pair(3, 3, 1, 1));
    // By unreachable distances no router avoids to another.
    let apart = of_kind(&ring_4, "unreachable but for the diagonal");
    assert_eq!(wrongly(Fault::RowDropped(18), &ring_4, &apart), refused(14, 0));
    // With 9 in the place of D(3,1), which is 2, router 3 has no step to 1, and so
    // crosses no link on its way there.
    let dear = with_cell(&ring_4, 13, 9);
    assert_eq!(wrongly(Fault::RowDropped(18), &ring_4, &dear), pair(3, 3, 1, 1));
    for table in [zeros, apart, dear] {
        assert_eq!(wrongly(Fault::TableIgnored, &ring_4, &table), pair(3, 2, 7, 2));
    }
}

/// The answer to a route about ring 4 that has a cause of each of these rows.
fn in_order(fault: Fault, rows: &[u8]) -> Answer {
    let (question, lent) = with_causes(rows);
    ask(&Context::with(&[fault]), &write(&ring_4_with_prefix()), &question, &lent).answer
}

#[test]
fn the_row_at_another_place() {
    let (row_10, row_11) = (refused(10, 16), refused(11, 8));
    assert_eq!(in_order(Fault::RowsSwapped(10), &[10]), refused(18, 0));
    assert_eq!(in_order(Fault::RowsSwapped(18), &[18, 11]), row_11);
    assert_eq!(in_order(Fault::RowsSwapped(18), &[18, 15]), refused(18, 0));
    assert_eq!(in_order(Fault::TableTriedAfterRanks, &[18, 11]), row_11);
    assert_eq!(in_order(Fault::TableTriedAfterRanks, &[18, 15]), refused(15, 0));
    assert_eq!(in_order(Fault::TableTriedAfterRanks, &[18, 12]), refused(18, 0));
    assert_eq!(in_order(Fault::TableTriedLast, &[18, 12]), refused(12, 4));
    assert_eq!(in_order(Fault::TableTriedLast, &[18, 13]), refused(13, 1));
    assert_eq!(in_order(Fault::TableTriedLast, &[18]), refused(18, 0));
    assert_eq!(in_order(Fault::RouteBufferTriedFirst, &[10, 11]), row_11);
    assert_eq!(in_order(Fault::RouteBufferTriedFirst, &[10, 18]), row_10);
    assert_eq!(in_order(Fault::RowsSwapped(11), &[18, 11, 15]), refused(18, 0));
}

#[test]
fn what_18_returns_and_writes() {
    for number in 0..16 {
        let table = with_cell(&ring(4), number, 9);
        let answer = wrongly(Fault::EighteenReturnsCell, &ring(4), &table);
        assert_eq!(answer, refused(18, number as u32));
    }
    let (question, lent) = with_causes(&[18]);
    let ctx = Context::with(&[Fault::EighteenWritesRoute]);
    let mut longer = lent.clone();
    longer.route.push(99);
    let outcome = ask(&ctx, &write(&ring_4_with_prefix()), &question, &longer);
    assert_eq!(outcome.left.route, [&[0; 8][..], &[99]].concat());
    assert_eq!((outcome.answer, outcome.left.work), (refused(18, 0), lent.work));
}

/// A single call is not the first call and then the second: turned away by 11, 15, 12
/// or 13 it leaves the work area as it was.
#[test]
fn a_single_call_that_fills_first() {
    let network = ring_4_with_prefix();
    let file = write(&network);
    for (row, value) in [(11, 8), (15, 0), (12, 4), (13, 1)] {
        let (question, mut lent) = with_causes(&[row]);
        lent.work = marked(17, 0).work;
        let question = question.single();
        let outcome = |ctx: &Context| ask(ctx, &file, &question, &lent);
        let sound = outcome(&Context::sound());
        assert_eq!(sound, Outcome { answer: refused(row, value), left: lent.clone() });
        let wrong = outcome(&Context::with(&[Fault::FilledBeforeQuestion]));
        assert_eq!(wrong.answer, sound.answer);
        assert_eq!(wrong.left.work, [&RING_4[..], &lent.work[16..]].concat());
    }
}

/// All questions about networks made by hand: each wrong planner answers one of them
/// otherwise, and none but second calls, unless the fault is one of single calls.
#[test]
fn every_wrong_planner_is_noticed_by_hand() {
    let networks = [
        ("ring 4 with prefix", ring_4_with_prefix()),
        ("ring 3 and router 3", ring_3_and_router_3()),
        ("cheap one way", cheap_one_way()),
    ];
    for fault in Fault::OF_TABLES {
        let of_single =
            [Fault::RouteBufferTriedFirst, Fault::FilledBeforeQuestion].contains(&fault);
        let may_show = |question: &Question| of_single || question.table().is_some();
        let by = noticed_by(fault, &networks, &may_show);
        let expected = match fault {
            Fault::TableUnreachableNotCompared => &["ring 3 and router 3"][..],
            Fault::TableByDestination => &["cheap one way"],
            _ => &["ring 4 with prefix", "ring 3 and router 3", "cheap one way"],
        };
        assert_eq!(by, expected, "{}", fault.name());
    }
}
