//! Second calls: they take the file, a table of distances and a question. A table whose
//! first N x N cells are not the file's distances is refused as 18, after 10 and before
//! 11, and writes nothing. With the right table a second call answers as the single call
//! does.

use crate::common::{pair, random_networks, refused};
use oracle::answer::{
    Answer, Buffers, Opened, Outcome, Question, ask, link_repair_by_table, prefix_repair_by_table,
    route_by_table,
};
use oracle::corpus::{marked, valid_questions};
use oracle::fault::Context;
use oracle::file::write;
use oracle::network::Network;
use oracle::random::Random;
use oracle::ranks::{ASCENDING, WRONG};
use oracle::table::{changed, one_cell_off, right, tables};
use oracle::table_questions::calls;
use oracle::worked::*;
use std::collections::BTreeMap;

/// The unreachable distance.
const FAR: u32 = u32::MAX;

/// The distances of ring 4.
pub const RING_4: [u32; 16] = [0, 1, 2, 1, 1, 0, 1, 2, 2, 1, 0, 1, 1, 2, 1, 0];

/// Ring 3 and router 3 alone. Prefix 0 is at 1, prefix 1 at 3.
pub fn ring_3_and_router_3() -> Network {
    let network = Network { routers: 4, ..ring(3) };
    network.prefix(&[(1, 0)]).prefix(&[(3, 0)])
}

/// The distances of ring 3 and router 3 alone.
const APART: [u32; 16] = [0, 1, 1, FAR, 1, 0, 1, FAR, 1, 1, 0, FAR, FAR, FAR, FAR, 0];

/// A ring of three routers that is cheap one way round, with a prefix at 0.
pub fn cheap_one_way() -> Network {
    let network = Network::of_routers(3).link(0, 1, 1, 4).link(1, 2, 2, 5).link(2, 0, 3, 6);
    network.prefix(&[(0, 0)])
}

/// Its distances: from 0 to 2 over 1, from 2 to 1 over 0.
const ONE_WAY: [u32; 9] = [0, 1, 3, 4, 0, 2, 3, 4, 0];

/// A second call about a network, with a route buffer that is enough.
fn second(network: &Network, table: &[u32], question: Question) -> Outcome {
    let lent = marked(3, 2 * usize::from(network.routers));
    ask(&Context::sound(), &write(network), &question.with_table(table), &lent)
}

/// A second call that is refused as 18 and leaves all that was lent.
fn is_18(network: &Network, table: &[u32], question: Question) {
    let outcome = second(network, table, question);
    assert_eq!(outcome.answer, refused(18, 0), "{table:?}");
    assert_eq!(outcome.left, marked(3, 2 * usize::from(network.routers)));
}

#[test]
fn ring_4_by_its_table() {
    let network = ring_4_with_prefix();
    let [link, prefix, route] = calls();
    assert_eq!(second(&network, &RING_4, link).answer, pair(3, 2, 7, 2));
    assert_eq!(second(&network, &RING_4, prefix).answer, pair(3, 3, 1, 1));
    let lent = marked(3, 8);
    let outcome = second(&network, &RING_4, route);
    assert_eq!(outcome.answer, Answer::Count(3));
    assert_eq!(outcome.left.route, [&[0, 3, 2], &lent.route[3..]].concat());
    // A second call takes no work area.
    assert_eq!(outcome.left.work, lent.work);
    // The prefix of link 1, end 1 is untouched, and then the route buffer is left.
    let outcome = second(&network, &RING_4, Question::route(1, 1, 0, &[]));
    assert_eq!((outcome.answer, outcome.left), (Answer::Untouched, lent));
}

/// The three second calls by their names answer as the questions do.
#[test]
fn the_calls_by_name() {
    let (ctx, file) = (Context::sound(), write(&ring_4_with_prefix()));
    let tunnels_first = [4, 5, 0, 1, 6, 7, 2, 3];
    let outcome = link_repair_by_table(&ctx, &file, &RING_4, &tunnels_first, 0, 0);
    assert_eq!(outcome.answer, pair(3, 2, 7, 2));
    let outcome = prefix_repair_by_table(&ctx, &file, &RING_4, &tunnels_first, (0, 0, 0));
    assert_eq!(outcome.answer, pair(3, 2, 2, 2));
    let played =
        |bytes: &[u8]| route_by_table(&ctx, &file, &RING_4, bytes, &tunnels_first, (0, 0, 0), &[]);
    let outcome = played(&[9; 8]);
    assert_eq!(outcome.answer, Answer::Count(3));
    assert_eq!(outcome.left.route, [0, 3, 2, 9, 9, 9, 9, 9]);
    assert_eq!(played(&[9; 7]).answer, refused(11, 8));
}

#[test]
fn each_cell_of_ring_4_counts_and_no_later_one() {
    let network = ring_4_with_prefix();
    for question in calls() {
        for number in 0..16 {
            for other in [RING_4[number] + 1, RING_4[number] + 65_536, FAR, 7] {
                let mut table = RING_4;
                table[number] = other;
                is_18(&network, &table, question.clone());
            }
        }
        let sound = second(&network, &RING_4, question.clone());
        for later in [vec![0], vec![1], vec![FAR; 3], vec![7; 4080]] {
            let longer = [&RING_4[..], &later].concat();
            assert_eq!(second(&network, &longer, question.clone()), sound);
        }
        for cells in 0..16 {
            let outcome = second(&network, &RING_4[..cells], question.clone());
            assert_eq!(outcome.answer, refused(10, 16));
            assert_eq!(outcome.left, marked(3, 8));
        }
    }
}

#[test]
fn a_network_in_two_parts_by_its_table() {
    let network = ring_3_and_router_3();
    assert_eq!(right(&network), APART);
    let [link, prefix, _] = calls();
    assert_eq!(second(&network, &APART, link.clone()).answer, pair(2, 2, 5, 1));
    assert_eq!(second(&network, &APART, prefix).answer, pair(2, 2, 5, 1));
    for question in [Question::prefix_repair(0, 0, 1), Question::route(0, 0, 1, &[])] {
        let outcome = second(&network, &APART, question);
        assert_eq!((outcome.answer, outcome.left), (Answer::Unreachable, marked(3, 8)));
    }
    // The unreachable distance is one number, and no other stands for it.
    for number in [3, 7, 11, 12, 13, 14] {
        for other in [FAR - 1, 0, 1, 4_194_240, 1 << 31] {
            let mut table = APART;
            table[number] = other;
            is_18(&network, &table, link.clone());
        }
    }
}

#[test]
fn a_network_with_two_costs_by_its_table() {
    let network = cheap_one_way();
    assert_eq!(right(&network), ONE_WAY);
    // S is 1 and E is 0. Router 2 goes to 0 at 3, and 1 did at 4.
    let link = Question::link_repair(0, 1);
    let outcome = second(&network, &ONE_WAY, link.clone());
    assert_eq!(outcome.answer, pair(2, 2, 4, 2));
    let outcome = second(&network, &ONE_WAY, Question::route(0, 1, 0, &[]));
    assert_eq!(outcome.answer, Answer::Count(3));
    assert_eq!(outcome.left.route[..3], [1, 2, 0]);
    // With row = destination, and with the costs of the links as they stand.
    is_18(&network, &[0, 4, 3, 1, 0, 4, 3, 2, 0], link.clone());
    is_18(&network, &[0, 1, 6, 4, 0, 2, 3, 5, 0], link);
}

#[test]
fn one_router_alone_by_its_table() {
    let network = lone_router();
    for question in calls() {
        assert_eq!(second(&network, &[], question.clone()).answer, refused(10, 1));
        assert_eq!(second(&network, &[0], question.clone()).answer, refused(12, 0));
        assert_eq!(second(&network, &[0, 1], question.clone()).answer, refused(12, 0));
        is_18(&network, &[1], question.clone());
        is_18(&network, &[FAR, 0], question);
    }
}

/// The rows that a route by a table can have a cause of, in their order, with what each
/// answers on ring 4 with its prefix.
const ROWS: [(u8, u32); 6] = [(10, 16), (18, 0), (11, 8), (15, 0), (12, 4), (13, 1)];

/// A route about ring 4 that has a cause of each of these rows and of no other, and the
/// buffers that are lent to it. A short table is not the file's either.
pub fn with_causes(rows: &[u8]) -> (Question, Buffers) {
    let has = |row| rows.contains(&row);
    let mut table = RING_4.to_vec();
    if has(18) {
        table[6] = 9;
    }
    table.truncate(if has(10) { 15 } else { 16 });
    let ranks = if has(15) { WRONG[5] } else { &ASCENDING };
    let (link, prefix) = (if has(12) { 4 } else { 0 }, u64::from(has(13)));
    let question = Question::route(link, 0, prefix, &[]).with_ranks(ranks).with_table(&table);
    (question, marked(3, if has(11) { 7 } else { 8 }))
}

#[test]
fn of_two_causes_the_first_row_decides() {
    let file = write(&ring_4_with_prefix());
    for (place, (first, value)) in ROWS.iter().enumerate() {
        for (second, _) in &ROWS[place..] {
            let (question, lent) = with_causes(&[*first, *second]);
            let outcome = ask(&Context::sound(), &file, &question, &lent);
            assert_eq!(outcome.answer, refused(*first, *value), "{first} and {second}");
            assert_eq!(outcome.left, lent);
        }
    }
}

#[test]
fn of_all_mixtures_of_causes_the_first_row_decides() {
    let file = write(&ring_4_with_prefix());
    for mixture in 1..1 << ROWS.len() {
        let has = |place: &usize| mixture >> place & 1 == 1;
        let rows: Vec<(u8, u32)> = (0..ROWS.len()).filter(has).map(|place| ROWS[place]).collect();
        let numbers: Vec<u8> = rows.iter().map(|(number, _)| *number).collect();
        let (question, lent) = with_causes(&numbers);
        let outcome = ask(&Context::sound(), &file, &question, &lent);
        assert_eq!(outcome, Outcome { answer: refused(rows[0].0, rows[0].1), left: lent });
    }
    let (question, lent) = with_causes(&[]);
    assert_eq!(ask(&Context::sound(), &file, &question, &lent).answer, Answer::Count(3));
}

#[test]
fn fourteen_is_tried_last() {
    // No pair serves, and one of the other inputs is wrong as well.
    let network = two_routers().prefix(&[(1, 0)]);
    let (right, wrong) = ([0, 1, 1, 0], [0, 1, 2, 0]);
    for question in calls() {
        let outcome = second(&network, &right, question.clone());
        assert_eq!((outcome.answer, outcome.left), (refused(14, 0), marked(3, 4)));
        is_18(&network, &wrong, question.clone());
        let outcome = second(&network, &right, question.with_ranks(WRONG[0]));
        assert_eq!(outcome.answer, refused(15, 0));
    }
    let outcome = second(&network, &right, Question::route(0, 0, 1, &[]));
    assert_eq!(outcome.answer, refused(13, 1));
}

#[test]
fn the_rows_of_the_file_come_first() {
    let mut file = write(&ring_4_with_prefix());
    file[0] = 9;
    for rows in [&[][..], &[10], &[18], &[10, 18, 11, 15, 12, 13]] {
        let (question, lent) = with_causes(rows);
        let outcome = ask(&Context::sound(), &file, &question, &lent);
        assert_eq!(outcome, Outcome { answer: refused(2, 0), left: lent });
    }
}

/// The calls that fill a table: the first call, and any single call that computes.
fn fillings(opened: &Opened, network: &Network, lent: &Buffers) -> Vec<Vec<u32>> {
    let mut calls = vec![Question::Distances];
    if !network.links.is_empty() {
        calls.push(Question::link_repair(0, 0));
    }
    calls.iter().map(|question| opened.ask(question, lent).left.work).collect()
}

/// With a right table, whoever filled it, a second call answers as the single call, and
/// leaves the route buffer as that does. The single call leaves the distances in the
/// work area, the second leaves the work area as it was.
#[test]
fn a_right_table_gives_the_answer_of_the_single_call() {
    let ctx = Context::sound();
    let mut met: BTreeMap<String, usize> = BTreeMap::new();
    for network in random_networks(12, 9, 171) {
        let (routers, file) = (usize::from(network.routers), write(&network));
        let opened = Opened::new(&ctx, &file);
        let lent = marked(routers * routers + 2, 2 * routers + 2);
        let tables = fillings(&opened, &network, &lent);
        for question in valid_questions(&network, &mut Random::new(172)) {
            if question.ranks().is_none() {
                continue;
            }
            let single = opened.ask(&question, &lent);
            assert_eq!(single.left.work, tables[0]);
            for table in &tables {
                let outcome = opened.ask(&question.clone().with_table(table), &lent);
                assert_eq!(outcome.answer, single.answer, "{question:?}");
                assert_eq!(outcome.left.route, single.left.route);
                assert_eq!(outcome.left.work, lent.work);
            }
            *met.entry(kind(&question, &single.answer)).or_default() += 1;
        }
    }
    println!("{met:?}");
    assert!(met.len() == 10 && met.values().all(|times| *times > 100), "{met:?}");
}

/// The call and the kind of its answer.
fn kind(question: &Question, answer: &Answer) -> String {
    let call = match question {
        Question::LinkRepair { .. } => "link repair",
        Question::PrefixRepair { .. } => "prefix repair",
        _ => "route",
    };
    let answer = match answer {
        Answer::Refused { number, .. } => number.to_string(),
        Answer::Unreachable => "unreachable".to_string(),
        Answer::Untouched => "untouched".to_string(),
        _ => "repaired".to_string(),
    };
    format!("{call}: {answer}")
}

/// What the single call refuses, the second call refuses alike, where nothing is wrong
/// with the table. A single call that is turned away leaves the work area alone: it is
/// not the first call and then the second.
#[test]
fn a_right_table_gives_the_refusal_of_the_single_call() {
    let (ctx, file) = (Context::sound(), write(&ring_4_with_prefix()));
    for mixture in 0..16 {
        let rows = [11, 15, 12, 13].into_iter().enumerate();
        let rows: Vec<u8> =
            rows.filter(|(place, _)| mixture >> place & 1 == 1).map(|(_, row)| row).collect();
        let (question, mut lent) = with_causes(&rows);
        lent.work = marked(17, 0).work;
        let by_table = ask(&ctx, &file, &question, &lent);
        let single = ask(&ctx, &file, &question.single(), &lent);
        assert_eq!(by_table.answer, single.answer, "{rows:?}");
        assert_eq!(by_table.left.route, single.left.route);
        assert_eq!(single.left.work == lent.work, !rows.is_empty(), "{rows:?}");
    }
}

/// Tables of every kind, with one cell off, and changed at random.
pub fn many_tables(network: &Network, random: &mut Random) -> Vec<Vec<u32>> {
    let named = [tables(network), one_cell_off(network)].concat();
    let at_random = (0..40).map(|_| changed(network, random));
    named.into_iter().map(|table| table.cells).chain(at_random).collect()
}

/// How many tables were right, not the file's, and short.
#[derive(Debug, Default)]
struct Judged {
    right: usize,
    other: usize,
    short: usize,
}

/// Every table is taken exactly when its first N x N cells are the distances.
#[test]
fn every_table_is_judged_by_its_cells() {
    let mut random = Random::new(173);
    let mut judged = Judged::default();
    let ctx = Context::sound();
    for network in random_networks(6, 7, 174) {
        let (right, file) = (right(&network), write(&network));
        let opened = Opened::new(&ctx, &file);
        let lent = marked(right.len(), 2 * usize::from(network.routers));
        let calls = calls();
        for (cells, question) in many_tables(&network, &mut random).iter().zip(calls.iter().cycle())
        {
            let outcome = opened.ask(&question.clone().with_table(cells), &lent);
            let (expected, count) = if cells.len() < right.len() {
                (refused(10, right.len() as u32), &mut judged.short)
            } else if cells[..right.len()] != right {
                (refused(18, 0), &mut judged.other)
            } else {
                (opened.ask(question, &lent).answer, &mut judged.right)
            };
            *count += 1;
            assert_eq!(outcome.answer, expected, "{cells:?}");
            if matches!(expected, Answer::Refused { .. }) {
                assert_eq!(outcome.left, lent);
            }
        }
    }
    println!("{judged:?}");
    assert!(judged.right > 300 && judged.other > 4000 && judged.short > 200);
}

#[test]
fn tables_are_of_every_kind() {
    let named = |network: &Network, name: &str| {
        let found = tables(network).into_iter().find(|table| table.name == name);
        found.unwrap_or_else(|| panic!("no table {name}")).cells
    };
    let network = cheap_one_way();
    assert_eq!(named(&network, "right"), ONE_WAY);
    assert_eq!(named(&network, "zeros after it"), [&ONE_WAY[..], &[0, 0]].concat());
    assert_eq!(named(&network, "one cell short"), ONE_WAY[..8]);
    assert_eq!(named(&network, "row = destination"), [0, 4, 3, 1, 0, 4, 3, 2, 0]);
    assert_eq!(named(&network, "one more to router 0"), [1, 1, 3, 5, 0, 2, 4, 4, 0]);
    let apart = [0, FAR, FAR, FAR, 0, FAR, FAR, FAR, 0];
    assert_eq!(named(&network, "unreachable but for the diagonal"), apart);
    // From 0 to 1 by way of 2, at 6 + 5.
    assert_eq!(named(&network, "link 0 dearer from a to b"), [0, 11, 6, 4, 0, 2, 3, 5, 0]);
    assert_eq!(named(&network, "link 0 cheaper from b to a"), [0, 1, 3, 2, 0, 2, 3, 4, 0]);
    assert_eq!(named(&network, "last link cheaper from a to b"), [0, 1, 3, 3, 0, 2, 1, 2, 0]);
    assert_eq!(named(&network, "of a line"), [0, 3, 6, 5, 0, 3, 10, 5, 0]);
    assert_eq!(named(&network, "cell 1 unreachable"), [0, FAR, 3, 4, 0, 2, 3, 4, 0]);
    assert_eq!(named(&ring(4), "of a longer line").len(), 25);
    // Every cell up, and every cell but the zeros down.
    assert_eq!(one_cell_off(&network).len(), 9 + 6);
    assert_eq!(one_cell_off(&ring_3_and_router_3()).len(), 10 + 12);
    // A network without a link has no changed cost, and one router alone no cell 1.
    assert_eq!(tables(&lone_router()).len() + 6, tables(&network).len());
}
