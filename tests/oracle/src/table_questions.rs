//! Second calls to ask about an accepted file, each with the buffers lent to it.
//!
//! A second call takes no work area; one of three cells is lent all the same, so that
//! a call that writes into it is noticed.

use crate::answer::{Buffers, Question};
use crate::corpus::marked;
use crate::network::Network;
use crate::ranks::{ASCENDING, WRONG};
use crate::table::{self, NamedTable};

/// A question and the buffers lent to it.
pub type Asked = (Question, Buffers);

/// Up to so many routers every kind of table is asked with.
const EVERY_KIND: u8 = 16;
/// The kinds that are asked with on larger networks.
const SOME_KINDS: [&str; 4] =
    ["other cells after it", "one cell short", "row = destination", "cell 1 unreachable"];
/// Up to so many routers each cell is asked with one more and one less.
const EVERY_CELL: u8 = 4;

/// Of the single calls that were asked, one in so many is put as a second call too.
const ONE_IN: usize = 16;
/// And at most so many of them.
const MOST: usize = 40;

/// Second calls of every kind about an accepted file. The single calls are those that
/// are asked about it already.
pub fn questions(network: &Network, single: &[Asked]) -> Vec<Asked> {
    let right = table::right(network);
    let mut second = with_right_table(&right, single);
    second.extend(with_every_table(network, &right));
    second.extend(with_one_cell_off(network));
    let lent = lent(network);
    let mut asked: Vec<Asked> = second.into_iter().map(|each| (each, lent.clone())).collect();
    asked.extend(rows_in_order(network, &right));
    asked
}

/// The three calls about link 0, end 0 and prefix 0.
pub fn calls() -> [Question; 3] {
    let route = Question::route(0, 0, 0, &[1, 2, 3, 4]);
    [Question::link_repair(0, 0), Question::prefix_repair(0, 0, 0), route]
}

/// Some of the single calls as second calls, by turns with the right table and with
/// another cell after it.
fn with_right_table(right: &[u32], single: &[Asked]) -> Vec<Question> {
    let longer = [right, &[7]].concat();
    let by_turns = [right, &longer].into_iter().cycle();
    let split = single.iter().map(|(question, _)| question).filter(|each| each.ranks().is_some());
    let second = split.step_by(ONE_IN).take(MOST).zip(by_turns);
    second.map(|(question, cells)| question.clone().with_table(cells)).collect()
}

/// Each of the three calls with a table of each kind.
fn with_every_table(network: &Network, right: &[u32]) -> Vec<Question> {
    let mut tables = table::made_from(network.routers, right);
    if network.routers <= EVERY_KIND {
        tables = table::tables(network);
    } else {
        tables.retain(|table| SOME_KINDS.contains(&table.name.as_str()));
    }
    let with = |table: NamedTable| calls().map(|question| question.with_table(&table.cells));
    tables.into_iter().flat_map(with).collect()
}

/// The three calls by turns, each with a table in which one cell is one off.
fn with_one_cell_off(network: &Network) -> Vec<Question> {
    if network.routers > EVERY_CELL {
        return Vec::new();
    }
    let tables = table::one_cell_off(network).into_iter().zip(calls().into_iter().cycle());
    tables.map(|(table, question)| question.with_table(&table.cells)).collect()
}

/// For every mixture of causes of the rows 10, 18, 11, 15, 12 and 13 a question that has
/// these, as far as the call takes the input.
fn rows_in_order(network: &Network, right: &[u32]) -> Vec<Asked> {
    let (links, prefixes) = (network.links.len() as u64, network.prefixes.len() as u64);
    let mut other = right.to_vec();
    other[0] = 1;
    let mut asked = Vec::new();
    for cells in [&right[..right.len() - 1], &other, right] {
        for ranks in [&ASCENDING[..], WRONG[5]] {
            for (link, prefix) in [(0, 0), (0, prefixes), (links, 0), (links, prefixes)] {
                let calls = calls_in_order(network, link, prefix).into_iter();
                let second = |question: Question| question.with_ranks(ranks).with_table(cells);
                asked.extend(calls.map(|(question, lent)| (second(question), lent)));
            }
        }
    }
    asked
}

/// The three calls, the route with a buffer that is enough and with one that is not.
fn calls_in_order(network: &Network, link: u64, prefix: u64) -> [Asked; 4] {
    let route = Question::route(link, 0, prefix, &[5, 6, 7]);
    let enough = lent(network);
    let mut short = enough.clone();
    short.route.pop();
    [
        (Question::link_repair(link, 0), enough.clone()),
        (Question::prefix_repair(link, 0, prefix), enough.clone()),
        (route.clone(), enough),
        (route, short),
    ]
}

/// A route buffer that is enough, and a few cells that no second call takes.
fn lent(network: &Network) -> Buffers {
    marked(3, 2 * usize::from(network.routers))
}
