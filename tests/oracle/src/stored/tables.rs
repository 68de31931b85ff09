//! The section of tables: second calls, and single calls beside them.
//!
//! The call distances fills the first of 4,100 cells, each of them 7 before it. From
//! these cells come the tables that are lent, which have numbers:
//!
//! ```text
//! 0   the first N x N cells
//! 1   the first N x N + 1 cells, of which the last is 7
//! 2   the first N x N - 1 cells
//! 3   the first N x N cells, with 1 added to cell 0
//! 4   the first N x N cells, with 1 added to the last
//! 5   the first N x N cells, with 1 taken from cell 1; only if N is over 1
//! 6   the first N x N cells, with 1 taken from the last but one; only if N is over 1
//! 7   N x N cells with row = destination: in row x and column t what table 0 has in
//!     row t and column x
//! 8   N x N cells of 0
//! 9   N x N cells of 4,294,967,295, but 0 from each router to itself
//! ```
//!
//! All questions but those of `single-rows` are second calls with one of these tables.
//! First come those with table 0, if the file is accepted: the link repairs, and then
//! for each link, end and prefix that is asked about the prefix repair and the route.
//!
//! ```text
//! link-repair LINK END ANSWER                    every link and end
//! prefix-repair LINK END PREFIX ANSWER
//! route LINK END PREFIX ANSWER LATER
//! ```
//!
//! Which links and prefixes are asked about, the route buffer and LATER are as in the
//! section of routes. The choices of every route are string 3 of the batch, the bytes
//! 0, 1, 2 and so on to 127. Of the questions above the link repairs and routes have the
//! ranks 2, 6, 4, 7, 3, 5, 1, 0 and the prefix repairs 6, 0, 4, 2, 3, 5, 7, 1; those
//! below have the ranks 0, 1, 2, 3, 4, 5, 6, 7, unless others are named.
//!
//! Then come for each of the tables from 1 on, if the file is accepted:
//!
//! ```text
//! table TABLE SUM
//! table-route TABLE ANSWER LATER                 link 0, end 0, prefix 0
//! ```
//!
//! SUM is 0 at first. For each link asked about and each of its ends come the link repair
//! and then the repair of each prefix asked about, and each answer makes it 33 * SUM +
//! CODE modulo 2^64. CODE is 1 for unreachable, 2 for untouched, 3 + 2^8 * HOP + 2^16 *
//! ENDPOINT + 2^24 * CLASS + 2^32 * COST for a pair, and 4 + 2^8 * NUMBER + 2^16 * VALUE
//! for a refusal, 14 too.
//!
//! Last come questions that are wrong in several ways. At step 0 the table is table 2,
//! the route buffer has 2 x N - 1 bytes, the ranks are 0, 1, 2, 3, which are too few, the
//! link is L, the end is 0, and the prefix is the first number too large. Each step mends
//! one thing more: at step 1 the table is table 3, at step 2 table 0, at step 3 the route
//! buffer has 128 bytes, at step 4 the ranks are 0, 1, 2, 3, 4, 5, 6, 7, and at step 5 the
//! link is 0. For each of the six steps:
//!
//! ```text
//! link-rows STEP ANSWER
//! prefix-rows STEP ANSWER
//! route-rows STEP ANSWER LATER
//! single-rows STEP ANSWER LATER WORK
//! ```
//!
//! The last is the single call of the route. It takes no table, and its work area has
//! N x N - 1 cells at step 0 and N x N cells from step 1 on, each of them 7 before the
//! call. WORK is `kept` if every cell is 7 still, otherwise `changed`. For a refused file
//! there is step 0 alone; it counts as a file of no router, no link and no prefix, its
//! tables have no cell, nor has the work area, and its route buffer has no byte.
//!
//! An answer is `refused NUMBER VALUE`, `unreachable`, `untouched`, `pair HOP ENDPOINT
//! CLASS COST` or, for a route, `count COUNT route ROUTER ...`.

use super::common::{
    FARTHER_FIRST, TUNNELS_FIRST, answered, code, kept, link_ends, network, played, route_prefixes,
    summed, text,
};
use crate::answer::{Answer, Buffers, Opened, Question};
use crate::batch::{choice_strings, enough};
use crate::distance::UNREACHABLE;
use crate::fault::Context;
use crate::file::MOST_ROUTERS;
use crate::network::Network;
use crate::ranks::{ASCENDING, WRONG};

/// Cells that the tables come from.
const CELLS: usize = 4100;
/// What stands in each cell before a call.
const BEFORE: u32 = 7;

/// The numbers of the tables that questions name.
const RIGHT: usize = 0;
const SHORT: usize = 2;
const CELL_0_UP: usize = 3;

/// The steps of the questions that are wrong in several ways.
const STEPS: usize = 6;

/// A file with what is asked about it.
struct Asked<'a> {
    opened: &'a Opened<'a>,
    network: Network,
    /// The tables that there are, with their numbers.
    tables: Vec<(usize, Vec<u32>)>,
    choices: Vec<u8>,
}

/// What is printed for a file.
pub fn lines(ctx: &Context, file: &[u8]) -> String {
    let opened = &Opened::new(ctx, file);
    let network = network(opened);
    let tables = tables(opened, usize::from(network.routers));
    let asked = Asked { opened, network, tables, choices: choice_strings().swap_remove(3) };
    if asked.network.routers == 0 {
        return text(&asked.at_step(0));
    }
    let mut lines = asked.with_right_table();
    let others = asked.tables.iter().filter(|(number, _)| *number != RIGHT);
    lines.extend(others.flat_map(|(number, cells)| asked.with_table(*number, cells)));
    lines.extend((0..STEPS).flat_map(|step| asked.at_step(step)));
    text(&lines)
}

/// The tables, made from the cells that the call distances leaves. Only a reader with
/// a fault lets a file pass for which the cells are too few; its tables have none.
fn tables(opened: &Opened, routers: usize) -> Vec<(usize, Vec<u32>)> {
    let routers = if routers > MOST_ROUTERS { 0 } else { routers };
    let lent = Buffers { work: vec![BEFORE; CELLS], ..Buffers::default() };
    let cells = opened.ask(&Question::Distances, &lent).left.work;
    let needed = routers * routers;
    let right = &cells[..needed];
    let added = |place: usize, number: u32| {
        let mut table = right.to_vec();
        table.iter_mut().skip(place).take(1).for_each(|cell| *cell = cell.wrapping_add(number));
        table
    };
    let turned = |place: usize| right[place % routers * routers + place / routers];
    let apart = |place: usize| if place % (routers + 1) == 0 { 0 } else { UNREACHABLE };
    let mut tables = vec![
        (RIGHT, right.to_vec()),
        (1, cells[..needed + 1].to_vec()),
        (SHORT, right[..needed.saturating_sub(1)].to_vec()),
        (CELL_0_UP, added(0, 1)),
        (4, added(needed.saturating_sub(1), 1)),
    ];
    if routers > 1 {
        let minus_1 = u32::MAX;
        tables.extend([(5, added(1, minus_1)), (6, added(needed - 2, minus_1))]);
    }
    tables.push((7, (0..needed).map(turned).collect()));
    tables.push((8, vec![0; needed]));
    tables.push((9, (0..needed).map(apart).collect()));
    tables
}

impl Asked<'_> {
    /// One of the tables that every file has.
    fn table(&self, number: usize) -> &[u32] {
        let found = self.tables.iter().find(|(own, _)| *own == number);
        found.map_or(&[], |(_, cells)| cells)
    }

    fn route(&self, link: u64, end: u64, prefix: u64) -> Question {
        Question::route(link, end, prefix, &self.choices)
    }

    /// The lines of table 0.
    fn with_right_table(&self) -> Vec<String> {
        let (lent, right) = (enough(), self.table(RIGHT));
        let mut lines = Vec::new();
        for (link, end) in (0..self.network.links.len() as u64).flat_map(|it| [(it, 0), (it, 1)]) {
            let question = Question::link_repair(link, end).with_ranks(&TUNNELS_FIRST);
            let label = format!("link-repair {link} {end}");
            lines.push(answered(self.opened, &lent, &label, &question.with_table(right)));
        }
        for (link, end) in link_ends(&self.network) {
            for prefix in route_prefixes(&self.network) {
                let question = Question::prefix_repair(link, end, prefix);
                let question = question.with_ranks(&FARTHER_FIRST).with_table(right);
                let label = format!("prefix-repair {link} {end} {prefix}");
                lines.push(answered(self.opened, &lent, &label, &question));
                let question = self.route(link, end, prefix);
                let question = question.with_ranks(&TUNNELS_FIRST).with_table(right);
                let label = format!("route {link} {end} {prefix}");
                lines.push(played(self.opened, &lent, &label, &question));
            }
        }
        lines
    }

    /// The two lines of another table.
    fn with_table(&self, number: usize, cells: &[u32]) -> [String; 2] {
        let lent = enough();
        let repairs = link_ends(&self.network).into_iter().flat_map(|(link, end)| {
            let prefixes = route_prefixes(&self.network).into_iter();
            let of_prefixes =
                prefixes.map(move |prefix| Question::prefix_repair(link, end, prefix));
            [Question::link_repair(link, end)].into_iter().chain(of_prefixes)
        });
        let answer =
            |question: Question| self.opened.ask(&question.with_table(cells), &lent).answer;
        let sum = summed(repairs.map(|question| numbered(&answer(question))));
        let route = self.route(0, 0, 0).with_table(cells);
        let label = format!("table-route {number}");
        [format!("table {number} {sum}"), played(self.opened, &lent, &label, &route)]
    }

    /// The lines of a step.
    fn at_step(&self, step: usize) -> [String; 4] {
        let prefixes = self.network.prefixes.len() as u64;
        let link = if step < 5 { self.network.links.len() as u64 } else { 0 };
        let ranks = if step < 4 { WRONG[1] } else { &ASCENDING };
        let single = [
            Question::link_repair(link, 0),
            Question::prefix_repair(link, 0, prefixes),
            self.route(link, 0, prefixes),
        ];
        let single = single.map(|question| question.with_ranks(ranks));
        let table = self.table([SHORT, CELL_0_UP].get(step).copied().unwrap_or(RIGHT));
        let [link, prefix, route] = single.clone().map(|question| question.with_table(table));
        let (opened, lent) = (self.opened, self.lent_at(step));
        [
            answered(opened, &lent, &format!("link-rows {step}"), &link),
            answered(opened, &lent, &format!("prefix-rows {step}"), &prefix),
            played(opened, &lent, &format!("route-rows {step}"), &route),
            self.single(step, &lent, &single[2]),
        ]
    }

    /// The buffers of a step; only the single call takes the work area.
    fn lent_at(&self, step: usize) -> Buffers {
        let routers = usize::from(self.network.routers);
        let mut lent = enough();
        if step < 3 {
            lent.route.truncate((2 * routers).saturating_sub(1));
        }
        let fewer = usize::from(step == 0);
        lent.work = vec![BEFORE; (routers * routers).saturating_sub(fewer)];
        lent
    }

    /// The line of a route by a single call.
    fn single(&self, step: usize, lent: &Buffers, question: &Question) -> String {
        let line = played(self.opened, lent, &format!("single-rows {step}"), question);
        let work = self.opened.ask(question, lent).left.work;
        format!("{line} {}", kept(work == lent.work))
    }
}

/// An answer as a number, a refusal by its number and its value.
fn numbered(answer: &Answer) -> u64 {
    match answer {
        Answer::Refused { number, value } => {
            4 + 0x100 * u64::from(*number) + 0x1_0000 * u64::from(*value)
        }
        _ => code(answer),
    }
}
