//! The baseline: the calls of the planner, written for speed. Every call that is
//! given a file reads and checks it, and a call that computes fills the
//! distances, or checks those that it is lent, just as the planner's calls do.

mod avoid;
mod graph;
mod limits;
mod links;
mod prefixes;
mod read;
mod route;
mod rows;
mod search;
mod table;
mod with;
mod write;

use crate::answer::{self, Answer, Network, Refusal, Space, DONE, REFUSED, SET};
use crate::side::Side;
use avoid::{Protected, Target};
use graph::Graph;
use links::Links;
use rows::{arranged, enough_cells, long_enough, named, numbered};
use table::Table;

/// The program that was written for speed.
pub struct Baseline;

/// The distances, which are then in the work area.
fn filled<'a>(graph: &Graph, links: &Links, work: &'a mut [u32]) -> Table<'a> {
    graph.fill(work);
    Table::new(links.routers, work)
}

fn load(file: &[u8], network: &mut Network) -> Result<(), Refusal> {
    let mut links = Links::NONE;
    let prefixes = read::read(file, &mut links)?;
    links.put(network);
    prefixes.put(network);
    Ok(())
}

fn distances(file: &[u8], work: &mut [u32]) -> Result<Answer, Refusal> {
    let mut links = Links::NONE;
    read::read(file, &mut links)?;
    enough_cells(&links, work)?;
    filled(&Graph::of(&links), &links, work);
    Ok(answer::of(DONE))
}

fn space(
    space: Space,
    file: &[u8],
    work: &mut [u32],
    link: usize,
    end: usize,
) -> Result<Answer, Refusal> {
    let mut links = Links::NONE;
    read::read(file, &mut links)?;
    enough_cells(&links, work)?;
    named(&links, link, end)?;
    let table = filled(&Graph::of(&links), &links, work);
    let protected = Protected::of(&links, link, end);
    Ok(answer::with_value(SET, search::space(space, table, &links, &protected)))
}

fn link_repair(
    file: &[u8],
    work: &mut [u32],
    ranks: &[u8],
    link: usize,
    end: usize,
) -> Result<Answer, Refusal> {
    let mut links = Links::NONE;
    read::read(file, &mut links)?;
    enough_cells(&links, work)?;
    let ranks = arranged(ranks)?;
    named(&links, link, end)?;
    let table = filled(&Graph::of(&links), &links, work);
    search::link_repair(&links, table, &ranks, &Protected::of(&links, link, end))
}

fn prefix_repair(
    file: &[u8],
    work: &mut [u32],
    ranks: &[u8],
    (link, end, prefix): (usize, usize, usize),
) -> Result<Answer, Refusal> {
    let mut links = Links::NONE;
    let prefixes = read::read(file, &mut links)?;
    enough_cells(&links, work)?;
    let ranks = arranged(ranks)?;
    named(&links, link, end)?;
    numbered(&prefixes, prefix)?;
    let graph = Graph::of(&links);
    let table = filled(&graph, &links, work);
    let protected = Protected::of(&links, link, end);
    let target = Target::prefix(table, &prefixes, prefix);
    search::repair(&links, &graph, table, &ranks, &protected, &target)
}

fn route(
    file: &[u8],
    work: &mut [u32],
    ranks: &[u8],
    (link, end, prefix): (usize, usize, usize),
    choices: &[u8],
    buffer: &mut [u8],
) -> Result<Answer, Refusal> {
    let mut links = Links::NONE;
    let prefixes = read::read(file, &mut links)?;
    enough_cells(&links, work)?;
    long_enough(&links, buffer)?;
    let ranks = arranged(ranks)?;
    named(&links, link, end)?;
    numbered(&prefixes, prefix)?;
    let graph = Graph::of(&links);
    let table = filled(&graph, &links, work);
    let protected = Protected::of(&links, link, end);
    let target = Target::prefix(table, &prefixes, prefix);
    let answer = search::repair(&links, &graph, table, &ranks, &protected, &target)?;
    Ok(route::play(&graph, table, protected.near, &answer, &target, choices, buffer))
}

/// A refusal as an answer.
fn told(result: Result<Answer, Refusal>) -> Answer {
    result.unwrap_or_else(Answer::from)
}

impl Side for Baseline {
    const NAME: &'static str = "baseline";

    fn load(file: &[u8]) -> Network {
        let mut network = answer::BLANK;
        if let Err(Refusal { number, value }) = load(file, &mut network) {
            return Network { kind: REFUSED, number, value, ..answer::BLANK };
        }
        network
    }

    fn distances(file: &[u8], work: &mut [u32]) -> Answer {
        told(distances(file, work))
    }

    fn space(which: Space, file: &[u8], work: &mut [u32], link: usize, end: usize) -> Answer {
        told(space(which, file, work, link, end))
    }

    fn link_repair(file: &[u8], work: &mut [u32], ranks: &[u8], link: usize, end: usize) -> Answer {
        told(link_repair(file, work, ranks, link, end))
    }

    fn prefix_repair(
        file: &[u8],
        work: &mut [u32],
        ranks: &[u8],
        link: usize,
        end: usize,
        prefix: usize,
    ) -> Answer {
        told(prefix_repair(file, work, ranks, (link, end, prefix)))
    }

    fn route(
        file: &[u8],
        work: &mut [u32],
        ranks: &[u8],
        question: (usize, usize, usize),
        choices: &[u8],
        buffer: &mut [u8],
    ) -> Answer {
        told(route(file, work, ranks, question, choices, buffer))
    }

    fn link_repair_with(
        file: &[u8],
        table: &[u32],
        ranks: &[u8],
        link: usize,
        end: usize,
    ) -> Answer {
        told(with::link_repair(file, table, ranks, link, end))
    }

    fn prefix_repair_with(
        file: &[u8],
        table: &[u32],
        ranks: &[u8],
        link: usize,
        end: usize,
        prefix: usize,
    ) -> Answer {
        told(with::prefix_repair(file, table, ranks, (link, end, prefix)))
    }

    fn route_with(
        file: &[u8],
        table: &[u32],
        ranks: &[u8],
        question: (usize, usize, usize),
        choices: &[u8],
        buffer: &mut [u8],
    ) -> Answer {
        told(with::route(file, table, ranks, question, choices, buffer))
    }

    fn write(network: &Network, buffer: &mut [u8]) -> usize {
        write::write(network, buffer)
    }

    fn drill(seed: u32, routers: usize, buffer: &mut [u8]) -> usize {
        write::drill(seed, routers, buffer)
    }
}
