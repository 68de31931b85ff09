//! The calls that are lent a table of distances, which they check and do not fill.

use super::avoid::{Protected, Target};
use super::graph::Graph;
use super::links::Links;
use super::route::play;
use super::rows::{arranged, enough_cells, long_enough, named, numbered, right_table};
use super::table::Table;
use super::{read, search};
use crate::answer::{Answer, Refusal};

/// Rows 10 and 18, and the distances.
fn checked<'a>(links: &Links, lent: &'a [u32]) -> Result<Table<'a>, Refusal> {
    enough_cells(links, lent)?;
    let table = Table::new(links.routers, lent);
    right_table(table, links)?;
    Ok(table)
}

pub fn link_repair(
    file: &[u8],
    lent: &[u32],
    ranks: &[u8],
    link: usize,
    end: usize,
) -> Result<Answer, Refusal> {
    let mut links = Links::NONE;
    read::read(file, &mut links)?;
    let table = checked(&links, lent)?;
    let ranks = arranged(ranks)?;
    named(&links, link, end)?;
    search::link_repair(&links, table, &ranks, &Protected::of(&links, link, end))
}

pub fn prefix_repair(
    file: &[u8],
    lent: &[u32],
    ranks: &[u8],
    (link, end, prefix): (usize, usize, usize),
) -> Result<Answer, Refusal> {
    let mut links = Links::NONE;
    let prefixes = read::read(file, &mut links)?;
    let table = checked(&links, lent)?;
    let ranks = arranged(ranks)?;
    named(&links, link, end)?;
    numbered(&prefixes, prefix)?;
    let protected = Protected::of(&links, link, end);
    let target = Target::prefix(table, &prefixes, prefix);
    search::repair(&links, &Graph::of(&links), table, &ranks, &protected, &target)
}

pub fn route(
    file: &[u8],
    lent: &[u32],
    ranks: &[u8],
    (link, end, prefix): (usize, usize, usize),
    choices: &[u8],
    buffer: &mut [u8],
) -> Result<Answer, Refusal> {
    let mut links = Links::NONE;
    let prefixes = read::read(file, &mut links)?;
    let table = checked(&links, lent)?;
    long_enough(&links, buffer)?;
    let ranks = arranged(ranks)?;
    named(&links, link, end)?;
    numbered(&prefixes, prefix)?;
    let graph = Graph::of(&links);
    let protected = Protected::of(&links, link, end);
    let target = Target::prefix(table, &prefixes, prefix);
    let answer = search::repair(&links, &graph, table, &ranks, &protected, &target)?;
    Ok(play(&graph, table, protected.near, &answer, &target, choices, buffer))
}
