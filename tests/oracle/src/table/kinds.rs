//! Tables to ask second calls with, by name: the right one, and many that are not the
//! file's.

use crate::answer::load;
use crate::distance::{Distances, UNREACHABLE};
use crate::fault::Context;
use crate::network::{Hops, Link, Network};
use crate::random::Random;

/// The cells of a table, and what is wrong with it.
#[derive(Clone, Debug, PartialEq, Eq)]
pub struct NamedTable {
    pub name: String,
    pub cells: Vec<u32>,
}

impl NamedTable {
    fn new(name: &str, cells: Vec<u32>) -> NamedTable {
        NamedTable { name: name.to_string(), cells }
    }
}

/// The N x N distances of a network.
pub fn right(network: &Network) -> Vec<u32> {
    let ctx = Context::sound();
    Distances::over(&ctx, &Hops::of(&ctx, network)).cells(&ctx)
}

/// The distances of an accepted file; of a refused file, no cell.
pub fn right_of_file(file: &[u8]) -> Vec<u32> {
    load(&Context::sound(), file).map_or(Vec::new(), |network| right(&network))
}

/// A table of every kind for an accepted network, but for those of `one_cell_off`. On
/// some networks a wrong kind has the right numbers all the same: the table with row =
/// destination where costs are the same both ways, and that of a changed cost where no
/// shortest path uses the link.
pub fn tables(network: &Network) -> Vec<NamedTable> {
    let mut tables = made_from(network.routers, &right(network));
    tables.push(NamedTable::new("of a line", right(&line(network.routers))));
    tables.push(NamedTable::new("of a longer line", right(&line(network.routers + 1))));
    tables.extend(of_changed_costs(network));
    tables
}

/// The tables among them that are made from the cells of the right one.
pub fn made_from(routers: u8, right: &[u32]) -> Vec<NamedTable> {
    let routers = usize::from(routers);
    let mut tables = vec![
        NamedTable::new("right", right.to_vec()),
        NamedTable::new("zeros after it", [right, &[0, 0]].concat()),
        NamedTable::new("other cells after it", [right, &[0xdead_beef, 0, 7]].concat()),
        NamedTable::new("one cell short", right[..right.len() - 1].to_vec()),
        NamedTable::new("empty", Vec::new()),
        NamedTable::new("row = destination", transposed(routers, right)),
        NamedTable::new("zeros", vec![0; right.len()]),
        NamedTable::new("unreachable", vec![UNREACHABLE; right.len()]),
        NamedTable::new("unreachable but for the diagonal", only_diagonal(routers)),
        NamedTable::new("one more to router 0", one_more_to_router_0(routers, right)),
    ];
    tables.extend(large_cells(right));
    tables
}

/// The right table with one of its cells one more or one less, for each cell. The
/// unreachable distance has no number above it, and 0 none below.
pub fn one_cell_off(network: &Network) -> Vec<NamedTable> {
    let right = right(network);
    let mut tables = Vec::new();
    for (number, cell) in right.iter().enumerate() {
        let up = cell.checked_add(1).map(|more| (format!("cell {number} up"), more));
        let down = cell.checked_sub(1).map(|less| (format!("cell {number} down"), less));
        for (name, other) in up.into_iter().chain(down) {
            tables.push(NamedTable::new(&name, with_cell(&right, number, other)));
        }
    }
    tables
}

/// The right table with one to three of its cells replaced at random, by numbers near
/// them or by any; so it may be the right one still.
pub fn changed(network: &Network, random: &mut Random) -> Vec<u32> {
    let mut cells = right(network);
    for _ in 0..random.between(1, 3) {
        let place = random.below(cells.len());
        let other = cells[random.below(cells.len())];
        let near = cells[place].saturating_add(random.below(5) as u32).saturating_sub(2);
        let any = random.any() as u32;
        cells[place] = random.pick(&[other, near, near, any, 0, UNREACHABLE]);
    }
    cells
}

fn with_cell(cells: &[u32], number: usize, other: u32) -> Vec<u32> {
    let mut cells = cells.to_vec();
    cells[number] = other;
    cells
}

fn transposed(routers: usize, cells: &[u32]) -> Vec<u32> {
    (0..cells.len()).map(|place| cells[place % routers * routers + place / routers]).collect()
}

fn only_diagonal(routers: usize) -> Vec<u32> {
    let cell = |place: usize| if place % (routers + 1) == 0 { 0 } else { UNREACHABLE };
    (0..routers * routers).map(cell).collect()
}

/// One is added to each distance to router 0, its own too. So every cell still fits the
/// cells one hop on, and only the diagonal tells.
fn one_more_to_router_0(routers: usize, cells: &[u32]) -> Vec<u32> {
    let more = |(place, cell): (usize, &u32)| {
        if place % routers == 0 { cell.saturating_add(1) } else { *cell }
    };
    cells.iter().enumerate().map(more).collect()
}

/// Routers in a row, at other costs in one direction than in the other.
fn line(routers: u8) -> Network {
    let joined = |network: Network, router| network.link(router - 1, router, 3, 5);
    (1..routers).fold(Network::of_routers(routers), joined)
}

/// The tables of the same network with one cost raised or lowered.
fn of_changed_costs(network: &Network) -> Vec<NamedTable> {
    let Some(last) = network.links.len().checked_sub(1) else {
        return Vec::new();
    };
    let table = |name: &str, number: usize, change: &dyn Fn(&mut Link)| {
        let mut other = network.clone();
        change(&mut other.links[number]);
        NamedTable::new(name, right(&other))
    };
    vec![
        table("link 0 dearer from a to b", 0, &|link| link.forth = u16::MAX),
        table("link 0 cheaper from b to a", 0, &|link| link.back = link.back.div_ceil(2)),
        table("last link cheaper from a to b", last, &|link| link.forth = 1),
        table("last link dearer from b to a", last, &|link| link.back = u16::MAX),
    ]
}

/// The right table with a number at the top of 32 bits in the place of D(0,1), if there
/// are two routers: a sum with it goes beyond 32 bits.
fn large_cells(right: &[u32]) -> Vec<NamedTable> {
    if right.len() < 2 {
        return Vec::new();
    }
    let large = [("cell 1 unreachable", UNREACHABLE), ("cell 1 just below", UNREACHABLE - 1)];
    large.map(|(name, cell)| NamedTable::new(name, with_cell(right, 1, cell))).to_vec()
}
