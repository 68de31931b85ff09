//! The protected link, targets, the routers that avoid the link on the way to a
//! target, and those that may visit its far router: by the distance test, and towards
//! a prefix by following steps.
//!
//! A link leads both ways, so S, E and every first hop reach the same routers.
//! Of these all distances are finite and small, so that no sum goes beyond 32
//! bits. To a router out of reach the own distance is the largest number,
//! which is below no sum, whether that wraps round or not.

use super::graph::Graph;
use super::links::Links;
use super::prefixes::Prefixes;
use super::table::Table;
use crate::answer::NO_PATH;

/// The protected link, seen from the end that the question names.
pub struct Protected {
    pub near: usize,
    pub far: usize,
    pub out: u32,
    back: u32,
}

impl Protected {
    pub fn of(links: &Links, link: usize, end: usize) -> Protected {
        let both = links.both(link);
        let (out, back) = (both[end], both[1 - end]);
        Protected { near: out.from, far: out.to, out: out.cost, back: back.cost }
    }
}

/// What a repair leads to: the distance to it from each router, and, of a
/// prefix, the attached routers, at which every walk ends.
pub struct Target {
    pub to: [u32; 64],
    pub attached: u64,
}

impl Target {
    /// A router.
    pub fn router(table: Table, router: usize) -> Target {
        let mut to = [NO_PATH; 64];
        for (cell, row) in to.iter_mut().zip(table.rows()) {
            *cell = row[router];
        }
        Target { to, attached: 0 }
    }

    /// A prefix.
    pub fn prefix(table: Table, prefixes: &Prefixes, prefix: usize) -> Target {
        let mut target = Target { to: [NO_PATH; 64], attached: 0 };
        for (router, cost) in prefixes.attachments(prefix) {
            target.attached |= 1 << router;
            for (cell, row) in target.to.iter_mut().zip(table.rows()) {
                *cell = row[router].saturating_add(cost).min(*cell);
            }
        }
        target
    }
}

/// The set of the numbers, below 64, of the tests that hold. The flags of the tests are
/// bytes first, which the compiler finds many at once of; a product puts eight of them
/// side by side.
#[inline]
pub fn set_where(tests: impl Iterator<Item = bool>) -> u64 {
    let mut flags = [0u8; 64];
    flags.iter_mut().zip(tests).for_each(|(flag, test)| *flag = u8::from(test));
    let eight = |flags: &[u8]| u64::from_le_bytes(flags.try_into().expect("eight bytes"));
    let bits = |flags: u64| flags.wrapping_mul(0x0102_0408_1020_4080) >> 56;
    flags.chunks_exact(8).rev().fold(0, |set, flags| set << 8 | bits(eight(flags)))
}

/// The routers that x avoids the link on the way to.
pub fn avoiding_from(table: Table, link: &Protected, x: usize) -> u64 {
    let own = table.row(x);
    let over = own[link.near].wrapping_add(link.out);
    let under = own[link.far].wrapping_add(link.back);
    let cells = own.iter().zip(table.row(link.near)).zip(table.row(link.far));
    set_where(cells.map(|((own, near), far)| {
        (*own < over.wrapping_add(*far)) & (*own < under.wrapping_add(*near))
    }))
}

/// The routers on the way to which some walk from x visits the far router.
pub fn visiting_from(table: Table, link: &Protected, x: usize) -> u64 {
    let own = table.row(x);
    let over = own[link.far];
    let cells = own.iter().zip(table.row(link.far));
    set_where(cells.map(|(own, far)| over.wrapping_add(*far) == *own))
}

/// The routers that avoid the link on the way to a target. A router that
/// cannot reach S may be wrong in the set; no first hop avoids to it.
pub fn avoiding_to(table: Table, link: &Protected, to: &[u32; 64]) -> u64 {
    let over = link.out.wrapping_add(to[link.far & 63]);
    let under = link.back.wrapping_add(to[link.near & 63]);
    set_where(table.rows().zip(to).map(|(row, own)| {
        (*own < row[link.near].wrapping_add(over)) & (*own < row[link.far].wrapping_add(under))
    }))
}

/// The routers from which some walk towards a prefix crosses the link. The
/// distance test tells from which a tight path does; of these, the ones are
/// looked for that come to the link before they come to an attached router. A
/// tight arc leads to a smaller distance, so the link is crossed one way only.
pub fn crossing(graph: &Graph, table: Table, link: &Protected, target: &Target) -> u64 {
    let to = &target.to;
    let (near, far) = (link.near & 63, link.far & 63);
    let over = to[far].wrapping_add(link.out) == to[near];
    let under = to[near].wrapping_add(link.back) == to[far];
    let seeds = u64::from(over) << near | u64::from(under) << far;
    let open = !avoiding_to(table, link, to) & u64::MAX >> (64 - table.routers);
    leading(graph, target, seeds & !target.attached, open)
}

/// The routers from which some walk towards a prefix visits the far router, that router
/// among them. They are looked for as the ones that cross the link are.
pub fn visiting(graph: &Graph, table: Table, link: &Protected, target: &Target) -> u64 {
    let over = target.to[link.far & 63];
    let cells = table.rows().zip(&target.to);
    let open = set_where(cells.map(|(row, own)| row[link.far].wrapping_add(over) == *own));
    leading(graph, target, 1 << link.far, open)
}

/// The seeds, and those of the open routers that are not attached and from which tight
/// arcs lead to a seed.
fn leading(graph: &Graph, target: &Target, seeds: u64, open: u64) -> u64 {
    let to = &target.to;
    let mut set = seeds;
    let mut open = open & !target.attached & !seeds;
    loop {
        let before = set;
        let mut rest = open;
        while rest != 0 {
            let x = rest.trailing_zeros() as usize;
            rest &= rest - 1;
            let own = to[x & 63];
            let leads = graph.leaving(x).iter().any(|arc| {
                set >> arc.head() & 1 == 1 && to[arc.head()].wrapping_add(arc.cost()) == own
            });
            set |= u64::from(leads) << x;
        }
        if set == before {
            return set;
        }
        open &= !set;
    }
}
