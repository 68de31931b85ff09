//! Spaces and repairs, by sets of routers.

use super::avoid::{
    avoiding_from, avoiding_to, crossing, set_where, visiting, visiting_from, Protected, Target,
};
use super::graph::Graph;
use super::links::{Direction, Links};
use super::table::Table;
use crate::answer::{self, Answer, Refusal, Space, NO_PATH, PAIR, UNREACHABLE, UNTOUCHED};
use std::array;

/// The rank of each class.
pub type Ranks = [u8; 8];

/// The second legs: the routers where they may start, and those of which a walk visits
/// the far router.
struct SecondLegs {
    from: u64,
    visiting: u64,
}

/// The cost of an arc under maintenance, over which no repair starts.
const MAINTENANCE: u32 = 65_535;

/// The directions from S to its first hops: to its neighbours other than E, at a cost
/// below 65,535.
fn first_hops<'a>(links: &'a Links, link: &'a Protected) -> impl Iterator<Item = Direction> + 'a {
    let leaving = links.leaving(link.near);
    leaving.filter(|hop| hop.to != link.far && hop.cost < MAINTENANCE)
}

/// One of the three spaces.
pub fn space(space: Space, table: Table, links: &Links, link: &Protected) -> u64 {
    match space {
        Space::P => avoiding_from(table, link, link.near),
        Space::ExtendedP => {
            let hops = first_hops(links, link);
            hops.fold(0, |set, hop| set | avoiding_from(table, link, hop.to))
        }
        Space::Q => avoiding_to(table, link, &Target::router(table, link.far).to),
    }
}

/// The routers at which a tunnel may end: all but S and E.
fn endpoints(link: &Protected) -> u64 {
    !(1 << link.near | 1 << link.far)
}

/// What a prefix repair answers.
pub fn repair(
    links: &Links,
    graph: &Graph,
    table: Table,
    ranks: &Ranks,
    link: &Protected,
    target: &Target,
) -> Result<Answer, Refusal> {
    let own = target.to[link.near & 63];
    if own == NO_PATH {
        return Ok(answer::of(UNREACHABLE));
    }
    let step = link.out.wrapping_add(target.to[link.far & 63]) == own;
    if !step || target.attached >> link.near & 1 == 1 {
        return Ok(answer::of(UNTOUCHED));
    }
    let from = !crossing(graph, table, link, target) & endpoints(link);
    let second = SecondLegs { from, visiting: visiting(graph, table, link, target) };
    first_pair(links, table, ranks, link, target, second)
}

/// What a link repair answers: its target is E, which every second leg visits.
pub fn link_repair(
    links: &Links,
    table: Table,
    ranks: &Ranks,
    link: &Protected,
) -> Result<Answer, Refusal> {
    let target = Target::router(table, link.far);
    let from = avoiding_to(table, link, &target.to) & endpoints(link);
    let second = SecondLegs { from, visiting: u64::MAX };
    first_pair(links, table, ranks, link, &target, second)
}

/// A first hop: the endpoints that it avoids to, and those on the way to which some walk
/// of either leg visits the far router.
#[derive(Clone, Copy, Default)]
struct Hop {
    to: usize,
    cost: u32,
    serving: u64,
    visiting: u64,
}

impl Hop {
    /// The endpoints with which it is a pair of a class, whether they are nearer to the
    /// target or not: the class without its lowest bit.
    fn endpoints(&self, class: usize) -> u64 {
        let visiting = if class & 4 == 0 { !self.visiting } else { self.visiting };
        let itself = if class & 2 == 0 { 1 << self.to } else { !(1 << self.to) };
        self.serving & visiting & itself
    }
}

/// The first of the pairs that serve a target. The endpoints of each class are a set. The
/// class with the lowest rank that has any comes first, then the endpoint nearest to S,
/// then the first hop with the least tunnel cost; the lower number decides between equals.
#[inline(never)]
fn first_pair(
    links: &Links,
    table: Table,
    ranks: &Ranks,
    link: &Protected,
    target: &Target,
    second: SecondLegs,
) -> Result<Answer, Refusal> {
    let mut hops = [Hop::default(); 64];
    let mut count = 0;
    for (hop, Direction { to, cost, .. }) in hops.iter_mut().zip(first_hops(links, link)) {
        let serving = second.from & avoiding_from(table, link, to);
        let mut visiting = second.visiting;
        if visiting != u64::MAX {
            visiting |= visiting_from(table, link, to);
        }
        *hop = Hop { to, cost, serving, visiting };
        count += 1;
    }
    let hops = &hops[..count];
    let own = target.to[link.near & 63];
    let nearer = set_where(target.to.iter().map(|to| *to < own));
    let sets: [u64; 8] = array::from_fn(|class| {
        let all = hops.iter().fold(0, |all, hop| all | hop.endpoints(class));
        all & if class & 1 == 0 { nearer } else { !nearer }
    });
    let some = (0..8).filter(|class| sets[*class] != 0);
    let Some(class) = some.min_by_key(|class| ranks[*class]) else {
        return Err(Refusal::new(14, 0));
    };
    let endpoint = nearest(sets[class], table.row(link.near));
    let hops = hops.iter().filter(|hop| hop.endpoints(class) >> endpoint & 1 == 1);
    let costs = hops.map(|hop| (hop.cost + table.row(hop.to)[endpoint], hop.to));
    let (cost, first) = costs.min().unwrap_or_default();
    Ok(Answer { kind: PAIR, number: 0, value: 0, first, endpoint, pair_class: class as u32, cost })
}

/// The router of a set that has the least distance, and the lowest number of these.
fn nearest(set: u64, distances: &[u32]) -> usize {
    let mut rest = set;
    let mut least = u64::MAX;
    while rest != 0 {
        let router = rest.trailing_zeros() as usize;
        rest &= rest - 1;
        least = least.min(u64::from(distances[router]) << 6 | router as u64);
    }
    least as usize & 63
}
