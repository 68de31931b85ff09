//! Distances: the least sum of link costs over all paths, by Dijkstra's
//! method from each router.

use crate::fault::{Context, Fault};
use crate::network::{Hops, Prefix};
use std::cmp::Reverse;
use std::collections::BinaryHeap;

/// The unreachable distance.
pub const UNREACHABLE: u32 = 4_294_967_295;

/// A distance plus a cost. The unreachable distance, which is the largest
/// number, stays unreachable; real sums are far smaller.
pub fn plus(distance: u32, cost: u32) -> u32 {
    distance.saturating_add(cost)
}

/// The distances between all routers, row by row, row = start.
#[derive(Clone, Debug, PartialEq, Eq)]
pub struct Distances {
    routers: usize,
    cells: Vec<u32>,
}

impl Distances {
    /// The distances over these hops.
    pub fn over(ctx: &Context, hops: &Hops) -> Distances {
        let routers = hops.routers();
        let cells = (0..routers).flat_map(|start| from_router(ctx, hops, start)).collect();
        Distances { routers, cells }
    }

    /// The numbers of N x N cells as distances, whatever they are.
    pub fn of_cells(routers: usize, cells: Vec<u32>) -> Distances {
        assert_eq!(cells.len(), routers * routers);
        Distances { routers, cells }
    }

    /// D(x,t). It is unreachable for a router that is not there.
    pub fn between(&self, x: usize, t: usize) -> u32 {
        if x < self.routers && t < self.routers {
            self.cells[x * self.routers + t]
        } else {
            UNREACHABLE
        }
    }

    /// D(x,p): the least of D(x,a) plus a's cost to p over the attachments a.
    pub fn to_prefix(&self, ctx: &Context, x: usize, prefix: &Prefix) -> u32 {
        let own = prefix.attachments.iter().find(|own| usize::from(own.router) == x);
        if let (Some(own), true) = (own, ctx.has(Fault::AttachedAtOwnCost)) {
            return u32::from(own.cost);
        }
        let looked_at = if ctx.has(Fault::OnlyFirstAttachment) { 1 } else { usize::MAX };
        let attachments = prefix.attachments.iter().take(looked_at);
        let sums = attachments.map(|attachment| {
            let distance = self.between(x, usize::from(attachment.router));
            let cost = u32::from(attachment.cost);
            if ctx.has(Fault::UnreachableWraps) {
                distance.wrapping_add(cost)
            } else {
                plus(distance, cost)
            }
        });
        sums.min().unwrap_or(UNREACHABLE)
    }

    /// N x N cells as the work area receives them.
    pub fn cells(&self, ctx: &Context) -> Vec<u32> {
        if ctx.has(Fault::RowsByDestination) {
            let pairs = (0..self.routers).flat_map(|t| (0..self.routers).map(move |x| (x, t)));
            return pairs.map(|(x, t)| self.between(x, t)).collect();
        }
        self.cells.clone()
    }
}

/// The distances from one router to every router.
fn from_router(ctx: &Context, hops: &Hops, start: usize) -> Vec<u32> {
    if ctx.has(Fault::RoundTooFew) {
        return within_hops(hops, start, hops.routers().saturating_sub(2));
    }
    let mut least = vec![UNREACHABLE; hops.routers()];
    let mut waiting = BinaryHeap::from([Reverse((0, start))]);
    // A router leaves the heap first with its least distance: every cost is at
    // least 0, so no router that leaves later can offer less.
    while let Some(Reverse((distance, x))) = waiting.pop() {
        if least[x] != UNREACHABLE {
            continue;
        }
        least[x] = distance;
        for hop in hops.leaving(x) {
            if ctx.has(Fault::OnlyForthRelaxed) && !hop.is_forth() {
                continue;
            }
            if least[hop.to] == UNREACHABLE {
                waiting.push(Reverse((plus(distance, hop.cost), hop.to)));
            }
        }
    }
    least
}

/// The least costs over paths of at most so many hops: a fault's distances.
fn within_hops(hops: &Hops, start: usize, most: usize) -> Vec<u32> {
    let mut least = vec![UNREACHABLE; hops.routers()];
    least[start] = 0;
    for _ in 0..most {
        let before = least.clone();
        for hop in (0..hops.routers()).flat_map(|x| hops.leaving(x)) {
            least[hop.to] = least[hop.to].min(plus(before[hop.from], hop.cost));
        }
    }
    least
}
