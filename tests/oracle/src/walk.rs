//! Walks towards one target, by explicit search.
//!
//! The step rule of document 01 gives, at each router, the hops that a walk
//! may take next; a walk ends at the first router that is attached to its
//! target, and a router is attached to itself alone. Which hops the walks from a
//! router may take at all, and which routers they visit, is found by following every
//! step from there. No sum of distances decides whether a walk crosses a link.

use crate::distance::{Distances, UNREACHABLE, plus};
use crate::fault::{Context, Fault};
use crate::file::ATTACHMENTS;
use crate::network::{Hop, Hops, LinkEnd, MAINTENANCE, Prefix};
use crate::visit;

/// What a walk goes towards.
#[derive(Clone, Copy, Debug)]
pub enum Target<'a> {
    Router(usize),
    Prefix(&'a Prefix),
}

/// What a walk may do next at a router.
#[derive(Clone, Copy, Debug, PartialEq, Eq)]
pub enum Move {
    /// Deliver to the prefix; delivery is no hop.
    Deliver,
    /// Step by this hop.
    Step(Hop),
}

/// The walks towards one target, from every router.
#[derive(Clone, Debug)]
pub struct Walks {
    /// Whether the target is a prefix, to which a router delivers.
    to_prefix: bool,
    /// D(x, target) by router x.
    remaining: Vec<u32>,
    /// Whether a walk at router x ends there, towards a prefix by delivery.
    may_end: Vec<bool>,
    /// Whether a walk goes no further than router x: wherever it ends, unless
    /// with a fault.
    stops: Vec<bool>,
    /// The hops from router x that the step rule allows, whether a walk goes on
    /// from there or not, by the router they lead to, ascending.
    tight: Vec<Vec<Hop>>,
    /// By start x and hop number: whether some walk from x takes the hop.
    taken: Vec<Vec<bool>>,
    /// By start x and router: whether some walk from x visits the router.
    visited: Vec<Vec<bool>>,
}

impl Walks {
    /// The walks towards a target.
    pub fn towards(ctx: &Context, hops: &Hops, distances: &Distances, target: Target) -> Walks {
        let routers = 0..hops.routers();
        let remaining: Vec<u32> = routers
            .clone()
            .map(|x| match target {
                Target::Router(t) => distances.between(x, t),
                Target::Prefix(prefix) => distances.to_prefix(ctx, x, prefix),
            })
            .collect();
        let ends = |x: usize| ends_at(ctx, target, x, remaining[x]);
        let may_end: Vec<bool> = routers.clone().map(ends).collect();
        let to_prefix = matches!(target, Target::Prefix(_));
        let steps_on = ctx.has(Fault::AttachedPassed) || ctx.has(Fault::AttachedMayStepOn);
        let steps_on = steps_on && to_prefix;
        let stops = may_end.iter().map(|ends| *ends && !steps_on).collect();
        let mut tight: Vec<Vec<Hop>> = routers.map(|x| tight_hops(hops, &remaining, x)).collect();
        if ctx.has(Fault::MaintenanceNotWalked) {
            tight.iter_mut().for_each(|tight| tight.retain(|hop| hop.cost != MAINTENANCE));
        }
        let (taken, visited) = (Vec::new(), Vec::new());
        let walks = Walks { to_prefix, remaining, may_end, stops, tight, taken, visited };
        walks.searched(ctx, hops.numbers())
    }

    /// The same walks, ended at the routers that deliver to a prefix too: how a
    /// fault takes a tunnel.
    pub fn ended_by(&self, ctx: &Context, hops: &Hops, prefix: &Walks) -> Walks {
        let mut walks = self.clone();
        for (x, stops) in walks.stops.iter_mut().enumerate() {
            *stops |= prefix.delivers(x);
        }
        walks.searched(ctx, hops.numbers())
    }

    /// The walks with the hops that they take and the routers that they visit found.
    fn searched(mut self, ctx: &Context, numbers: usize) -> Walks {
        let starts = 0..self.routers();
        self.taken = starts.clone().map(|x| self.search(ctx, x, numbers)).collect();
        self.visited = starts.map(|x| visit::from(ctx, &self, x)).collect();
        self
    }

    /// Follows every step that can be reached from a start and marks each hop
    /// that is met.
    fn search(&self, ctx: &Context, start: usize, numbers: usize) -> Vec<bool> {
        let mut taken = vec![false; numbers];
        let mut seen = vec![false; self.routers()];
        let mut waiting = vec![start];
        seen[start] = true;
        let mut rounds = self.rounds(ctx);
        while !waiting.is_empty() && rounds > 0 {
            let mut next = Vec::new();
            for hop in waiting.iter().flat_map(|x| self.steps_looked_at(ctx, *x)) {
                taken[hop.number] = true;
                if !seen[hop.to] {
                    seen[hop.to] = true;
                    next.push(hop.to);
                }
            }
            waiting = next;
            rounds -= 1;
        }
        taken
    }

    /// How many hops of a walk are looked at: all, unless with a fault.
    fn rounds(&self, ctx: &Context) -> usize {
        if self.to_prefix && ctx.has(Fault::CrossingOneHop) {
            1
        } else if self.to_prefix && ctx.has(Fault::CrossingTwoHops) {
            2
        } else {
            usize::MAX
        }
    }

    /// N, the number of routers.
    pub(crate) fn routers(&self) -> usize {
        self.stops.len()
    }

    /// Whether a walk at x ends there.
    pub(crate) fn ends(&self, x: usize) -> bool {
        self.may_end[x]
    }

    /// The steps at x: none where a walk ends.
    pub(crate) fn steps(&self, x: usize) -> &[Hop] {
        if self.stops[x] { &[] } else { &self.tight[x] }
    }

    /// Every step at a router; with the fault, those of one walk only.
    fn steps_looked_at(&self, ctx: &Context, x: usize) -> &[Hop] {
        let steps = self.steps(x);
        if !ctx.has(Fault::OneShortestPath) {
            return steps;
        }
        let count = if self.may_end[x] { 0 } else { steps.len().min(1) };
        &steps[..count]
    }

    /// Whether the target is a prefix.
    pub fn to_prefix(&self) -> bool {
        self.to_prefix
    }

    /// D(x, target).
    pub fn remaining(&self, x: usize) -> u32 {
        self.remaining.get(x).copied().unwrap_or(UNREACHABLE)
    }

    /// Whether the target is reachable from x.
    pub fn reachable_from(&self, x: usize) -> bool {
        self.remaining(x) != UNREACHABLE
    }

    /// Whether a walk towards the prefix is delivered at x.
    pub fn delivers(&self, x: usize) -> bool {
        self.to_prefix && self.may_end.get(x).is_some_and(|ends| *ends)
    }

    /// The hops from x that the step rule allows, whether or not a walk goes on
    /// from there.
    pub fn tight(&self, x: usize) -> &[Hop] {
        self.tight.get(x).map_or(&[], |hops| hops)
    }

    /// Whether some walk from x takes the hop of a number.
    pub fn takes(&self, x: usize, hop_number: usize) -> bool {
        self.taken.get(x).is_some_and(|taken| taken[hop_number])
    }

    /// Whether some walk from x visits a router. The start and the end count.
    pub fn visits(&self, x: usize, router: usize) -> bool {
        self.visited.get(x).is_some_and(|visited| visited.get(router) == Some(&true))
    }

    /// Avoiding: the target is reachable from x and no walk from x towards it
    /// crosses the link, either way.
    pub fn avoids(&self, ctx: &Context, x: usize, link_end: &LinkEnd) -> bool {
        let forth = self.takes(x, link_end.s_to_e());
        let back = self.takes(x, link_end.e_to_s()) && !ctx.has(Fault::OnlySToETested);
        let reachable = self.reachable_from(x) || ctx.has(Fault::UnreachableAvoids);
        reachable && !forth && !back
    }

    /// What a walk may do next at x: deliver, or step to one of the next routers,
    /// ascending. There is nothing to do where a walk towards a router ends.
    pub fn moves(&self, x: usize) -> Vec<Move> {
        if x >= self.routers() {
            return Vec::new();
        }
        let delivery = self.delivers(x).then_some(Move::Deliver);
        delivery.into_iter().chain(self.steps(x).iter().map(|hop| Move::Step(*hop))).collect()
    }

    /// Every whole walk from x, as the list of its hops, or nothing when one
    /// of them comes to a router where it can neither end nor step, or has
    /// `most` hops or more. For small networks: there may be very many walks.
    pub fn enumerate(&self, x: usize, most: usize) -> Option<Vec<Vec<Hop>>> {
        let mut whole = Vec::new();
        let mut waiting: Vec<Vec<Hop>> = vec![Vec::new()];
        while let Some(walk) = waiting.pop() {
            let here = walk.last().map_or(x, |hop| hop.to);
            let steps = self.steps(here);
            if walk.len() >= most || (steps.is_empty() && !self.may_end[here]) {
                return None;
            }
            waiting.extend(steps.iter().map(|hop| [walk.as_slice(), &[*hop]].concat()));
            if self.may_end[here] {
                whole.push(walk);
            }
        }
        Some(whole)
    }
}

/// Towards a router a walk ends there. Towards a prefix it ends at each attached
/// router, however dear the attachment is.
fn ends_at(ctx: &Context, target: Target, x: usize, remaining: u32) -> bool {
    let Target::Prefix(prefix) = target else {
        return matches!(target, Target::Router(t) if x == t);
    };
    let only_tight = ctx.has(Fault::AttachedPassed) || ctx.has(Fault::DeliveredWhereTight);
    let slots = if ctx.has(Fault::OnlyFirstSlotDelivers) { 1 } else { usize::MAX };
    let attached = prefix.attachments.iter().take(slots).any(|attachment| {
        let cost = u32::from(attachment.cost);
        let dearest = attachment.cost == u16::MAX && ctx.has(Fault::DearestDeliversNot);
        usize::from(attachment.router) == x && (cost == remaining || !only_tight) && !dearest
    });
    let unused = (1..ATTACHMENTS).contains(&prefix.attachments.len());
    attached || (unused && x == 0 && ctx.has(Fault::UnusedSlotsDeliver))
}

/// The step rule: from x to a neighbour z when the cost x to z plus
/// D(z, target) equals finite D(x, target).
fn tight_hops(hops: &Hops, remaining: &[u32], x: usize) -> Vec<Hop> {
    if remaining[x] == UNREACHABLE {
        return Vec::new();
    }
    let leaving = hops.leaving(x).iter();
    leaving.filter(|hop| plus(remaining[hop.to], hop.cost) == remaining[x]).copied().collect()
}
