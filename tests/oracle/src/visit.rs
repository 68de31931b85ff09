//! Visits: the routers that the walks from a router come to. The start of a walk
//! and its end count. They are found by following every step, hop by hop; no sum of
//! distances decides.

use crate::fault::{Context, Fault};
use crate::network::Hop;
use crate::walk::Walks;

/// By router: whether some walk from a start visits it.
pub fn from(ctx: &Context, walks: &Walks, start: usize) -> Vec<bool> {
    let routers = 0..walks.routers();
    if ctx.has(Fault::VisitOnEveryWalk) {
        return routers.map(|router| on_every_walk(walks, start, router)).collect();
    }
    let come_to = come_to(ctx, walks, start);
    let counts = |router: usize| {
        let end = walks.ends(router);
        let start_left_out = router == start && ctx.has(Fault::StartNotVisited);
        let end_left_out = end && ctx.has(Fault::EndNotVisited);
        let passed_left_out = !end && ctx.has(Fault::OnlyEndVisited);
        !(start_left_out || end_left_out || passed_left_out)
    };
    routers.map(|router| come_to[router] && counts(router)).collect()
}

/// Follows every step from a start, one hop of all walks at a time, and marks each
/// router that is come to.
fn come_to(ctx: &Context, walks: &Walks, start: usize) -> Vec<bool> {
    let mut met = vec![false; walks.routers()];
    met[start] = true;
    let mut here = vec![start];
    let mut hops = 0;
    while !here.is_empty() && hops < most_hops(ctx) {
        let steps = here.iter().flat_map(|x| looked_at(ctx, walks.steps(*x)));
        let mut next: Vec<usize> = steps.map(|hop| hop.to).collect();
        next.retain(|router| !std::mem::replace(&mut met[*router], true));
        here = next;
        hops += 1;
    }
    met
}

/// How many hops of a walk are looked at: all, unless with a fault.
fn most_hops(ctx: &Context) -> usize {
    if ctx.has(Fault::VisitOneHop) {
        1
    } else if ctx.has(Fault::VisitTwoHops) {
        2
    } else {
        usize::MAX
    }
}

/// Every step at a router; with the fault, that of one walk only.
fn looked_at<'a>(ctx: &Context, steps: &'a [Hop]) -> &'a [Hop] {
    let count = if ctx.has(Fault::VisitOneShortestPath) { 1 } else { usize::MAX };
    &steps[..steps.len().min(count)]
}

/// What a fault takes for a visit: no walk from the start misses the router.
fn on_every_walk(walks: &Walks, start: usize, router: usize) -> bool {
    let mut seen = vec![false; walks.routers()];
    let mut waiting = vec![start];
    while let Some(x) = waiting.pop() {
        if x == router || std::mem::replace(&mut seen[x], true) {
            continue;
        }
        if walks.ends(x) {
            return false;
        }
        waiting.extend(walks.steps(x).iter().map(|hop| hop.to));
    }
    true
}
