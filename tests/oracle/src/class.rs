//! The class of a pair, and node protection: whether the pair repairs also where
//! the far router fails, and not the link alone.

use crate::distance::{UNREACHABLE, plus};
use crate::fault::Fault;
use crate::network::LinkEnd;
use crate::walk::Walks;
use crate::workings::Workings;

/// What the class of a pair that is not node-protecting has more.
pub const NOT_PROTECTING: u32 = 4;

/// Class of the pair (n, y): 0 if y = n, 2 if not; plus 1 unless D(y,t) < D(S,t);
/// plus 4 unless the pair is node-protecting.
pub fn of_pair(
    workings: &Workings,
    link_end: &LinkEnd,
    target: &Walks,
    (n, y): (usize, usize),
) -> u32 {
    let ctx = &workings.ctx;
    let tunnel = if y == n || ctx.has(Fault::ClassWithoutTunnel) { 0 } else { 2 };
    let from_y = target.remaining(y);
    let from_s = target.remaining(link_end.s);
    let nearer = from_y < from_s || (from_y == from_s && ctx.has(Fault::ClassNotStrict));
    let four = has_four(workings, link_end, target, (n, y));
    tunnel + u32::from(!nearer) + if four { NOT_PROTECTING } else { 0 }
}

/// Whether 4 is added to the class of a pair.
fn has_four(workings: &Workings, link_end: &LinkEnd, target: &Walks, pair: (usize, usize)) -> bool {
    let ctx = &workings.ctx;
    let never = ctx.has(Fault::NodeNotLookedAt)
        || (ctx.has(Fault::LinkClassesBelowFour) && !target.to_prefix());
    let protecting = node_protecting(workings, link_end, target, pair);
    !never && protecting == ctx.has(Fault::FourForProtecting)
}

/// Whether the pair (n, y) is node-protecting for a target: no walk from n to y, and
/// none from y to the target, visits E.
pub fn node_protecting(
    workings: &Workings,
    link_end: &LinkEnd,
    target: &Walks,
    (n, y): (usize, usize),
) -> bool {
    let ctx = &workings.ctx;
    let far = if ctx.has(Fault::VisitToS) { link_end.s } else { link_end.e };
    let first_leg = first_leg_visits(workings, target, (n, y), far);
    let second_leg = second_leg_visits(workings, link_end, target, y, far);
    (!first_leg || ctx.has(Fault::OnlySecondLegVisits))
        && (!second_leg || ctx.has(Fault::OnlyFirstLegVisits))
}

/// Whether some walk from n to y visits a router. Such a walk passes routers that
/// are attached to the target.
fn first_leg_visits(
    workings: &Workings,
    target: &Walks,
    (n, y): (usize, usize),
    router: usize,
) -> bool {
    let walks = workings.to_router(y);
    if workings.ctx.has(Fault::VisitTunnelToAttached) {
        return walks.ended_by(&workings.ctx, &workings.hops, target).visits(n, router);
    }
    walks.visits(n, router)
}

/// Whether some walk from y to the target visits a router.
fn second_leg_visits(
    workings: &Workings,
    link_end: &LinkEnd,
    target: &Walks,
    y: usize,
    router: usize,
) -> bool {
    let ctx = &workings.ctx;
    if ctx.has(Fault::VisitTowardsE) {
        return workings.to_router(link_end.e).visits(y, router);
    }
    if ctx.has(Fault::VisitBySums) && target.to_prefix() {
        let sum = plus(target.remaining(router), workings.distances.between(y, router));
        return sum == target.remaining(y) && sum != UNREACHABLE;
    }
    let left_out = target.delivers(router) && ctx.has(Fault::DeliveryNotVisited);
    target.visits(y, router) && !left_out
}
