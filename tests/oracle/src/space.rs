//! The P, extended P and Q spaces, and sets of routers as 64-bit numbers.

use crate::fault::{Fault, Limit};
use crate::network::{Hop, LinkEnd, MAINTENANCE};
use crate::workings::Workings;

listed! {
    /// One of the three spaces.
    pub enum Space {
        P: "routers that S avoids to",
        ExtendedP: "routers that some first hop avoids to",
        Q: "routers that avoid to E",
    }
}

/// The first hops of a question: the neighbours of S other than E to which the
/// cost from S is below 65,535, ascending. Extended P and pairs both speak of
/// these.
pub fn first_hops(workings: &Workings, link_end: &LinkEnd) -> Vec<usize> {
    let in_use = neighbours(workings, link_end).filter(|hop| !left_out(workings, hop));
    in_use.map(|hop| hop.to).collect()
}

/// The first hops, or with the fault every neighbour of S other than E.
pub fn first_hops_unless(fault: Fault, workings: &Workings, link_end: &LinkEnd) -> Vec<usize> {
    if workings.ctx.has(fault) {
        return neighbours(workings, link_end).map(|hop| hop.to).collect();
    }
    first_hops(workings, link_end)
}

/// The hops from S to its neighbours other than E, by neighbour, ascending.
fn neighbours<'a>(
    workings: &'a Workings,
    link_end: &LinkEnd,
) -> impl Iterator<Item = &'a Hop> + use<'a> {
    let far_end_too = workings.ctx.has(Fault::FarEndAsFirstHop);
    let e = link_end.e;
    workings.hops.leaving(link_end.s).iter().filter(move |hop| hop.to != e || far_end_too)
}

/// Whether the hop from S to a neighbour is under maintenance.
fn left_out(workings: &Workings, hop: &Hop) -> bool {
    let mut cost = hop.cost;
    if workings.ctx.has(Fault::MaintenanceTowardsS) {
        let back = workings.hops.leaving(hop.to).iter().find(|back| back.to == hop.from);
        cost = back.map_or(0, |back| back.cost);
    }
    cost as usize > workings.ctx.most(Limit::FirstHopCost, MAINTENANCE as usize - 1)
}

/// The routers of a space, ascending.
pub fn members(workings: &Workings, space: Space, link_end: &LinkEnd) -> Vec<usize> {
    let ctx = &workings.ctx;
    let avoids = |x, t| workings.to_router(t).avoids(ctx, x, link_end);
    let misses_e = |x, t| !workings.to_router(t).visits(x, link_end.e);
    let reaches = |x, t| avoids(x, t) && (misses_e(x, t) || !ctx.has(Fault::SpacesMissE));
    let first_hops = first_hops_unless(Fault::ExtendedPOfEveryNeighbour, workings, link_end);
    let is_member = |r: &usize| match space {
        Space::P => reaches(link_end.s, *r),
        Space::ExtendedP => {
            let own = ctx.has(Fault::OwnPAdded) && avoids(link_end.s, *r);
            own || first_hops.iter().any(|n| reaches(*n, *r))
        }
        Space::Q => avoids(*r, q_target(workings, link_end)),
    };
    let left_out = |r: &usize| *r == link_end.s && ctx.has(Fault::SLeftOutOfSpaces);
    workings.routers().filter(is_member).filter(|r| !left_out(r)).collect()
}

/// The router that Q and the link repair are about: E.
pub fn q_target(workings: &Workings, link_end: &LinkEnd) -> usize {
    if workings.ctx.has(Fault::QTowardsS) { link_end.s } else { link_end.e }
}

/// The set of some routers: router r is the bit of weight 2 to the power r.
pub fn set_of(workings: &Workings, members: &[usize]) -> u64 {
    let shift = usize::from(workings.ctx.has(Fault::SetOffByOne));
    // Routers from 64 on have no bit; only a reader with a fault lets them pass.
    let weights = members.iter().map(|r| {
        let place = u32::try_from(r + shift).unwrap_or(u32::MAX);
        1u64.checked_shl(place).unwrap_or(0)
    });
    weights.fold(0, |set, weight| set | weight)
}

/// The routers of a set, ascending.
pub fn routers_of(set: u64) -> Vec<usize> {
    (0..64).filter(|r| set >> r & 1 == 1).collect()
}
