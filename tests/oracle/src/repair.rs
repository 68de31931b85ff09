//! Link repairs and prefix repairs: every pair is looked at, those that serve
//! are kept, and the first in the order of document 01 is taken.

use crate::answer::Question;
use crate::class;
use crate::distance::{UNREACHABLE, plus};
use crate::fault::{Context, Fault};
use crate::network::LinkEnd;
use crate::ranks::{self, ASCENDING};
use crate::space::{first_hops_unless, q_target};
use crate::walk::Walks;
use crate::workings::Workings;
use std::collections::BTreeSet;

/// A pair with what its answer holds.
#[derive(Clone, Copy, Debug, PartialEq, Eq)]
pub struct Pair {
    /// n, a neighbour of S, not E, to which the cost from S is below 65,535.
    pub first_hop: usize,
    /// y, a router, neither S nor E.
    pub endpoint: usize,
    /// 0 to 3 if the pair is node-protecting, otherwise 4 to 7.
    pub class: u32,
    /// The cost S to n plus D(n,y).
    pub tunnel_cost: u32,
}

/// The answer to a repair question that all rows but 14 let pass.
#[derive(Clone, Copy, Debug, PartialEq, Eq)]
pub enum Repair {
    Unreachable,
    Untouched,
    /// No pair serves: refusal 14.
    None,
    Pair(Pair),
}

/// A serving pair with its five keys, the first deciding: the rank of its class,
/// D(S,y), y, tunnel cost, n.
#[derive(Clone, Copy, Debug, PartialEq, Eq)]
pub struct Candidate {
    pub keys: [u32; 5],
    pub pair: Pair,
}

/// The link's own repair: the target is E.
pub fn link_repair(workings: &Workings, link_end: &LinkEnd, ranks: &[u8]) -> Repair {
    search(workings, link_end, workings.to_router(q_target(workings, link_end)), ranks)
}

/// The repair for a prefix: unreachable, then untouched, then a pair or 14.
pub fn prefix_repair(workings: &Workings, link_end: &LinkEnd, prefix: u64, ranks: &[u8]) -> Repair {
    let walks = workings.to_prefix(prefix);
    if let Some(wrong) = wrong_prefix_repair(workings, link_end, walks, ranks) {
        return wrong;
    }
    if !walks.reachable_from(link_end.s) {
        Repair::Unreachable
    } else if !touched(workings, link_end, walks) {
        Repair::Untouched
    } else {
        search(workings, link_end, walks, ranks)
    }
}

/// Whether some walk from S crosses the link from S to E. Where S is attached
/// its walk has no hop.
fn touched(workings: &Workings, link_end: &LinkEnd, walks: &Walks) -> bool {
    if workings.ctx.has(Fault::AttachedSRepaired) {
        return walks.tight(link_end.s).iter().any(|hop| hop.number == link_end.s_to_e());
    }
    if workings.ctx.has(Fault::TouchedByVisit) {
        return walks.visits(link_end.s, link_end.e);
    }
    walks.takes(link_end.s, link_end.s_to_e())
}

/// The first serving pair, or none.
fn search(workings: &Workings, link_end: &LinkEnd, target: &Walks, ranks: &[u8]) -> Repair {
    if let Some(wrong) = wrong_search(workings) {
        return wrong;
    }
    // No two pairs have the same five keys. Where a fault drops a key, the
    // last of the equal pairs is taken.
    let serving = serving(workings, link_end, target, ranks).into_iter().rev();
    match serving.min_by_key(|candidate| ordered(workings, candidate.keys)) {
        Some(first) => Repair::Pair(first.pair),
        None if workings.ctx.has(Fault::RowDropped(14)) => {
            Repair::Pair(Pair { first_hop: 0, endpoint: 0, class: 0, tunnel_cost: 0 })
        }
        None => Repair::None,
    }
}

/// Every pair that serves the target, with its keys. Which pairs serve does not
/// depend on the ranks.
pub fn serving(
    workings: &Workings,
    link_end: &LinkEnd,
    target: &Walks,
    ranks: &[u8],
) -> Vec<Candidate> {
    let pairs = pairs(workings, link_end).into_iter();
    let serving = pairs.filter(|(n, y)| serves(workings, link_end, target, *n, *y));
    serving.map(|pair| candidate(workings, link_end, target, ranks, pair)).collect()
}

/// The classes of which a pair serves the target of a repair or route question; none
/// where the question names a link or a prefix that is not there.
pub fn serving_classes(workings: &Workings, question: &Question) -> BTreeSet<u32> {
    let Some((link_end, target)) = asked_about(workings, question) else {
        return BTreeSet::new();
    };
    let serving = serving(workings, &link_end, target, &ASCENDING);
    serving.iter().map(|candidate| candidate.pair.class).collect()
}

/// The link, the end and the walks towards the target of a repair or route question,
/// if there are such.
pub fn asked_about<'a>(
    workings: &'a Workings,
    question: &Question,
) -> Option<(LinkEnd, &'a Walks)> {
    let link_end = |link, end| workings.network.link_end(&workings.ctx, link, end);
    match *question {
        Question::LinkRepair { link, end, .. } => {
            let link_end = link_end(link, end)?;
            Some((link_end, workings.to_router(link_end.e)))
        }
        Question::PrefixRepair { link, end, prefix, .. }
        | Question::Route { link, end, prefix, .. } => {
            Some((link_end(link, end)?, workings.to_prefix(prefix)))
        }
        _ => None,
    }
}

/// Every pair (n, y).
fn pairs(workings: &Workings, link_end: &LinkEnd) -> Vec<(usize, usize)> {
    let ctx = &workings.ctx;
    let endpoint = |y: &usize| {
        let s_allowed = *y != link_end.s || ctx.has(Fault::EndpointMayBeS);
        let e_allowed = *y != link_end.e || ctx.has(Fault::EndpointMayBeE);
        s_allowed && e_allowed
    };
    let endpoints: Vec<usize> = workings.routers().filter(endpoint).collect();
    let first_hops = first_hops_unless(Fault::PairsOfEveryNeighbour, workings, link_end);
    first_hops.into_iter().flat_map(|n| endpoints.iter().map(move |y| (n, *y))).collect()
}

/// A pair serves a target when n avoids to y and y avoids to the target.
fn serves(workings: &Workings, link_end: &LinkEnd, target: &Walks, n: usize, y: usize) -> bool {
    let ctx = &workings.ctx;
    let mut first_leg = workings.to_router(y).avoids(ctx, n, link_end);
    if ctx.has(Fault::TunnelJudgedToAttached) {
        let ended = workings.to_router(y).ended_by(ctx, &workings.hops, target);
        first_leg = ended.avoids(ctx, n, link_end);
    }
    let mut second_leg = target.avoids(ctx, y, link_end);
    if ctx.has(Fault::PrefixAvoidedBySums) {
        second_leg = avoids_by_sums(workings, link_end, target, y);
    }
    let needs_node = ctx.has(Fault::OnlyNodeProtectingServe) && target.to_prefix();
    (first_leg || ctx.has(Fault::OnlySecondLegJudged))
        && (second_leg || ctx.has(Fault::OnlyFirstLegJudged))
        && (!needs_node || class::node_protecting(workings, link_end, target, (n, y)))
}

/// What a fault takes for avoiding: the distance is below the sums over the link,
/// one for each direction. Towards routers this is avoiding.
fn avoids_by_sums(workings: &Workings, link_end: &LinkEnd, target: &Walks, x: usize) -> bool {
    let over = |from: usize, to: usize| {
        let hop = workings.hops.leaving(from).iter().find(|hop| hop.to == to);
        let cost = hop.map_or(UNREACHABLE, |hop| hop.cost);
        plus(plus(workings.distances.between(x, from), cost), target.remaining(to))
    };
    let (s, e) = (link_end.s, link_end.e);
    target.remaining(x) < over(s, e).min(over(e, s))
}

/// A pair with its class, its tunnel cost and its keys.
fn candidate(
    workings: &Workings,
    link_end: &LinkEnd,
    target: &Walks,
    ranks: &[u8],
    (n, y): (usize, usize),
) -> Candidate {
    let ctx = &workings.ctx;
    let class = class::of_pair(workings, link_end, target, (n, y));
    let mut rank = ranks::of_class(ctx, ranks, class);
    if ctx.has(Fault::NodeBeforeRank) {
        rank += class / class::NOT_PROTECTING * (1 + u32::from(u8::MAX));
    }
    let class = told_class(ctx, class, rank);
    let tunnel_cost = tunnel_cost(workings, link_end.s, n, y);
    let from_s = workings.distances.between(link_end.s, y);
    Candidate {
        keys: [rank, from_s, number(y), tunnel_cost, number(n)],
        pair: Pair { first_hop: n, endpoint: y, class, tunnel_cost },
    }
}

/// The class that the answer tells: the pair's, unless with a fault.
fn told_class(ctx: &Context, class: u32, rank: u32) -> u32 {
    if ctx.has(Fault::RankToldAsClass) {
        rank
    } else if ctx.has(Fault::ClassToldModulo4) {
        class % class::NOT_PROTECTING
    } else {
        class
    }
}

/// The cost S to n, which is the link's, plus D(n,y).
fn tunnel_cost(workings: &Workings, s: usize, n: usize, y: usize) -> u32 {
    let ctx = &workings.ctx;
    let hop = workings.hops.leaving(s).iter().find(|hop| hop.to == n);
    let mut first = hop.map_or(0, |hop| hop.cost);
    if ctx.has(Fault::TunnelCostByDistance) {
        first = workings.distances.between(s, n);
    }
    if ctx.has(Fault::TunnelCostWithoutHop) {
        first = 0;
    }
    plus(workings.distances.between(n, y), first)
}

/// The keys as they are compared: all five in their order, unless a fault
/// drops one or makes two neighbours change places.
fn ordered(workings: &Workings, keys: [u32; 5]) -> Vec<u32> {
    let mut numbers: Vec<u8> = (1..=5).collect();
    for first in 1..=4 {
        if workings.ctx.has(Fault::KeysSwapped(first)) {
            numbers.swap(usize::from(first) - 1, usize::from(first));
        }
    }
    numbers.retain(|key| !workings.ctx.has(Fault::KeyDropped(*key)));
    numbers.iter().map(|key| keys[usize::from(*key) - 1]).collect()
}

/// The number (1 to 5) of the key that puts the first of these pairs before
/// the second; none when there are fewer than two pairs.
pub fn deciding_key(serving: &[Candidate]) -> Option<usize> {
    let mut keys: Vec<[u32; 5]> = serving.iter().map(|candidate| candidate.keys).collect();
    keys.sort();
    let [first, second, ..] = keys.as_slice() else {
        return None;
    };
    (0..5).find(|key| first[*key] != second[*key]).map(|key| key + 1)
}

fn number(router: usize) -> u32 {
    u32::try_from(router).unwrap_or(u32::MAX)
}

/// What a planner with a fault answers to a prefix repair question.
fn wrong_prefix_repair(
    workings: &Workings,
    link_end: &LinkEnd,
    walks: &Walks,
    ranks: &[u8],
) -> Option<Repair> {
    let ctx = &workings.ctx;
    let reachable = walks.reachable_from(link_end.s);
    let touched = touched(workings, link_end, walks);
    let no_pair = || search(workings, link_end, walks, ranks) == Repair::None;
    if ctx.has(Fault::FourteenAlways) {
        Some(Repair::None)
    } else if ctx.has(Fault::EveryPrefixUnreachable) {
        Some(Repair::Unreachable)
    } else if ctx.has(Fault::EveryPrefixUntouched) && reachable {
        Some(Repair::Untouched)
    } else if ctx.has(Fault::FourteenBeforeUnreachable) && !reachable && no_pair() {
        Some(Repair::None)
    } else if ctx.has(Fault::FourteenBeforeUntouched) && reachable && !touched && no_pair() {
        Some(Repair::None)
    } else if ctx.has(Fault::UntouchedBeforeUnreachable) && !reachable {
        Some(Repair::Untouched)
    } else if ctx.has(Fault::PrefixRepairTowardsE) && touched {
        Some(link_repair(workings, link_end, ranks))
    } else {
        None
    }
}

/// What a planner with a fault answers where a pair is to be searched for.
fn wrong_search(workings: &Workings) -> Option<Repair> {
    let ctx = &workings.ctx;
    if ctx.has(Fault::FourteenBeforeSearch) || ctx.has(Fault::FourteenAlways) {
        Some(Repair::None)
    } else if ctx.has(Fault::AlwaysSamePair) {
        let ring_4 = Pair { first_hop: 3, endpoint: 2, class: 7, tunnel_cost: 2 };
        Some(Repair::Pair(ring_4))
    } else {
        None
    }
}
