//! The network of LSAs that are all good: routers by their Link State IDs, links that
//! both sides describe, and prefixes by network and mask.

use super::layout::*;
use super::lsa::{Lsa, RouterLink};
use super::mistake::Mistake;
use crate::fault::Context;
use crate::network::{Attachment, Link, Network, Prefix};
use std::collections::{BTreeMap, BTreeSet};

/// The network of a run, with the names that a network file does not hold.
#[derive(Clone, Debug, Default, PartialEq, Eq)]
pub struct Named {
    /// The Link State ID of each router.
    pub routers: Vec<u32>,
    pub links: Vec<NamedLink>,
    pub prefixes: Vec<NamedPrefix>,
    /// Point-to-point links that only one side describes: from, to and metric.
    pub one_sided: Vec<(u32, u32, u16)>,
}

/// A link: its routers by number, and its costs from a to b and from b to a.
#[derive(Clone, Copy, Debug, PartialEq, Eq)]
pub struct NamedLink {
    pub a: usize,
    pub b: usize,
    pub forth: u16,
    pub back: u16,
}

/// A prefix: its network and mask, and each attached router's number and cost.
#[derive(Clone, Debug, PartialEq, Eq)]
pub struct NamedPrefix {
    pub network: u32,
    pub mask: u32,
    pub attachments: Vec<(usize, u16)>,
}

impl Named {
    /// The network of some LSAs.
    pub fn of(ctx: &Context, lsas: &[Lsa]) -> Named {
        let lsas = kept(ctx, lsas);
        let routers = numbered(ctx, &lsas);
        let numbers: BTreeMap<u32, usize> =
            routers.iter().enumerate().map(|(number, id)| (*id, number)).collect();
        let one_sided = one_sided(ctx, &lsas);
        let links = super::links::links(ctx, &lsas, &numbers);
        let prefixes = super::prefixes::prefixes(ctx, &lsas, &numbers);
        Named { routers, links, prefixes, one_sided }
    }

    /// The network as a file holds it. A number that does not fit its field is the
    /// largest that fits; such a network is outside the limits.
    pub fn network(&self) -> Network {
        let fits = |number: usize| u8::try_from(number).unwrap_or(u8::MAX);
        let link = |link: &NamedLink| Link {
            a: fits(link.a),
            b: fits(link.b),
            forth: link.forth,
            back: link.back,
        };
        let attachment =
            |(router, cost): &(usize, u16)| Attachment { router: fits(*router), cost: *cost };
        let prefix = |prefix: &NamedPrefix| Prefix {
            attachments: prefix.attachments.iter().map(attachment).collect(),
        };
        Network {
            routers: fits(self.routers.len()),
            links: self.links.iter().map(link).collect(),
            prefixes: self.prefixes.iter().map(prefix).collect(),
        }
    }
}

/// The LSAs that count: all of them. With a fault that takes a router named before, the
/// later LSA counts.
fn kept(ctx: &Context, lsas: &[Lsa]) -> Vec<Lsa> {
    let last: BTreeMap<u32, usize> =
        lsas.iter().enumerate().map(|(place, lsa)| (lsa.link_state_id, place)).collect();
    let dropped = |lsa: &Lsa| {
        let too_old = lsa.age >= MAX_AGE;
        let lone = lsa.links_of(POINT_TO_POINT).next().is_none();
        too_old && ctx.has_mistake(Mistake::MaxAgeDropped)
            || lone && ctx.has_mistake(Mistake::LoneRouterDropped)
    };
    let counts = |place: usize, lsa: &Lsa| last[&lsa.link_state_id] == place && !dropped(lsa);
    let counting = lsas.iter().enumerate().filter(|(place, lsa)| counts(*place, lsa));
    let mut kept: Vec<Lsa> = counting.map(|(_, lsa)| lsa.clone()).collect();
    if ctx.has_mistake(Mistake::OutOfReachDropped) {
        let reached = reached(&kept);
        kept.retain(|lsa| reached.contains(&lsa.link_state_id));
    }
    kept
}

/// The Link State IDs of the routers, by number.
fn numbered(ctx: &Context, lsas: &[Lsa]) -> Vec<u32> {
    let keyed = lsas.iter().enumerate().map(|(place, lsa)| (sort_key(ctx, place, lsa), lsa));
    let mut keyed: Vec<(u64, u32)> = keyed.map(|(key, lsa)| (key, lsa.link_state_id)).collect();
    keyed.sort();
    let mut ids: Vec<u32> = keyed.into_iter().map(|(_, id)| id).collect();
    if ctx.has_mistake(Mistake::RouterWithoutLsaNumbered) {
        let ends = lsas.iter().flat_map(|lsa| lsa.links_of(POINT_TO_POINT));
        ids.extend(ends.map(|link| link.id));
        ids.sort();
        ids.dedup();
    }
    ids
}

/// What a router is numbered by: its Link State ID.
fn sort_key(ctx: &Context, place: usize, lsa: &Lsa) -> u64 {
    let id = lsa.link_state_id;
    let other = [
        (Mistake::RoutersInRunOrder, place as u64),
        (Mistake::RoutersDescending, u64::from(!id)),
        (Mistake::RoutersByAdvertisingRouter, u64::from(lsa.advertising_router)),
        (Mistake::RoutersLeastByteFirst, u64::from(id.swap_bytes())),
        (Mistake::RoutersSigned, u64::from(id ^ 1 << 31)),
    ];
    let wrong = other.into_iter().find(|(mistake, _)| ctx.has_mistake(*mistake));
    wrong.map_or(u64::from(id), |(_, key)| key)
}

/// The links that only one side describes.
fn one_sided(ctx: &Context, lsas: &[Lsa]) -> Vec<(u32, u32, u16)> {
    let mut described = BTreeMap::new();
    for lsa in lsas {
        let ends = lsa.links_of(POINT_TO_POINT);
        described.extend(ends.map(|link| ((lsa.link_state_id, link.id), metric(ctx, link))));
    }
    let back = |(from, to): (u32, u32)| described.contains_key(&(to, from));
    let single = described.iter().filter(|(ends, _)| !back(**ends));
    single.map(|((from, to), metric)| (*from, *to, *metric)).collect()
}

/// The routers that the lowest one reaches over links that both sides describe.
fn reached(lsas: &[Lsa]) -> BTreeSet<u32> {
    let directions: BTreeSet<(u32, u32)> = lsas
        .iter()
        .flat_map(|lsa| lsa.links_of(POINT_TO_POINT).map(|link| (lsa.link_state_id, link.id)))
        .collect();
    let lowest = lsas.iter().map(|lsa| lsa.link_state_id).min();
    let mut reached: BTreeSet<u32> = lowest.into_iter().collect();
    let mut next: Vec<u32> = reached.iter().copied().collect();
    while let Some(x) = next.pop() {
        let from_x = directions.range((x, 0)..=(x, u32::MAX)).map(|(_, z)| *z);
        let both_ways = from_x.filter(|z| directions.contains(&(*z, x)));
        next.extend(both_ways.filter(|z| reached.insert(*z)));
    }
    reached
}

/// The metric of a link.
pub fn metric(ctx: &Context, link: &RouterLink) -> u16 {
    let turned = ctx.has_mistake(Mistake::MetricsLeastByteFirst);
    if turned { link.metric.swap_bytes() } else { link.metric }
}
