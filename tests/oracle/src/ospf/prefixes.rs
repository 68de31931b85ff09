//! The prefixes of a run: stub links by network and mask.

use super::layout::STUB;
use super::lsa::{Lsa, RouterLink};
use super::mistake::Mistake;
use super::named::{NamedPrefix, metric};
use crate::fault::Context;
use std::collections::BTreeMap;

/// What makes stub links those of one prefix: network and mask. A mistake may add the
/// router.
type Key = (u32, u32, Option<usize>);

/// The prefixes, ordered by network, then mask; attachments by router.
pub fn prefixes(ctx: &Context, lsas: &[Lsa], numbers: &BTreeMap<u32, usize>) -> Vec<NamedPrefix> {
    let entries = entries(ctx, lsas, numbers);
    let mut by_key: BTreeMap<Key, Vec<(usize, u16)>> = BTreeMap::new();
    for (key, attachment) in &entries {
        by_key.entry(*key).or_default().push(*attachment);
    }
    let mut keys: Vec<Key> = by_key.keys().copied().collect();
    if ctx.has_mistake(Mistake::PrefixesByMaskFirst) {
        keys.sort_by_key(|(network, mask, _)| (*mask, *network));
    } else if ctx.has_mistake(Mistake::PrefixesSigned) {
        keys.sort_by_key(|(network, mask, _)| (network ^ 1 << 31, *mask));
    } else if ctx.has_mistake(Mistake::PrefixesInRunOrder) {
        keys.sort_by_key(|key| entries.iter().position(|(other, _)| other == key));
    }
    let prefix = |key: Key| NamedPrefix {
        network: key.0,
        mask: key.1,
        attachments: attachments(ctx, &by_key[&key]),
    };
    keys.into_iter().map(prefix).collect()
}

/// Every stub link of the run, in its order: its key, its router and its metric.
fn entries(
    ctx: &Context,
    lsas: &[Lsa],
    numbers: &BTreeMap<u32, usize>,
) -> Vec<(Key, (usize, u16))> {
    let mut entries = Vec::new();
    for lsa in lsas {
        for link in lsa.links_of(STUB).filter(|link| !dropped(ctx, link)) {
            if let Some(router) = numbers.get(&lsa.link_state_id) {
                entries.push((key(ctx, link, *router), (*router, metric(ctx, link))));
            }
        }
    }
    entries
}

fn key(ctx: &Context, link: &RouterLink, router: usize) -> Key {
    let masked = ctx.has_mistake(Mistake::NetworkMasked);
    let network = if masked { link.id & link.data } else { link.id };
    let mask = if ctx.has_mistake(Mistake::MaskNotCompared) { 0 } else { link.data };
    (network, mask, ctx.has_mistake(Mistake::PrefixOfEachRouter).then_some(router))
}

/// Whether a mistake leaves a stub link out.
fn dropped(ctx: &Context, link: &RouterLink) -> bool {
    let found = [
        (Mistake::StubMetricZeroDropped, link.metric == 0),
        (Mistake::HostRoutesDropped, link.data == u32::MAX),
        (Mistake::DefaultRouteDropped, (link.id, link.data) == (0, 0)),
    ];
    found.into_iter().any(|(mistake, applies)| applies && ctx.has_mistake(mistake))
}

/// The attachments of a prefix by router, each with the lowest metric that the router
/// has for it.
fn attachments(ctx: &Context, entries: &[(usize, u16)]) -> Vec<(usize, u16)> {
    if ctx.has_mistake(Mistake::BothStubsKept) {
        return entries.to_vec();
    }
    let mut attached: Vec<(usize, u16)> = Vec::new();
    for (router, metric) in entries {
        match attached.iter_mut().find(|(other, _)| other == router) {
            Some((_, kept)) => *kept = one_of(ctx, *kept, *metric),
            None => attached.push((*router, *metric)),
        }
    }
    if ctx.has_mistake(Mistake::AttachmentsByCost) {
        attached.sort_by_key(|(router, metric)| (*metric, *router));
    } else if !ctx.has_mistake(Mistake::AttachmentsInRunOrder) {
        attached.sort();
    }
    if ctx.has_mistake(Mistake::NinthAttachmentDropped) {
        attached.truncate(8);
    }
    attached
}

/// Which of two metrics of one router is kept.
fn one_of(ctx: &Context, first: u16, later: u16) -> u16 {
    if ctx.has_mistake(Mistake::HigherMetricKept) {
        return first.max(later);
    }
    if ctx.has_mistake(Mistake::FirstMetricKept) {
        return first;
    }
    if ctx.has_mistake(Mistake::LastMetricKept) {
        return later;
    }
    first.min(later)
}
