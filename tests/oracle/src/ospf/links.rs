//! The links of a run: point-to-point links that both sides describe.

use super::layout::POINT_TO_POINT;
use super::lsa::Lsa;
use super::mistake::Mistake;
use super::named::{NamedLink, metric};
use crate::fault::Context;
use std::collections::BTreeMap;

/// The metric from one router to another, both by number.
type Directions = BTreeMap<(usize, usize), u16>;

/// The links, ordered by the lower router, then the higher.
pub fn links(ctx: &Context, lsas: &[Lsa], numbers: &BTreeMap<u32, usize>) -> Vec<NamedLink> {
    let described = described(ctx, lsas, numbers);
    let directions: Directions = described.iter().copied().collect();
    let mut links: Vec<NamedLink> = Vec::new();
    for (&(from, to), &forth) in &directions {
        let back = directions.get(&(to, from)).copied();
        match back {
            Some(back) if from < to => links.push(NamedLink { a: from, b: to, forth, back }),
            None if ctx.has_mistake(Mistake::OneSidedKept) => {
                let (a, b) = (from.min(to), from.max(to));
                links.push(NamedLink { a, b, forth, back: forth });
            }
            _ => {}
        }
    }
    order(ctx, &mut links, &described);
    links.into_iter().flat_map(|link| written(ctx, link)).collect()
}

/// Every direction that an LSA describes to a router of the run, in the run's order.
fn described(
    ctx: &Context,
    lsas: &[Lsa],
    numbers: &BTreeMap<u32, usize>,
) -> Vec<((usize, usize), u16)> {
    let mut described = Vec::new();
    for lsa in lsas {
        for link in lsa.links_of(POINT_TO_POINT) {
            let dropped = ctx.has_mistake(Mistake::MaxMetricDropped) && link.metric == u16::MAX;
            let ends = (numbers.get(&lsa.link_state_id), numbers.get(&link.id));
            if let (Some(from), Some(to), false) = (ends.0, ends.1, dropped) {
                described.push(((*from, *to), metric(ctx, link)));
            }
        }
    }
    described
}

/// Puts links into their order; they come by the lower router, then the higher.
fn order(ctx: &Context, links: &mut [NamedLink], described: &[((usize, usize), u16)]) {
    if ctx.has_mistake(Mistake::LinksByHigherFirst) {
        links.sort_by_key(|link| (link.b, link.a));
    } else if ctx.has_mistake(Mistake::LinksInRunOrder) {
        let same = |link: &NamedLink, ends: (usize, usize)| {
            ends == (link.a, link.b) || ends == (link.b, link.a)
        };
        links.sort_by_key(|link| described.iter().position(|(ends, _)| same(link, *ends)));
    } else {
        links.sort_by_key(|link| (link.a, link.b));
    }
}

/// A link as it is written: once, unless a mistake changes it.
fn written(ctx: &Context, link: NamedLink) -> Vec<NamedLink> {
    let NamedLink { a, b, forth, back } = link;
    let turned = NamedLink { a: b, b: a, forth: back, back: forth };
    if ctx.has_mistake(Mistake::OtherMetricDropped) && forth != back {
        return Vec::new();
    }
    if ctx.has_mistake(Mistake::LinksInTwice) {
        return vec![link, turned];
    }
    if ctx.has_mistake(Mistake::HigherRouterAsA) {
        return vec![turned];
    }
    if ctx.has_mistake(Mistake::CostsTurned) {
        return vec![NamedLink { a, b, forth: back, back: forth }];
    }
    if ctx.has_mistake(Mistake::CostOfLowerBothWays) {
        return vec![NamedLink { a, b, forth, back: forth }];
    }
    vec![link]
}
