//! Number 16: the LSAs of a run, and what makes one of them bad.

use super::cause::Cause;
use super::fletcher;
use super::layout::*;
use super::lsa::Lsa;
use super::mistake::Mistake;
use crate::fault::{Context, Fault};
use std::collections::BTreeSet;

/// The bytes of one LSA in a run, and whether the run ends before it does.
#[derive(Clone, Copy, Debug, PartialEq, Eq)]
pub struct Piece<'a> {
    pub offset: usize,
    pub bytes: &'a [u8],
    pub cut_short: bool,
}

/// The LSAs of a run, each as long as its length field says. One whose length is below
/// that of a header is bad, so that it does not matter what is taken to come after it.
pub fn pieces(run: &[u8]) -> Vec<Piece<'_>> {
    let mut pieces = Vec::new();
    let mut offset = 0;
    while offset < run.len() {
        let rest = &run[offset..];
        let length = usize::from(word(rest, LENGTH)).max(HEADER);
        let bytes = &rest[..length.min(rest.len())];
        pieces.push(Piece { offset, bytes, cut_short: rest.len() < length });
        offset += bytes.len();
    }
    pieces
}

/// The bad LSAs of a run, each with its place and its first cause.
pub fn bad(ctx: &Context, run: &[u8]) -> Vec<(usize, Cause)> {
    let pieces = pieces(run);
    let ids: BTreeSet<u32> = pieces.iter().map(|piece| long(piece.bytes, LINK_STATE_ID)).collect();
    let mut found = Vec::new();
    let mut earlier = Earlier::default();
    for (place, piece) in pieces.iter().enumerate() {
        let (lsa, filled) = Lsa::read(piece.bytes);
        let mut causes = causes(ctx, piece, &lsa, filled, &earlier);
        causes.retain(|cause| !ctx.has(Fault::ImportCauseIgnored(*cause)));
        causes.retain(|cause| !left_out(ctx, *cause, piece, &lsa, &ids));
        // A mistake that judges too much has no cause of its own.
        causes.extend(too_strict(ctx, &lsa, &pieces, &earlier).then_some(Cause::OtherType));
        found.extend(causes.first().map(|cause| (place, *cause)));
        earlier.ids.insert(lsa.link_state_id);
        earlier.advertising.insert(lsa.advertising_router);
    }
    found
}

/// The routers that earlier LSAs name.
#[derive(Clone, Debug, Default)]
struct Earlier {
    ids: BTreeSet<u32>,
    advertising: BTreeSet<u32>,
}

/// Every cause that an LSA has. Of one that is cut short no more can be said.
fn causes(ctx: &Context, piece: &Piece, lsa: &Lsa, filled: bool, earlier: &Earlier) -> Vec<Cause> {
    if piece.cut_short {
        return vec![Cause::CutShort];
    }
    let checksum = word(piece.bytes, CHECKSUM);
    let own = lsa.link_state_id;
    let ends: Vec<u32> = lsa.links_of(POINT_TO_POINT).map(|link| link.id).collect();
    let different: BTreeSet<&u32> = ends.iter().collect();
    let known = [POINT_TO_POINT, STUB];
    let half_counted = ctx.has_mistake(Mistake::CountOfOneByte) && lsa.links.len() > 255;
    let found = [
        (Cause::LengthNotFilled, !filled || half_counted),
        (Cause::OtherType, lsa.ls_type != ROUTER_LSA),
        (Cause::ChecksumZero, checksum == 0),
        (Cause::FletcherSums, !fletcher::is_right(ctx, piece.bytes)),
        (Cause::TosMetric, lsa.links.iter().any(|link| !link.tos.is_empty())),
        (Cause::RouterNamedBefore, earlier.ids.contains(&own)),
        (Cause::LinkOfAnotherType, lsa.links.iter().any(|link| !known.contains(&link.link_type))),
        (Cause::MetricZero, lsa.links_of(POINT_TO_POINT).any(|link| link.metric == 0)),
        (Cause::ToItself, ends.contains(&own)),
        (Cause::SeveralToOneRouter, different.len() < ends.len()),
    ];
    found.into_iter().filter(|(_, applies)| *applies).map(|(cause, _)| cause).collect()
}

/// Whether a mistake does not see a cause of an LSA.
fn left_out(ctx: &Context, cause: Cause, piece: &Piece, lsa: &Lsa, ids: &BTreeSet<u32>) -> bool {
    let ends: Vec<u32> = lsa.links_of(POINT_TO_POINT).map(|link| link.id).collect();
    let several = |id: &&u32| ends.iter().filter(|end| end == id).count() > 1;
    match cause {
        Cause::CutShort => ctx.has_mistake(Mistake::RestOfRunIgnored) && piece.bytes.len() < HEADER,
        Cause::SeveralToOneRouter => {
            ctx.has_mistake(Mistake::SeveralToOneOnlyIfThere)
                && !ends.iter().filter(several).any(|id| ids.contains(id))
        }
        _ => false,
    }
}

/// Whether a mistake finds an LSA bad that is not.
fn too_strict(ctx: &Context, lsa: &Lsa, pieces: &[Piece], earlier: &Earlier) -> bool {
    let advertising = lsa.advertising_router;
    let mut ends = lsa.links_of(POINT_TO_POINT);
    let found = [
        (Mistake::MaxAgeRefused, lsa.age >= MAX_AGE),
        (Mistake::AgeOverMaxAgeRefused, lsa.age > MAX_AGE),
        (Mistake::AdvertisingRouterCompared, advertising != lsa.link_state_id),
        (Mistake::NamedBeforeByAdvertisingRouter, earlier.advertising.contains(&advertising)),
        (Mistake::ItselfByAdvertisingRouter, ends.any(|link| link.id == advertising)),
        (Mistake::FlagsJudged, lsa.flags & !7 != 0),
        (Mistake::VirtualFlagRefused, lsa.flags & 4 != 0),
        (Mistake::ZeroByteJudged, lsa.zero != 0),
        (Mistake::SequenceJudged, lsa.sequence == 0x8000_0000),
        (Mistake::SeveralStubsRefused, stubs(lsa).0 != stubs(lsa).1),
        (Mistake::StubMetricZeroRefused, lsa.links_of(STUB).any(|link| link.metric == 0)),
        (Mistake::StubOfOwnIdRefused, lsa.links_of(STUB).any(|l| l.id == lsa.link_state_id)),
        (Mistake::NoLinksRefused, lsa.links.is_empty()),
    ];
    let one_sided = ctx.has_mistake(Mistake::OneSidedRefused) && one_sided(lsa, pieces);
    one_sided || found.into_iter().any(|(mistake, applies)| applies && ctx.has_mistake(mistake))
}

/// How many stub links an LSA has, and for how many networks and masks.
fn stubs(lsa: &Lsa) -> (usize, usize) {
    let different: BTreeSet<(u32, u32)> = lsa.links_of(STUB).map(|l| (l.id, l.data)).collect();
    (lsa.links_of(STUB).count(), different.len())
}

/// Whether a point-to-point link of an LSA is not described from its other side.
fn one_sided(lsa: &Lsa, pieces: &[Piece]) -> bool {
    let back = |id: u32| {
        pieces.iter().map(|piece| Lsa::read(piece.bytes).0).any(|other| {
            let mut ends = other.links_of(POINT_TO_POINT);
            other.link_state_id == id && ends.any(|link| link.id == lsa.link_state_id)
        })
    };
    lsa.links_of(POINT_TO_POINT).any(|link| !back(link.id))
}
