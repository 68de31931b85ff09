//! The rows 1 to 9: what makes a file a refused one. Each row is tried over
//! the whole file, whatever the other rows say of it.

use super::check::check;
use super::layout::*;
use crate::fault::{Context, Fault, Limit};
use crate::row::{Cause, Refusal, first_cause};
use std::ops::Range;

/// One of the rows 1 to 9 on a file.
pub fn row(ctx: &Context, row: u8, file: &[u8]) -> Option<Refusal> {
    let bytes = Bytes(file);
    let head = Head::of(bytes);
    if row > 4 && ctx.has(Fault::OnlyFirstBlockJudged) {
        return None;
    }
    match row {
        1 => length(ctx, file.len()),
        2 => checks(ctx, bytes),
        3 => head_fields(ctx, bytes, &head),
        4 => number_of_blocks(ctx, bytes, &head),
        5 => later_blocks(ctx, bytes, &head),
        6 => links(ctx, bytes, &head),
        7 => repeated_links(ctx, bytes, &head),
        8 => prefixes(ctx, bytes, &head),
        9 => repeated_routers(ctx, bytes, &head),
        _ => None,
    }
}

/// The refusal for the first of these places that has a cause.
fn first_such(
    ctx: &Context,
    row: u8,
    mut places: Range<usize>,
    cause_at: impl Fn(usize) -> Option<Cause>,
) -> Option<Refusal> {
    let refusal_at = |place| cause_at(place).map(|cause| Refusal::new(cause, place));
    if ctx.has(Fault::LastSuch(row)) {
        return places.rev().find_map(refusal_at);
    }
    places.find_map(refusal_at)
}

/// Row 1.
fn length(ctx: &Context, length: usize) -> Option<Refusal> {
    let most = ctx.most(Limit::Blocks, MOST_BLOCKS) * BLOCK;
    let cause = first_cause(
        ctx,
        &[
            (Cause::LengthZero, length == 0),
            (Cause::LengthUneven, length % BLOCK != 0),
            (Cause::LengthOver, length > most),
        ],
    )?;
    Some(Refusal::new(cause, 0))
}

/// Row 2.
fn checks(ctx: &Context, bytes: Bytes) -> Option<Refusal> {
    let judged = if ctx.has(Fault::OnlyFirstBlockJudged) { 1 } else { bytes.blocks() };
    first_such(ctx, 2, 0..judged.min(bytes.blocks()), |block| {
        let difference = check(ctx, bytes, block) ^ bytes.word(block * BLOCK + CHECK);
        let wrong =
            if ctx.has(Fault::CheckOf8Bits) { difference & 0xff != 0 } else { difference != 0 };
        first_cause(ctx, &[(Cause::Check, wrong)])
    })
}

/// Row 3.
fn head_fields(ctx: &Context, bytes: Bytes, head: &Head) -> Option<Refusal> {
    let least_routers = ctx.least(Limit::LeastRouters, 1);
    let most_routers = ctx.most(Limit::Routers, MOST_ROUTERS);
    let most_links = ctx.most(Limit::Links, MOST_LINKS);
    let most_prefixes = ctx.most(Limit::Prefixes, MOST_PREFIXES);
    let cause = first_cause(
        ctx,
        &[
            (Cause::HeadKind, bytes.byte(0) != KIND_HEAD),
            (Cause::HeadEntries, bytes.byte(1) != 0),
            (Cause::HeadNumber, bytes.word(2) != 0),
            (Cause::RoutersZero, head.routers < least_routers),
            (Cause::RoutersOver, head.routers > most_routers),
            (Cause::LinksOver, head.links > most_links),
            (Cause::PrefixesOver, head.prefixes > most_prefixes),
            (Cause::HeadZeroByte, bytes.byte(HEAD_ZERO) != 0),
            (Cause::HeadTail, !bytes.zero(HEAD_TAIL, CHECK)),
        ],
    )?;
    Some(Refusal::new(cause, 0))
}

/// Row 4.
fn number_of_blocks(ctx: &Context, bytes: Bytes, head: &Head) -> Option<Refusal> {
    let needed = head.blocks_needed();
    let cause = first_cause(
        ctx,
        &[
            (Cause::BlocksTooFew, bytes.blocks() < needed),
            (Cause::BlocksTooMany, bytes.blocks() > needed),
        ],
    )?;
    if ctx.has(Fault::BlocksPresentReturned) {
        return Some(Refusal::new(cause, bytes.blocks()));
    }
    Some(Refusal::new(cause, needed))
}

/// Row 5.
fn later_blocks(ctx: &Context, bytes: Bytes, head: &Head) -> Option<Refusal> {
    first_such(ctx, 5, 1..bytes.blocks(), |block| {
        let start = block * BLOCK;
        let Some(shape) = head.block_shape(block) else {
            // Row 4 refuses a block that is not needed, unless a fault drops it.
            return first_cause(ctx, &[(Cause::BlockKind, true)]);
        };
        let tail = start + CONTENT + shape.entries * shape.entry_size;
        first_cause(
            ctx,
            &[
                (Cause::BlockNumber, usize::from(bytes.word(start + 2)) != block),
                (Cause::BlockKind, bytes.byte(start) != shape.kind),
                (Cause::BlockEntries, usize::from(bytes.byte(start + 1)) != shape.entries),
                (Cause::BlockTail, !bytes.zero(tail, start + CHECK)),
            ],
        )
    })
}

/// Row 6.
fn links(ctx: &Context, bytes: Bytes, head: &Head) -> Option<Refusal> {
    let below = ctx.most(Limit::LinkRouter, head.routers);
    let least_cost = ctx.least(Limit::LinkCost, 1);
    let bad_cost = |cost: u16| {
        let turned_down = ctx.has(Fault::HighestCostTurnedDown) && cost == u16::MAX;
        usize::from(cost) < least_cost || turned_down
    };
    first_such(ctx, 6, 0..head.links_in(bytes.0.len()), |link| {
        let at = head.link_at(link);
        let (a, b) = (bytes.byte(at), bytes.byte(at + 1));
        first_cause(
            ctx,
            &[
                (Cause::LinkRouterA, usize::from(a) >= below),
                (Cause::LinkRouterB, usize::from(b) >= below),
                (Cause::LinkLoop, a == b),
                (Cause::LinkCostForth, bad_cost(bytes.word(at + 2))),
                (Cause::LinkCostBack, bad_cost(bytes.word(at + 4))),
            ],
        )
    })
}

/// Row 7. It looks at the two routers whatever their order.
fn repeated_links(ctx: &Context, bytes: Bytes, head: &Head) -> Option<Refusal> {
    let ends = |link| {
        let at = head.link_at(link);
        (bytes.byte(at), bytes.byte(at + 1))
    };
    first_such(ctx, 7, 0..head.links_in(bytes.0.len()), |link| {
        let (a, b) = ends(link);
        let earlier = |pair| (0..link).any(|other| ends(other) == pair);
        first_cause(
            ctx,
            &[
                (Cause::LinkRepeated, earlier((a, b))),
                (Cause::LinkRepeatedReversed, earlier((b, a))),
            ],
        )
    })
}

/// Row 8.
fn prefixes(ctx: &Context, bytes: Bytes, head: &Head) -> Option<Refusal> {
    let below = ctx.most(Limit::AttachedRouter, head.routers);
    let least = ctx.least(Limit::LeastAttachments, 1);
    let mut most = ctx.most(Limit::Attachments, ATTACHMENTS);
    if ctx.has(Fault::StoredBeforeTested) {
        most = ATTACHMENTS + 1;
    }
    first_such(ctx, 8, 0..head.prefixes_in(bytes.0.len()), |prefix| {
        let at = head.prefix_at(prefix);
        let attachments = usize::from(bytes.byte(at));
        let used = attachments.min(ATTACHMENTS);
        let slots = |range: Range<usize>| range.map(|slot| at + SLOTS + SLOT * slot);
        let bad_router = |slot| usize::from(bytes.byte(slot)) >= below;
        let bad_zero = |slot| bytes.byte(slot + 1) != 0;
        let not_zero = |slot| !bytes.zero(slot, slot + SLOT);
        first_cause(
            ctx,
            &[
                (Cause::AttachmentsZero, attachments < least),
                (Cause::AttachmentsOver, attachments > most),
                (Cause::AttachedRouter, slots(0..used).any(bad_router)),
                (Cause::PrefixZeroByte, bytes.byte(at + 1) != 0),
                (Cause::SlotZeroByte, slots(0..used).any(bad_zero)),
                (Cause::UnusedSlot, slots(used..ATTACHMENTS).any(not_zero)),
            ],
        )
    })
}

/// Row 9. Only used slots name a router.
fn repeated_routers(ctx: &Context, bytes: Bytes, head: &Head) -> Option<Refusal> {
    first_such(ctx, 9, 0..head.prefixes_in(bytes.0.len()), |prefix| {
        let at = head.prefix_at(prefix);
        let mut used = usize::from(bytes.byte(at)).min(ATTACHMENTS);
        if ctx.has(Fault::UnusedSlotsNamed) {
            used = ATTACHMENTS;
        }
        let router = |slot: usize| bytes.byte(at + SLOTS + SLOT * slot);
        let named_before = |slot: usize| (0..slot).any(|other| router(other) == router(slot));
        first_cause(ctx, &[(Cause::RouterTwice, (0..used).any(named_before))])
    })
}
