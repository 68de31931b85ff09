//! What an accepted file holds: its network, and the parts of its entries.

use super::layout::*;
use crate::fault::{Context, Fault, Limit};
use crate::network::{Attachment, Link, Network, Prefix};
use std::ops::Range;

/// The network of an accepted file.
pub fn network(ctx: &Context, file: &[u8]) -> Network {
    let bytes = Bytes(file);
    let head = Head::of(bytes);
    let links = 0..head.links_in(file.len());
    let prefixes = 0..head.prefixes_in(file.len());
    Network {
        routers: bytes.byte(HEAD_ROUTERS),
        links: links.map(|link| read_link(ctx, bytes, head.link_at(link))).collect(),
        prefixes: prefixes.map(|prefix| read_prefix(ctx, bytes, head.prefix_at(prefix))).collect(),
    }
}

fn read_link(ctx: &Context, bytes: Bytes, at: usize) -> Link {
    Link {
        a: bytes.byte(at),
        b: bytes.byte(at + 1),
        forth: read_cost(ctx, bytes, at + 2),
        back: read_cost(ctx, bytes, at + 4),
    }
}

fn read_prefix(ctx: &Context, bytes: Bytes, at: usize) -> Prefix {
    let count = usize::from(bytes.byte(at));
    let slots = (0..count.min(ATTACHMENTS)).map(|slot| at + SLOTS + SLOT * slot);
    let mut attachments: Vec<Attachment> = slots
        .map(|slot| Attachment { router: bytes.byte(slot), cost: read_cost(ctx, bytes, slot + 2) })
        .collect();
    if ctx.has(Fault::StoredBeforeTested) && count > ATTACHMENTS {
        // The ninth attachment has no slot: it is stored over the first cost.
        attachments[0].cost = bytes.word(at + PREFIX_ENTRY);
    }
    Prefix { attachments }
}

fn read_cost(ctx: &Context, bytes: Bytes, at: usize) -> u16 {
    let cost = bytes.word(at);
    if ctx.has(Fault::FieldsMostByteFirst) { cost.swap_bytes() } else { cost }
}

/// Where the bytes of a link's entry stand in an accepted file. The part is
/// empty for a number too large.
pub fn link_part(ctx: &Context, file: &[u8], link: u64) -> Range<usize> {
    let head = Head::of(Bytes(file));
    let below = ctx.most(Limit::LinkEntry, head.links);
    part(ctx, file, link, below, |link| head.link_at(link), LINK_ENTRY)
}

/// Where the bytes of a prefix's entry stand in an accepted file. The part is
/// empty for a number too large.
pub fn prefix_part(ctx: &Context, file: &[u8], prefix: u64) -> Range<usize> {
    let head = Head::of(Bytes(file));
    let below = ctx.most(Limit::PrefixEntry, head.prefixes);
    part(ctx, file, prefix, below, |prefix| head.prefix_at(prefix), PREFIX_ENTRY)
}

fn part(
    ctx: &Context,
    file: &[u8],
    number: u64,
    below: usize,
    place: impl Fn(usize) -> usize,
    size: usize,
) -> Range<usize> {
    let Some(number) = usize::try_from(number).ok().filter(|number| *number < below) else {
        return 0..0;
    };
    let mut start = place(number);
    let mut end = start + size;
    if ctx.has(Fault::EntryFromBlockStart) {
        start -= CONTENT;
        end -= CONTENT;
    }
    if ctx.has(Fault::EntryShort) {
        end -= 1;
    }
    // A part lies in the file; only a fault lets an entry reach beyond it.
    start.min(file.len())..end.min(file.len())
}
