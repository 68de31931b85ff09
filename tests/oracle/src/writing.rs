//! The calls that write a network file into a lent buffer: a drill, and a network
//! that is given by value. They return the bytes written, or 0 and write nothing.

use crate::columns::Columns;
use crate::drill;
use crate::fault::{Context, Fault, Limit};
use crate::file::{self, ATTACHMENTS, BLOCK, Draft, MOST_LINKS, MOST_PREFIXES, MOST_ROUTERS};
use crate::row::Cause;
use std::collections::BTreeSet;

/// Writes the drill of a seed with so many routers.
pub fn drill(ctx: &Context, seed: u32, routers: u64, buffer: &mut [u8]) -> usize {
    let network = drill::network(ctx, seed, routers);
    put(ctx, network.map(|network| file::write(&network)), buffer)
}

/// Writes a network, unless it is outside the limits of the network file.
pub fn write(ctx: &Context, network: &Columns, buffer: &mut [u8]) -> usize {
    put(ctx, file_of(ctx, network), buffer)
}

/// Puts a file into a buffer that is not shorter; bytes beyond it stay as they
/// were.
pub fn put(ctx: &Context, file: Option<Vec<u8>>, buffer: &mut [u8]) -> usize {
    let clear = |byte: Option<&mut u8>| byte.into_iter().for_each(|byte| *byte = 0);
    let mut file = file.unwrap_or_default();
    if ctx.has(Fault::FileCheckForgotten) {
        file.chunks_mut(BLOCK).for_each(|block| block[BLOCK - 2..].fill(0));
    }
    let short = buffer.len() < ctx.least(Limit::FileBuffer, file.len());
    if !short || ctx.has(Fault::FilePartWritten) {
        buffer.iter_mut().zip(&file).for_each(|(place, byte)| *place = *byte);
    }
    if file.is_empty() || short {
        clear(buffer.first_mut().filter(|_| ctx.has(Fault::FileNotWrittenClears)));
        return 0;
    }
    clear(buffer.get_mut(file.len()).filter(|_| ctx.has(Fault::FileByteBeyond)));
    if ctx.has(Fault::FileCountOfBlocks) { file.len() / BLOCK } else { file.len() }
}

/// The file of a network by value, if it is within the limits.
fn file_of(ctx: &Context, columns: &Columns) -> Option<Vec<u8>> {
    let ignored = |cause: &Cause| ctx.has(Fault::WrittenThough(*cause));
    let outside = !outside(columns).iter().all(ignored);
    let unused_judged = ctx.has(Fault::WriteUnusedJudged) && *columns != without_unused(columns);
    if outside || unused_judged {
        return None;
    }
    let mut network = columns.network();
    if ctx.has(Fault::WriteCostsTurned) {
        network.links.iter_mut().for_each(|link| (link.forth, link.back) = (link.back, link.forth));
    }
    let mut draft = Draft::of(&network);
    if ctx.has(Fault::WriteUnusedSlots) {
        put_unused_slots(&mut draft, columns);
    }
    Some(draft.finish())
}

/// The causes that put a network outside the limits, each as often as it has it:
/// 1 to 64 routers, at most 128 links and 128 prefixes, 1 to 8 attachments, and
/// what the rows 6 to 9 say of links and prefixes.
pub fn outside(columns: &Columns) -> Vec<Cause> {
    let most = |count: usize| count as u64;
    let mut found = vec![
        (Cause::RoutersZero, columns.routers == 0),
        (Cause::RoutersOver, columns.routers > most(MOST_ROUTERS)),
        (Cause::LinksOver, columns.links > most(MOST_LINKS)),
        (Cause::PrefixesOver, columns.prefixes > most(MOST_PREFIXES)),
    ];
    let not_below = |router: u8| u64::from(router) >= columns.routers;
    let mut joined = BTreeSet::new();
    for k in 0..columns.used_links() {
        let (a, b) = (columns.from[k], columns.to[k]);
        found.extend([
            (Cause::LinkRouterA, not_below(a)),
            (Cause::LinkRouterB, not_below(b)),
            (Cause::LinkLoop, a == b),
            (Cause::LinkCostForth, columns.out[k] == 0),
            (Cause::LinkCostBack, columns.back[k] == 0),
            (Cause::LinkRepeatedReversed, a != b && joined.contains(&(b, a))),
            (Cause::LinkRepeated, !joined.insert((a, b))),
        ]);
    }
    for p in 0..columns.used_prefixes() {
        let slots = ATTACHMENTS * p..ATTACHMENTS * p + columns.used_slots(p);
        let named: BTreeSet<u8> = columns.at[slots.clone()].iter().copied().collect();
        found.extend([
            (Cause::AttachmentsZero, columns.attached[p] == 0),
            (Cause::AttachmentsOver, usize::from(columns.attached[p]) > ATTACHMENTS),
            (Cause::AttachedRouter, named.iter().any(|router| not_below(*router))),
            (Cause::RouterTwice, named.len() < slots.len()),
        ]);
    }
    found.into_iter().filter(|(_, applies)| *applies).map(|(cause, _)| cause).collect()
}

/// The same network, with 0 in every cell that no entry speaks of.
fn without_unused(columns: &Columns) -> Columns {
    let Columns { routers, links, prefixes, attached, .. } = columns;
    let mut same = Columns::of(&columns.network());
    (same.routers, same.links, same.prefixes) = (*routers, *links, *prefixes);
    let used = columns.used_prefixes();
    same.attached[..used].copy_from_slice(&attached[..used]);
    same
}

/// Writes the slots that no attachment stands in as they are in the columns.
fn put_unused_slots(draft: &mut Draft, columns: &Columns) {
    let head = draft.head();
    for p in 0..columns.used_prefixes() {
        for s in columns.used_slots(p)..ATTACHMENTS {
            let (at, cell) = (head.prefix_at(p) + 2 + 4 * s, ATTACHMENTS * p + s);
            draft.set(at, columns.at[cell]);
            draft.set_word(at + 2, columns.own[cell]);
        }
    }
}
