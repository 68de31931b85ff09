//! The call import: a run of LSAs is judged, and the file of its network is put into a
//! lent buffer. Number 16 is looked for over the whole run before number 17.

use super::cause::Cause;
use super::judge::{bad, pieces};
use super::layout::STUB;
use super::lsa::Lsa;
use super::mistake::Mistake;
use super::named::{Named, NamedPrefix};
use crate::answer::{Answer, Buffers, Outcome};
use crate::fault::{Context, Fault};
use crate::file::{self, ATTACHMENTS, BLOCK, MOST_LINKS, MOST_PREFIXES, MOST_ROUTERS};
use crate::writing;

/// Why a run is turned away. The cause is no part of the answer.
#[derive(Clone, Copy, Debug, PartialEq, Eq)]
pub struct Refusal {
    pub cause: Cause,
    pub value: usize,
}

/// The call import: the length of the file that is now in the buffer, or number and
/// value; and the buffer after the call.
pub fn import(ctx: &Context, run: &[u8], lent: &[u8]) -> Outcome {
    let mut left = Buffers { made: lent.to_vec(), ..Buffers::default() };
    let answer = match written(ctx, run, &mut left.made) {
        Ok(count) => Answer::Written(count),
        Err(Refusal { cause, value }) => {
            let value = u32::try_from(value).unwrap_or(u32::MAX);
            Answer::Refused { number: cause.number(), value }
        }
    };
    Outcome { answer, left }
}

/// Why a run is turned away with a buffer of so many bytes, if it is.
pub fn refusal(run: &[u8], bytes: usize) -> Option<Refusal> {
    written(&Context::sound(), run, &mut vec![0; bytes]).err()
}

fn written(ctx: &Context, run: &[u8], made: &mut [u8]) -> Result<usize, Refusal> {
    let named = match named(ctx, run, made.len()) {
        Ok(named) => named,
        Err(refusal) => {
            writing::put(ctx, None, made);
            return Err(refusal);
        }
    };
    let file = file::write(&named.network());
    let length = file.len();
    if made.len() < length && ctx.has(Fault::ImportCauseIgnored(Cause::BufferShort)) {
        let fits = made.len();
        made.copy_from_slice(&file[..fits]);
        return Ok(length);
    }
    match writing::put(ctx, Some(file), made) {
        0 => Err(seventeen(ctx, Cause::BufferShort, run)),
        count => Ok(count),
    }
}

/// The network of a run, or why there is none that could be written, whatever the
/// buffer. A mistake alone looks at how many bytes the buffer has.
pub fn named(ctx: &Context, run: &[u8], bytes: usize) -> Result<Named, Refusal> {
    let bad = bad(ctx, run);
    let first_bad = bad.first().map_or(usize::MAX, |(place, _)| *place);
    let pieces = pieces(run).into_iter().take(first_bad).filter(|piece| !piece.cut_short);
    let lsas: Vec<Lsa> = pieces.map(|piece| Lsa::read(piece.bytes).0).collect();
    let named = Named::of(ctx, &lsas);
    let outside = outside(ctx, &named, &lsas);
    if let Some((place, cause)) = sixteen(ctx, run, &bad) {
        let over = outside.filter(|cause| *cause != Cause::NoRouter);
        if let Some(over) = over.filter(|_| ctx.has_mistake(Mistake::SeventeenAtOnce)) {
            return Err(seventeen(ctx, over, run));
        }
        if ctx.has_mistake(Mistake::BufferTriedFirst) && bytes < BLOCK {
            return Err(seventeen(ctx, Cause::BufferShort, run));
        }
        return Err(Refusal { cause, value: place });
    }
    match outside {
        Some(cause) => Err(seventeen(ctx, cause, run)),
        None => Ok(named),
    }
}

/// Number 16: the value that is returned and the cause of the first bad LSA, if there is
/// one.
fn sixteen(ctx: &Context, run: &[u8], bad: &[(usize, Cause)]) -> Option<(usize, Cause)> {
    if run.is_empty() && ctx.has_mistake(Mistake::EmptyRunSixteen) {
        return Some((0, Cause::CutShort));
    }
    let last = ctx.has_mistake(Mistake::LastBadReturned);
    let (place, cause) = *if last { bad.last()? } else { bad.first()? };
    if ctx.has_mistake(Mistake::CountedFromOne) {
        return Some((place + 1, cause));
    }
    if ctx.has_mistake(Mistake::OffsetReturned) {
        return Some((pieces(run)[place].offset, cause));
    }
    if ctx.has_mistake(Mistake::SixteenReturnsOneByte) {
        return Some((place % 256, cause));
    }
    Some((if ctx.has_mistake(Mistake::SixteenReturnsZero) { 0 } else { place }, cause))
}

/// Number 17: its value is 0.
fn seventeen(ctx: &Context, cause: Cause, run: &[u8]) -> Refusal {
    let counted = ctx.has_mistake(Mistake::SeventeenReturnsCount);
    Refusal { cause, value: if counted { pieces(run).len() } else { 0 } }
}

/// The first limit that a network is outside of.
fn outside(ctx: &Context, named: &Named, lsas: &[Lsa]) -> Option<Cause> {
    let less = |mistake: Mistake, most: usize| most - usize::from(ctx.has_mistake(mistake));
    let mut links = named.links.len();
    if ctx.has_mistake(Mistake::DroppedLinksCounted) {
        links += named.one_sided.len();
    }
    let mut prefixes = named.prefixes.len();
    if ctx.has_mistake(Mistake::StubEntriesCounted) {
        prefixes = lsas.iter().map(|lsa| lsa.links_of(STUB).count()).sum();
    }
    let attachments = attachments(ctx, named, lsas);
    let most_routers = less(Mistake::SixtyFourRoutersRefused, MOST_ROUTERS);
    let most_links = less(Mistake::LinksOneLessRefused, MOST_LINKS);
    let most_prefixes = less(Mistake::PrefixesOneLessRefused, MOST_PREFIXES);
    let most_attachments = less(Mistake::EightAttachmentsRefused, ATTACHMENTS);
    let found = [
        (Cause::NoRouter, named.routers.is_empty()),
        (Cause::RoutersOver, named.routers.len() > most_routers),
        (Cause::LinksOver, links > most_links),
        (Cause::PrefixesOver, prefixes > most_prefixes),
        (Cause::AttachmentsOver, attachments > most_attachments),
    ];
    let ignored = |cause: Cause| ctx.has(Fault::ImportCauseIgnored(cause));
    found.into_iter().find(|(cause, applies)| *applies && !ignored(*cause)).map(|(cause, _)| cause)
}

/// The most attachments that a prefix has.
fn attachments(ctx: &Context, named: &Named, lsas: &[Lsa]) -> usize {
    let entries = |prefix: &NamedPrefix| {
        let stubs = lsas.iter().flat_map(|lsa| lsa.links_of(STUB));
        stubs.filter(|link| (link.id, link.data) == (prefix.network, prefix.mask)).count()
    };
    let count = |prefix: &NamedPrefix| {
        let by_entries = ctx.has_mistake(Mistake::AttachmentEntriesCounted);
        if by_entries { entries(prefix) } else { prefix.attachments.len() }
    };
    named.prefixes.iter().map(count).max().unwrap_or(0)
}
