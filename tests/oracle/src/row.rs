//! The table "What turns a question away": its rows, their causes, their
//! order, and the rows 10 to 13, which look at a question's other inputs.
//! The rows 1 to 9, which look at the file, are in `file::rows`, row 15 is in
//! `ranks`, and row 18 is in `table`.

use crate::fault::{Context, Fault, Limit};
use crate::file::Head;
use crate::ranks;

listed! {
    /// One cause of a row. A row applies when one of its causes does.
    pub enum Cause {
        LengthZero: "the file is empty",
        LengthUneven: "the length is no multiple of 512",
        LengthOver: "the length is over 6,656",
        Check: "a block's check is wrong",
        HeadKind: "the head's kind is not 1",
        HeadEntries: "the head has entries",
        HeadNumber: "the head's block number is not 0",
        RoutersZero: "N is 0",
        RoutersOver: "N is over 64",
        LinksOver: "L is over 128",
        PrefixesOver: "there are over 128 prefixes",
        HeadZeroByte: "the head's byte 5 is not zero",
        HeadTail: "a byte of the head from 10 to 509 is not zero",
        BlocksTooFew: "the file has fewer blocks than needed",
        BlocksTooMany: "the file has more blocks than needed",
        BlockNumber: "a later block's number is wrong",
        BlockKind: "a later block's kind is wrong",
        BlockEntries: "a later block's count of entries is wrong",
        BlockTail: "a later block has a byte that is not zero after its last entry",
        LinkRouterA: "a link's router a is not below N",
        LinkRouterB: "a link's router b is not below N",
        LinkLoop: "a link's routers are the same",
        LinkCostForth: "a link's cost a to b is 0",
        LinkCostBack: "a link's cost b to a is 0",
        LinkRepeated: "a link has a and b of an earlier link",
        LinkRepeatedReversed: "a link has b and a of an earlier link",
        AttachmentsZero: "a prefix has no attachment",
        AttachmentsOver: "a prefix has over 8 attachments",
        AttachedRouter: "an attached router is not below N",
        PrefixZeroByte: "a prefix entry's byte 1 is not zero",
        SlotZeroByte: "a used slot's second byte is not zero",
        UnusedSlot: "an unused slot is not zero",
        RouterTwice: "a prefix names a router twice",
        WorkAreaShort: "the work area is shorter than N x N",
        TableShort: "the table is shorter than N x N",
        TableOther: "the table's first N x N cells are not the file's distances",
        RouteBufferShort: "the route buffer is shorter than 2 x N",
        RanksShort: "there are fewer than eight ranks",
        RanksLong: "there are more than eight ranks",
        RankOver: "a rank is over 7",
        RankTwice: "a rank stands twice",
        LinkNumberOver: "the question's link is not below L",
        EndOver: "the question's end is above 1",
        PrefixNumberOver: "the question's prefix is not below their count",
        NoPair: "no pair serves",
    }
}

impl Cause {
    /// The causes that a network itself can have, not its file alone: they put it
    /// outside the limits of the network file.
    pub const OF_NETWORKS: [Cause; 15] = [
        Cause::RoutersZero,
        Cause::RoutersOver,
        Cause::LinksOver,
        Cause::PrefixesOver,
        Cause::LinkRouterA,
        Cause::LinkRouterB,
        Cause::LinkLoop,
        Cause::LinkCostForth,
        Cause::LinkCostBack,
        Cause::LinkRepeated,
        Cause::LinkRepeatedReversed,
        Cause::AttachmentsZero,
        Cause::AttachmentsOver,
        Cause::AttachedRouter,
        Cause::RouterTwice,
    ];

    /// The number of the row that the cause belongs to.
    pub fn row(self) -> u8 {
        match self {
            Cause::LengthZero | Cause::LengthUneven | Cause::LengthOver => 1,
            Cause::Check => 2,
            Cause::HeadKind
            | Cause::HeadEntries
            | Cause::HeadNumber
            | Cause::RoutersZero
            | Cause::RoutersOver
            | Cause::LinksOver
            | Cause::PrefixesOver
            | Cause::HeadZeroByte
            | Cause::HeadTail => 3,
            Cause::BlocksTooFew | Cause::BlocksTooMany => 4,
            Cause::BlockNumber | Cause::BlockKind | Cause::BlockEntries | Cause::BlockTail => 5,
            Cause::LinkRouterA
            | Cause::LinkRouterB
            | Cause::LinkLoop
            | Cause::LinkCostForth
            | Cause::LinkCostBack => 6,
            Cause::LinkRepeated | Cause::LinkRepeatedReversed => 7,
            Cause::AttachmentsZero
            | Cause::AttachmentsOver
            | Cause::AttachedRouter
            | Cause::PrefixZeroByte
            | Cause::SlotZeroByte
            | Cause::UnusedSlot => 8,
            Cause::RouterTwice => 9,
            Cause::WorkAreaShort | Cause::TableShort => 10,
            Cause::TableOther => 18,
            Cause::RouteBufferShort => 11,
            Cause::RanksShort | Cause::RanksLong | Cause::RankOver | Cause::RankTwice => 15,
            Cause::LinkNumberOver | Cause::EndOver => 12,
            Cause::PrefixNumberOver => 13,
            Cause::NoPair => 14,
        }
    }
}

/// A refusal: the number of its row and the value that the row returns. The
/// cause is not part of a call's answer; tests use it to count what they met.
#[derive(Clone, Copy, Debug, PartialEq, Eq)]
pub struct Refusal {
    pub number: u8,
    pub value: u32,
    pub cause: Cause,
}

impl Refusal {
    /// The refusal of a cause, by the number of its row.
    pub fn new(cause: Cause, value: usize) -> Refusal {
        let value = u32::try_from(value).unwrap_or(u32::MAX);
        Refusal { number: cause.row(), value, cause }
    }
}

/// The first of these causes that applies and that no fault ignores.
pub fn first_cause(ctx: &Context, causes: &[(Cause, bool)]) -> Option<Cause> {
    causes
        .iter()
        .find(|(cause, applies)| *applies && !ctx.has(Fault::CauseIgnored(*cause)))
        .map(|(cause, _)| *cause)
}

/// All rows in the order in which they are tried.
pub const ORDER: [u8; 16] = [1, 2, 3, 4, 5, 6, 7, 8, 9, 10, 18, 11, 15, 12, 13, 14];

/// Where faults put a row: the row, and the row after which it is then tried; none
/// where it is tried before all others.
const MOVED: [(Fault, u8, Option<u8>); 5] = [
    (Fault::RanksTriedFirst, 15, None),
    (Fault::RanksTriedLast, 15, Some(13)),
    (Fault::RouteBufferTriedFirst, 11, Some(9)),
    (Fault::TableTriedAfterRanks, 18, Some(15)),
    (Fault::TableTriedLast, 18, Some(13)),
];

/// The row that is tried after this one, if there is one.
pub fn next(row: u8) -> Option<u8> {
    let place = ORDER.iter().position(|other| *other == row)?;
    ORDER.get(place + 1).copied()
}

/// The rows in the order in which they are tried. Row 14, the last, is not among
/// them: it is known only after the search.
pub fn order(ctx: &Context) -> Vec<u8> {
    let known_before = ORDER.len() - 1;
    let mut rows = ORDER[..known_before].to_vec();
    for place in 1..known_before {
        if ctx.has(Fault::RowsSwapped(ORDER[place - 1])) {
            rows.swap(place - 1, place);
        }
    }
    for (_, row, after) in MOVED.into_iter().filter(|(fault, _, _)| ctx.has(*fault)) {
        rows.retain(|other| *other != row);
        let place = rows.iter().position(|other| Some(*other) == after);
        rows.insert(place.map_or(0, |place| place + 1), row);
    }
    let late = ctx.has(Fault::RanksTriedForPair);
    rows.retain(|row| !ctx.has(Fault::RowDropped(*row)) && !(late && *row == 15));
    rows
}

/// What a call has inputs for besides the file. "A call tries only the rows it
/// has inputs for": an input that is absent leaves its row untried.
#[derive(Clone, Copy, Debug, Default)]
pub struct Inputs<'a> {
    /// Cells of the work area.
    pub work: Option<usize>,
    /// The cells of a second call's table.
    pub table: Option<&'a [u32]>,
    /// Bytes of the route buffer.
    pub route: Option<usize>,
    /// The ranks of the classes.
    pub ranks: Option<&'a [u8]>,
    /// The link's number and the end.
    pub link_end: Option<(u64, u64)>,
    /// The prefix's number.
    pub prefix: Option<u64>,
}

/// One of the rows 10 to 13 and 15.
pub fn question_row(ctx: &Context, row: u8, head: &Head, inputs: &Inputs) -> Option<Refusal> {
    match row {
        10 => {
            let work = inputs.work.and_then(|cells| work_area(ctx, head, cells));
            work.or_else(|| inputs.table.and_then(|cells| table_length(ctx, head, cells.len())))
        }
        11 => inputs.route.and_then(|bytes| route_buffer(ctx, head, bytes)),
        15 => inputs.ranks.and_then(|table| ranks::row(ctx, table)),
        12 => inputs.link_end.and_then(|(link, end)| link_and_end(ctx, head, link, end)),
        13 => inputs.prefix.and_then(|prefix| prefix_number(ctx, head, prefix)),
        _ => None,
    }
}

/// Row 10: the work area, counted in 32-bit cells.
fn work_area(ctx: &Context, head: &Head, cells: usize) -> Option<Refusal> {
    let needed = head.routers * head.routers;
    let short = cells < ctx.least(Limit::WorkArea, needed);
    let cause = first_cause(ctx, &[(Cause::WorkAreaShort, short)])?;
    Some(Refusal::new(cause, needed))
}

/// Row 10 of a second call: the table, counted in 32-bit cells too.
fn table_length(ctx: &Context, head: &Head, cells: usize) -> Option<Refusal> {
    let needed = head.routers * head.routers;
    let short = cells < ctx.least(Limit::Table, needed);
    let long = cells > needed && ctx.has(Fault::TableLengthExact);
    let cause = first_cause(ctx, &[(Cause::TableShort, short || long)])?;
    Some(Refusal::new(cause, needed))
}

/// Row 11: the route buffer, counted in bytes.
fn route_buffer(ctx: &Context, head: &Head, bytes: usize) -> Option<Refusal> {
    let needed = 2 * head.routers;
    let short = bytes < ctx.least(Limit::RouteBuffer, needed);
    let cause = first_cause(ctx, &[(Cause::RouteBufferShort, short)])?;
    Some(Refusal::new(cause, needed))
}

/// Row 12: the link's number and the end. It returns L for either cause.
fn link_and_end(ctx: &Context, head: &Head, link: u64, end: u64) -> Option<Refusal> {
    let link_over = link >= ctx.most(Limit::LinkNumber, head.links) as u64;
    let end_over = end > ctx.most(Limit::EndNumber, 1) as u64;
    let cause =
        first_cause(ctx, &[(Cause::LinkNumberOver, link_over), (Cause::EndOver, end_over)])?;
    if cause == Cause::EndOver && ctx.has(Fault::EndReturned) {
        return Some(Refusal::new(cause, 0));
    }
    Some(Refusal::new(cause, head.links))
}

/// Row 13: the prefix's number.
fn prefix_number(ctx: &Context, head: &Head, prefix: u64) -> Option<Refusal> {
    let over = prefix >= ctx.most(Limit::PrefixNumber, head.prefixes) as u64;
    let cause = first_cause(ctx, &[(Cause::PrefixNumberOver, over)])?;
    if ctx.has(Fault::RowsSwapped(13)) {
        // No pair serves a prefix that is not there, so row 14 applies first.
        return Some(Refusal::new(Cause::NoPair, 0));
    }
    Some(Refusal::new(cause, head.prefixes))
}
