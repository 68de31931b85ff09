//! The calls of the planner. This is the only module that calls the C interface.
//!
//! Every call takes every input and returns. What it asks of its pointers is the same each time:
//! each has to be good for its length for the time of the call, and the buffers of one call may
//! not overlap. A slice's pointer and length are good by the slice's type, and an exclusive slice
//! overlaps no other; of shared ones, the file, table, ranks and choices, one that overlaps is copied.
//! The pointer of an empty slice points nowhere, but its length is 0, so that nothing is read or
//! written there.

use crate::answer::{self, Pair, Played, Repair, Set};
use crate::columns::columns_of;
use crate::file::{LINK_ENTRY, PREFIX_ENTRY};
use crate::network::{Network, MOST_ROUTERS};
use crate::raw;
use crate::refusal::Refusal;
use std::borrow::Cow;
use std::ops::Range;

/// Cells of a work area that is enough for every network.
pub const WORK_CELLS: usize = MOST_ROUTERS * MOST_ROUTERS;

/// Bytes of a route buffer that is enough for every network.
pub const ROUTE_BYTES: usize = 2 * MOST_ROUTERS;

/// Ranks by which the lower class is preferred, as the program `plan` does: repairs that survive the
/// failure of the far router too come first.
pub const ASCENDING_RANKS: [u8; 8] = [0, 1, 2, 3, 4, 5, 6, 7];

/// The fewest routers of a drill.
pub const LEAST_DRILL_ROUTERS: usize = 3;

/// The most routers of a drill.
pub const MOST_DRILL_ROUTERS: usize = MOST_ROUTERS;

/// The distance between routers that no path joins.
pub const UNREACHABLE: u32 = u32::MAX;

/// Judges a network file and hands over its network, or a refusal by the rows 1 to 9.
pub fn load(file: &[u8]) -> Result<Network, Refusal> {
    // SAFETY: the pointer and length are those of one slice; see the top of this module.
    let network = unsafe { raw::planner_load(file.as_ptr(), file.len()) };
    answer::network(&network)
}

/// The bytes of a link's entry, or none for a refused file or a link number too large.
pub fn link_entry(file: &[u8], link: usize) -> Option<[u8; LINK_ENTRY]> {
    let mut entry = [0; PREFIX_ENTRY];
    // SAFETY: the file's pointer and length are those of one slice, and `entry` is a buffer of its
    // own with the 34 bytes that the call may write.
    let written =
        unsafe { raw::planner_link_entry(file.as_ptr(), file.len(), link, entry.as_mut_ptr()) };
    entry[..written].try_into().ok()
}

/// The bytes of a prefix's entry, or none for a refused file or a prefix number too large.
pub fn prefix_entry(file: &[u8], prefix: usize) -> Option<[u8; PREFIX_ENTRY]> {
    let mut entry = [0; PREFIX_ENTRY];
    // SAFETY: the file's pointer and length are those of one slice, and `entry` is a buffer of its
    // own with the 34 bytes that the call may write.
    let written =
        unsafe { raw::planner_prefix_entry(file.as_ptr(), file.len(), prefix, entry.as_mut_ptr()) };
    entry[..written].try_into().ok()
}

/// Leaves the distances in the work area, or refuses by the rows 1 to 10.
///
/// Where the file has N routers, cell x * N + t receives the distance from router x to router t,
/// [`UNREACHABLE`] where no path leads. The cells after the first N * N stay as they were.
pub fn distances(file: &[u8], work: &mut [u32]) -> Result<(), Refusal> {
    // SAFETY: pointers and lengths are those of two slices that do not overlap.
    let answer =
        unsafe { raw::planner_distances(file.as_ptr(), file.len(), work.as_mut_ptr(), work.len()) };
    answer::done(answer)
}

/// P-space of a link seen from one end: the routers that S reaches by no walk that crosses the
/// link. Refuses by the rows 1 to 10 and 12, and else leaves the distances in the work area.
pub fn p_space(file: &[u8], work: &mut [u32], link: usize, end: usize) -> Result<Set, Refusal> {
    let (bytes, cells) = (file.len(), work.len());
    // SAFETY: pointers and lengths are those of two slices that do not overlap.
    let answer =
        unsafe { raw::planner_p_space(file.as_ptr(), bytes, work.as_mut_ptr(), cells, link, end) };
    answer::set(answer)
}

/// Extended P-space of a link seen from one end: the routers that some first hop reaches by no walk
/// that crosses the link. A first hop is a neighbour of S other than E to which the cost from S is
/// below 65,535. Refuses and leaves as [`p_space`] does.
pub fn extended_p_space(
    file: &[u8],
    work: &mut [u32],
    link: usize,
    end: usize,
) -> Result<Set, Refusal> {
    let (bytes, cells) = (file.len(), work.len());
    // SAFETY: pointers and lengths are those of two slices that do not overlap.
    let answer = unsafe {
        raw::planner_extended_p_space(file.as_ptr(), bytes, work.as_mut_ptr(), cells, link, end)
    };
    answer::set(answer)
}

/// Q-space of a link seen from one end: the routers that reach E by no walk that crosses the link.
/// Refuses and leaves as [`p_space`] does.
pub fn q_space(file: &[u8], work: &mut [u32], link: usize, end: usize) -> Result<Set, Refusal> {
    let (bytes, cells) = (file.len(), work.len());
    // SAFETY: pointers and lengths are those of two slices that do not overlap.
    let answer =
        unsafe { raw::planner_q_space(file.as_ptr(), bytes, work.as_mut_ptr(), cells, link, end) };
    answer::set(answer)
}

/// The pair that repairs a link: its packets go around it to its far router E.
///
/// The ranks say which classes are preferred: the rank of class c is `ranks[c]`, and of the pairs
/// that serve the one whose class has the lowest rank comes first. They are the numbers 0 to 7 in
/// any order; [`ASCENDING_RANKS`] prefers the lower class. Whether there is a repair does not depend
/// on them.
///
/// Refuses by the rows 1 to 10, 15, 12 and 14. Leaves the distances in the work area, also where
/// row 14 refuses.
pub fn link_repair(
    file: &[u8],
    work: &mut [u32],
    ranks: &[u8],
    link: usize,
    end: usize,
) -> Result<Pair, Refusal> {
    let ranks = apart(ranks, &[range(file)]);
    // SAFETY: pointers and lengths are those of three slices that do not overlap.
    let answer = unsafe {
        raw::planner_link_repair(
            file.as_ptr(),
            file.len(),
            work.as_mut_ptr(),
            work.len(),
            ranks.as_ptr(),
            ranks.len(),
            link,
            end,
        )
    };
    answer::pair(answer)
}

/// The same as [`link_repair`], with a table of the file's distances in place of the work area. The
/// table is only read: [`distances`] fills one, and so does [`Table::of`](crate::Table::of).
///
/// Refuses by the rows 1 to 10, 18, 15, 12 and 14: by row 10 where the table has fewer than N * N
/// cells, and by row 18 where the first N * N are not the distances of the file.
pub fn link_repair_with(
    file: &[u8],
    table: &[u32],
    ranks: &[u8],
    link: usize,
    end: usize,
) -> Result<Pair, Refusal> {
    let table = apart(table, &[range(file)]);
    let ranks = apart(ranks, &[range(file), range(&table)]);
    // SAFETY: pointers and lengths are those of three slices that do not overlap.
    let answer = unsafe {
        raw::planner_link_repair_with(
            file.as_ptr(),
            file.len(),
            table.as_ptr(),
            table.len(),
            ranks.as_ptr(),
            ranks.len(),
            link,
            end,
        )
    };
    answer::pair(answer)
}

/// What repairs the traffic from S to a prefix, with ranks as [`link_repair`] takes them.
///
/// Refuses by the rows 1 to 10, 15, 12, 13 and 14. Leaves the distances in the work area, also
/// where row 14 refuses.
pub fn prefix_repair(
    file: &[u8],
    work: &mut [u32],
    ranks: &[u8],
    link: usize,
    end: usize,
    prefix: usize,
) -> Result<Repair, Refusal> {
    let ranks = apart(ranks, &[range(file)]);
    // SAFETY: pointers and lengths are those of three slices that do not overlap.
    let answer = unsafe {
        raw::planner_prefix_repair(
            file.as_ptr(),
            file.len(),
            work.as_mut_ptr(),
            work.len(),
            ranks.as_ptr(),
            ranks.len(),
            link,
            end,
            prefix,
        )
    };
    answer::repair(answer)
}

/// The same as [`prefix_repair`], with a table as [`link_repair_with`] takes it.
///
/// Refuses by the rows 1 to 10, 18, 15, 12, 13 and 14.
pub fn prefix_repair_with(
    file: &[u8],
    table: &[u32],
    ranks: &[u8],
    link: usize,
    end: usize,
    prefix: usize,
) -> Result<Repair, Refusal> {
    let table = apart(table, &[range(file)]);
    let ranks = apart(ranks, &[range(file), range(&table)]);
    // SAFETY: pointers and lengths are those of three slices that do not overlap.
    let answer = unsafe {
        raw::planner_prefix_repair_with(
            file.as_ptr(),
            file.len(),
            table.as_ptr(),
            table.len(),
            ranks.as_ptr(),
            ranks.len(),
            link,
            end,
            prefix,
        )
    };
    answer::repair(answer)
}

/// Plays the route of a packet from S to a prefix by the pair that repairs it, and writes the
/// routers that it visits into `route`, S first. The bytes after them stay as they were. The ranks
/// are as [`link_repair`] takes them.
///
/// The choice bytes decide between equal hops, each modulo the number of options; after the last
/// they count as 0. Refuses by any row but 18. Leaves the distances in the work area, also where
/// row 14 refuses.
#[allow(clippy::too_many_arguments)]
pub fn route(
    file: &[u8],
    work: &mut [u32],
    ranks: &[u8],
    link: usize,
    end: usize,
    prefix: usize,
    choices: &[u8],
    route: &mut [u8],
) -> Result<Played, Refusal> {
    let choices = apart(choices, &[range(file)]);
    let ranks = apart(ranks, &[range(file), range(&choices)]);
    // SAFETY: pointers and lengths are those of five slices that do not overlap.
    let answer = unsafe {
        raw::planner_route(
            file.as_ptr(),
            file.len(),
            work.as_mut_ptr(),
            work.len(),
            ranks.as_ptr(),
            ranks.len(),
            link,
            end,
            prefix,
            choices.as_ptr(),
            choices.len(),
            route.as_mut_ptr(),
            route.len(),
        )
    };
    answer::played(answer)
}

/// The same as [`route`], with a table as [`link_repair_with`] takes it. Only a route that is played
/// is written.
///
/// Refuses by any row; row 18 is tried after row 10 and before row 11.
#[allow(clippy::too_many_arguments)]
pub fn route_with(
    file: &[u8],
    table: &[u32],
    ranks: &[u8],
    link: usize,
    end: usize,
    prefix: usize,
    choices: &[u8],
    route: &mut [u8],
) -> Result<Played, Refusal> {
    let table = apart(table, &[range(file)]);
    let choices = apart(choices, &[range(file), range(&table)]);
    let ranks = apart(ranks, &[range(file), range(&table), range(&choices)]);
    // SAFETY: pointers and lengths are those of five slices that do not overlap.
    let answer = unsafe {
        raw::planner_route_with(
            file.as_ptr(),
            file.len(),
            table.as_ptr(),
            table.len(),
            ranks.as_ptr(),
            ranks.len(),
            link,
            end,
            prefix,
            choices.as_ptr(),
            choices.len(),
            route.as_mut_ptr(),
            route.len(),
        )
    };
    answer::played(answer)
}

/// Writes the network file of a network into the buffer, and tells how many bytes it has. The bytes
/// after them stay as they were.
///
/// The answer is 0, and nothing is written, where the buffer is shorter than the file;
/// [`LARGEST_FILE`](crate::LARGEST_FILE) bytes are enough for every network.
pub fn write(network: &Network, buffer: &mut [u8]) -> usize {
    // SAFETY: the pointer and length are those of one slice, and the network is passed by value.
    unsafe { raw::planner_write(columns_of(network), buffer.as_mut_ptr(), buffer.len()) }
}

/// Writes the network file of a drill into the buffer, and tells how many bytes it has,
/// [`DRILL_BYTES`](crate::DRILL_BYTES). The bytes after them stay as they were.
///
/// A drill is a network for training, which its seed and its number of routers name: a ring without
/// prefixes, whose costs, 1 to 100, are drawn from the seed. [`load`] accepts it.
///
/// The answer is 0, and nothing is written, where the routers are not [`LEAST_DRILL_ROUTERS`] to
/// [`MOST_DRILL_ROUTERS`], or where the buffer is shorter than the file.
pub fn drill(seed: u32, routers: usize, buffer: &mut [u8]) -> usize {
    // SAFETY: the pointer and length are those of one slice.
    unsafe { raw::planner_drill(seed, routers, buffer.as_mut_ptr(), buffer.len()) }
}

/// A shared slice, or a copy of it where it overlaps another one: shared slices may overlap in
/// Rust, but the buffers of one call may not.
fn apart<'a, Cell: Clone>(slice: &'a [Cell], others: &[Range<*const u8>]) -> Cow<'a, [Cell]> {
    let own = range(slice);
    let overlapping = others.iter().any(|other| own.start < other.end && other.start < own.end);
    if overlapping {
        Cow::from(slice.to_vec())
    } else {
        Cow::from(slice)
    }
}

/// Where the bytes of a slice stand.
fn range<Cell>(slice: &[Cell]) -> Range<*const u8> {
    let Range { start, end } = slice.as_ptr_range();
    start.cast()..end.cast()
}
