//! Networks by value spoiled on purpose: with one cause that puts them outside
//! the limits of the network file, or with anything in the cells that no entry
//! speaks of.

use crate::columns::Columns;
use crate::file::{ATTACHMENTS, MOST_LINKS, MOST_PREFIXES, MOST_ROUTERS};
use crate::generate;
use crate::network::Network;
use crate::random::Random;
use crate::row::Cause;

/// How many different values a cause of a network takes, at most.
pub const VALUES: usize = 8;

/// A random network with one cause and no other. `value` tells which value breaks
/// the limit, counted round where there are fewer than `VALUES`.
pub fn network(cause: Cause, value: usize, random: &mut Random) -> Columns {
    let (links, prefixes) = match cause {
        // With one entry too many there is no free cell.
        Cause::LinksOver => (MOST_LINKS, random.between(0, 20)),
        Cause::PrefixesOver => (random.between(0, 20), MOST_PREFIXES),
        _ => (random.between(2, 120), random.between(1, 40)),
    };
    let routers = random.between(17, MOST_ROUTERS);
    let mut columns = Columns::of(&generate::sized(routers, links, prefixes, random));
    match cause {
        // No router is below 0, so that there is no link and no prefix.
        Cause::RoutersZero => columns = Columns::of(&Network::of_routers(0)),
        Cause::RoutersOver => columns.routers = too_many(MOST_ROUTERS, value),
        Cause::LinksOver => columns.links = too_many(MOST_LINKS, value),
        Cause::PrefixesOver => columns.prefixes = too_many(MOST_PREFIXES, value),
        _ if cause.row() <= 7 => link_cause(&mut columns, cause, value, random),
        _ => prefix_cause(&mut columns, cause, value, random),
    }
    columns
}

/// A count over a limit: by little, at a power of two, at the largest value, and
/// such that its lower 8, 16 or 32 bits are within the limit.
fn too_many(most: usize, value: usize) -> u64 {
    let most = most as u64;
    let lower_bits = |bits: u32| (1 << bits) + 5;
    let [byte, word, long] = [8, 16, 32].map(lower_bits);
    [most + 1, most + 2, 255, 256, byte, word, long, u64::MAX][value % VALUES]
}

/// A router that is not below N.
fn no_router(columns: &Columns, value: usize) -> u8 {
    let routers = columns.routers as u8;
    [routers, routers + 1, 128, 255][value % 4]
}

fn link_cause(columns: &mut Columns, cause: Cause, value: usize, random: &mut Random) {
    // The first link repeats none.
    let first = usize::from(cause.row() == 7);
    let link = random.between(first, columns.used_links() - 1);
    match cause {
        Cause::LinkRouterA => columns.from[link] = no_router(columns, value),
        Cause::LinkRouterB => columns.to[link] = no_router(columns, value),
        Cause::LinkLoop => columns.to[link] = columns.from[link],
        Cause::LinkCostForth => columns.out[link] = 0,
        Cause::LinkCostBack => columns.back[link] = 0,
        _ => {
            let earlier = random.below(link);
            let mut ends = [columns.from[earlier], columns.to[earlier]];
            if cause == Cause::LinkRepeatedReversed {
                ends.reverse();
            }
            [columns.from[link], columns.to[link]] = ends;
        }
    }
}

fn prefix_cause(columns: &mut Columns, cause: Cause, value: usize, random: &mut Random) {
    let prefix = random.below(columns.used_prefixes());
    let slots = ATTACHMENTS * prefix;
    match cause {
        Cause::AttachmentsZero => columns.attached[prefix] = 0,
        Cause::AttachmentsOver => {
            columns.attached[prefix] = [9, 10, 16, 127, 128, 200, 254, 255][value % VALUES];
            // The eight slots there are name different routers.
            for slot in 0..ATTACHMENTS {
                columns.at[slots + slot] = (2 * slot) as u8;
            }
        }
        Cause::AttachedRouter => {
            let slot = random.below(columns.used_slots(prefix));
            columns.at[slots + slot] = no_router(columns, value);
        }
        _ => {
            columns.attached[prefix] = columns.attached[prefix].max(2);
            let later = random.between(1, columns.used_slots(prefix) - 1);
            columns.at[slots + later] = columns.at[slots + random.below(later)];
        }
    }
}

/// Puts anything into the cells that no entry speaks of: after the last link and
/// the last prefix, and after the attachments of each prefix.
pub fn unused_cells(columns: &mut Columns, random: &mut Random) {
    let mut any = || random.any() as u16;
    for k in columns.used_links()..MOST_LINKS {
        (columns.from[k], columns.to[k]) = (any() as u8, any() as u8);
        (columns.out[k], columns.back[k]) = (any(), any());
    }
    for p in 0..MOST_PREFIXES {
        let used = if p < columns.used_prefixes() { columns.used_slots(p) } else { 0 };
        for cell in ATTACHMENTS * p + used..ATTACHMENTS * (p + 1) {
            (columns.at[cell], columns.own[cell]) = (any() as u8, any());
        }
    }
    let used = columns.used_prefixes();
    columns.attached[used..].iter_mut().for_each(|count| *count = any() as u8);
}
