//! The limits of the network file, tested on a network by value. Nothing is told
//! but whether it keeps them, so that all cells are tested without a branch for
//! each, and many of them at once.

use super::prefixes::{no_router, repeated, ONES, UNUSED};
use crate::answer::Network;

/// Whether a network keeps the limits. What is not used is not looked at.
pub fn kept(network: &Network) -> bool {
    (1..=64).contains(&network.routers)
        && network.links <= 128
        && network.prefixes <= 128
        && ends_good(network)
        && costs_good(network)
        && pairs_differ(network)
        && counts_good(network)
        && slots_good(network)
}

/// The routers of each link, by row 6.
fn ends_good(network: &Network) -> bool {
    let routers = network.routers as u8;
    let ends = network.from[..network.links].iter().zip(&network.to);
    let bad = ends.fold(0, |bad, (a, b)| {
        bad | u8::from(*a >= routers) | u8::from(*b >= routers) | u8::from(a == b)
    });
    bad == 0
}

/// The costs of each link, by row 6.
fn costs_good(network: &Network) -> bool {
    let costs = network.out[..network.links].iter().zip(&network.back);
    let bad = costs.fold(0, |bad, (out, back)| bad | u16::from(*out == 0) | u16::from(*back == 0));
    bad == 0
}

/// Row 7, for links that row 6 passes. A pair of routers is one bit, in the row
/// of the lower of the two.
fn pairs_differ(network: &Network) -> bool {
    let mut joined = [0u64; 64];
    let mut twice = 0;
    for (a, b) in network.from[..network.links].iter().zip(&network.to) {
        let row = &mut joined[usize::from(*a.min(b) & 63)];
        let bit = 1 << (a.max(b) & 63);
        twice |= *row & bit;
        *row |= bit;
    }
    twice == 0
}

/// 1 to 8 attachments for each prefix.
fn counts_good(network: &Network) -> bool {
    let counts = &network.attached[..network.prefixes];
    counts.iter().fold(0, |bad, count| bad | u8::from(count.wrapping_sub(1) > 7)) == 0
}

/// The bytes of so many slots, for 0 to 8 of them.
const USED: [u64; 16] = {
    let mut used = [u64::MAX; 16];
    let mut count = 0;
    while count < 8 {
        used[count] = (1 << (8 * count)) - 1;
        count += 1;
    }
    used
};

/// Rows 8 and 9, for prefixes that have 1 to 8 attachments. The slots of a prefix
/// are the bytes of one number, those that are not used as in `UNUSED`. In `bad`
/// the highest bit of a byte tells that something is wrong.
fn slots_good(network: &Network) -> bool {
    let mut named = [UNUSED; 128];
    let mut bad = 0;
    let slots = network.at.chunks_exact(8);
    for ((named, count), at) in
        named.iter_mut().zip(&network.attached).zip(slots).take(network.prefixes)
    {
        let used = USED[usize::from(count & 15)];
        let routers = u64::from_le_bytes(at.try_into().expect("eight bytes")) & used;
        bad |= no_router(routers, network.routers);
        *named = routers | UNUSED & !used;
    }
    bad = named.iter().fold(bad, |bad, named| bad | repeated(*named));
    bad & (128 * ONES) == 0
}
