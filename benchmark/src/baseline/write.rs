//! The calls that write a network file: that of a network by value, and that of
//! a drill. Each puts the file straight into the lent buffer, once all that could
//! forbid it has been tested.

use super::limits;
use super::links::{LINKS_IN_BLOCK, LINK_ENTRY};
use super::prefixes::{PREFIXES_IN_BLOCK, PREFIX_ENTRY};
use super::read::BLOCK;
use crate::answer::Network;

/// Writes the file of a network, and returns its length; 0, and nothing is
/// written, where the network is outside the limits or the buffer too short.
pub fn write(network: &Network, buffer: &mut [u8]) -> usize {
    if !limits::kept(network) {
        return 0;
    }
    let Network { routers, links, prefixes, .. } = *network;
    let link_blocks = links.div_ceil(LINKS_IN_BLOCK);
    let size = BLOCK * (1 + link_blocks + prefixes.div_ceil(PREFIXES_IN_BLOCK));
    let Some(file) = buffer.get_mut(..size) else {
        return 0;
    };
    let (head, later) = file.split_at_mut(BLOCK);
    put_head(head, routers, links, prefixes);
    let (link_file, prefix_file) = later.split_at_mut(BLOCK * link_blocks);
    for (j, block) in link_file.chunks_exact_mut(BLOCK).enumerate() {
        put_links(block, network, j);
    }
    for (j, block) in prefix_file.chunks_exact_mut(BLOCK).enumerate() {
        put_prefixes(block, network, j, 1 + link_blocks + j);
    }
    size
}

/// Writes the file of a drill in the same way. A drill keeps the limits.
pub fn drill(seed: u32, routers: usize, buffer: &mut [u8]) -> usize {
    let Some(file) = buffer.get_mut(..2 * BLOCK).filter(|_| (3..=64).contains(&routers)) else {
        return 0;
    };
    let (head, block) = file.split_at_mut(BLOCK);
    put_head(head, routers, routers, 0);
    put_label(block, 2, routers, 1);
    let costs = costs(seed);
    for (i, costs) in costs.chunks_exact(2).enumerate().take(routers) {
        let next = if i + 1 < routers { i + 1 } else { 0 };
        put_link(block, i, [i as u8, next as u8], costs[0], costs[1]);
    }
    block[4 + LINK_ENTRY * routers..510].fill(0);
    seal(block);
    2 * BLOCK
}

/// The head. Only five fields of its check are not zero.
fn put_head(block: &mut [u8], routers: usize, links: usize, prefixes: usize) {
    block.fill(0);
    block[0] = 1;
    block[4] = routers as u8;
    block[6] = links as u8;
    block[8] = prefixes as u8;
    put_check(block, (1 + routers + links + prefixes) as u16);
}

fn put_label(block: &mut [u8], kind: u8, count: usize, number: usize) {
    block[..4].copy_from_slice(&[kind, count as u8, number as u8, 0]);
}

fn put_check(block: &mut [u8], check: u16) {
    block[510..512].copy_from_slice(&check.to_le_bytes());
}

/// Puts the check of a block whose other bytes are there.
fn seal(block: &mut [u8]) {
    let words = block[..510].chunks_exact(2).map(|pair| u16::from_le_bytes([pair[0], pair[1]]));
    put_check(block, words.fold(0, u16::wrapping_add));
}

/// Link block j, which is block 1 + j of the file.
fn put_links(block: &mut [u8], network: &Network, j: usize) {
    let first = LINKS_IN_BLOCK * j;
    let count = LINKS_IN_BLOCK.min(network.links - first);
    put_label(block, 2, count, 1 + j);
    let (from, to) = (&network.from[first..][..count], &network.to[first..][..count]);
    let (out, back) = (&network.out[first..][..count], &network.back[first..][..count]);
    for i in 0..count {
        put_link(block, i, [from[i], to[i]], out[i], back[i]);
    }
    block[4 + LINK_ENTRY * count..510].fill(0);
    seal(block);
}

/// Entry i of a link block, and two zero bytes where the next begins: eight bytes
/// are put at once.
fn put_link(block: &mut [u8], i: usize, ends: [u8; 2], out: u16, back: u16) {
    let ends = u64::from(u16::from_le_bytes(ends));
    let entry = u64::from(back) << 32 | u64::from(out) << 16 | ends;
    block[4 + LINK_ENTRY * i..][..8].copy_from_slice(&entry.to_le_bytes());
}

/// Prefix block j, which has this number in the file. Its check is summed on the
/// way, the slots s of all entries in number s of `sums`. Their routers fill no
/// more than the lower half of it, so that the costs are the upper half.
fn put_prefixes(block: &mut [u8], network: &Network, j: usize, number: usize) {
    let first = PREFIXES_IN_BLOCK * j;
    let count = PREFIXES_IN_BLOCK.min(network.prefixes - first);
    put_label(block, 3, count, number);
    let attached = &network.attached[first..][..count];
    let columns =
        network.at[8 * first..].chunks_exact(8).zip(network.own[8 * first..].chunks_exact(8));
    let entries = block[4..480].chunks_exact_mut(PREFIX_ENTRY);
    let mut check = (3 + 256 * count + number) as u16;
    let mut sums = [0u32; 8];
    for ((entry, attached), (at, own)) in entries.zip(attached).zip(columns) {
        entry[0] = *attached;
        entry[1] = 0;
        check += u16::from(*attached);
        let slots = slots(*attached, at, own);
        for ((place, slot), sum) in entry[2..].chunks_exact_mut(4).zip(&slots).zip(&mut sums) {
            place.copy_from_slice(&slot.to_le_bytes());
            *sum = sum.wrapping_add(*slot);
        }
    }
    block[4 + PREFIX_ENTRY * count..510].fill(0);
    let halves = sums.iter().map(|sum| (*sum as u16).wrapping_add((*sum >> 16) as u16));
    put_check(block, halves.fold(check, u16::wrapping_add));
}

/// The slots of so many attachments, for 0 to 8 of them.
const USED: [[u32; 8]; 16] = {
    let mut used = [[u32::MAX; 8]; 16];
    let mut place = 0;
    while place < 8 * 8 {
        used[place / 8][place % 8] = if place % 8 < place / 8 { u32::MAX } else { 0 };
        place += 1;
    }
    used
};

/// The slots of a prefix, each as one number; zero where it is not used.
fn slots(attached: u8, at: &[u8], own: &[u16]) -> [u32; 8] {
    let mut slots = USED[usize::from(attached & 15)];
    for ((slot, at), own) in slots.iter_mut().zip(at).zip(own) {
        *slot &= u32::from(*own) << 16 | u32::from(*at);
    }
    slots
}

/// What a draw multiplies the seed by, and what it adds.
const DRAW: (u32, u32) = (1_664_525, 1_013_904_223);

/// So many draws are made at once, each from the one so many before it.
const LANES: usize = 8;

/// The same two numbers for so many draws, one after the other.
const DRAWS: (u32, u32) = {
    let (mut times, mut plus) = (1, 0);
    let mut made = 0;
    while made < LANES {
        (times, plus) = (DRAW.0.wrapping_mul(times), after(plus, DRAW));
        made += 1;
    }
    (times, plus)
};

const fn after(seed: u32, (times, plus): (u32, u32)) -> u32 {
    seed.wrapping_mul(times).wrapping_add(plus)
}

/// The costs of the largest drill.
fn costs(seed: u32) -> [u16; 128] {
    let mut seeds = [after(seed, DRAW); LANES];
    for lane in 1..LANES {
        seeds[lane] = after(seeds[lane - 1], DRAW);
    }
    let mut costs = [0; 128];
    for drawn in costs.chunks_exact_mut(LANES) {
        for (cost, seed) in drawn.iter_mut().zip(&mut seeds) {
            *cost = 1 + (*seed >> 16) as u16 % 100;
            *seed = after(*seed, DRAWS);
        }
    }
    costs
}
