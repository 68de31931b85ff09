//! The prefixes of a file, with rows 8 and 9. They stay in the file: a question reads
//! the slots of the one prefix that it is about.

use super::read::BLOCK;
use crate::answer::{Network, Refusal};
use std::array;

pub const PREFIXES_IN_BLOCK: usize = 14;
pub const PREFIX_ENTRY: usize = 34;

/// The prefixes, by the blocks that have their entries.
#[derive(Clone, Copy)]
pub struct Prefixes<'a> {
    pub count: usize,
    blocks: &'a [u8],
}

/// 1 in each of the eight bytes of a number.
pub const ONES: u64 = 0x0101_0101_0101_0101;

/// A number for each of the eight slots, which is no router's.
pub const UNUSED: u64 = 0x4746_4544_4342_4140;

/// The bits of the slots that have to be zero, for 1 to 8 attachments: the byte after the
/// router of a used slot, and all of an unused one. No other number of attachments has any
/// used slot.
static ZERO: [[u32; 8]; 10] = {
    let mut zero = [[u32::MAX; 8]; 10];
    let mut place = 8;
    while place < 9 * 8 {
        if place % 8 < place / 8 {
            zero[place / 8][place % 8] = 0xff00;
        }
        place += 1;
    }
    zero
};

/// What the unused slots of so many attachments name: routers that differ, for 1 to 8 of
/// them. For every other number all slots name the same, which row 9 finds.
static NAMED: [u64; 10] = {
    let mut named = [0x40 * ONES; 10];
    let mut count = 1;
    while count < 8 {
        named[count] = UNUSED >> (8 * count) << (8 * count);
        count += 1;
    }
    named[8] = 0;
    named
};

/// The number of attachments; 9 stands for every larger one.
fn attachments(entry: &[u8]) -> usize {
    usize::from(u16::from_le_bytes([entry[0], entry[1]]).min(9))
}

/// The eight slots of an entry, each as one number: the router in the lowest byte, then
/// the byte that has to be zero, then the cost.
fn slots(entry: &[u8]) -> [u32; 8] {
    let slots = &entry[2..PREFIX_ENTRY];
    array::from_fn(|s| u32::from_le_bytes(array::from_fn(|byte| slots[4 * s + byte])))
}

/// Highest bits of bytes: some are set where two of the eight bytes are equal, and none
/// where all differ. Each is compared with those one to four places below it, counted
/// round. All are below 128.
pub fn repeated(named: u64) -> u64 {
    let differ = |turn: u32| (named ^ named.rotate_left(8 * turn)).wrapping_add(127 * ONES);
    !(differ(1) & differ(2) & differ(3) & differ(4))
}

/// Highest bits of bytes: some are set where one of the eight bytes is no router.
pub fn no_router(named: u64, routers: usize) -> u64 {
    named | named.wrapping_add((128 - routers as u64) * ONES)
}

impl<'a> Prefixes<'a> {
    /// Judges all prefixes by rows 8 and 9. What is wrong is looked for only when something
    /// is, so that the tests have no branch for each prefix.
    pub fn read(blocks: &'a [u8], count: usize, routers: usize) -> Result<Self, Refusal> {
        let prefixes = Prefixes { count, blocks };
        if prefixes.good(routers) {
            return Ok(prefixes);
        }
        Err(prefixes.refusal(routers))
    }

    /// The entries, in the order of the file.
    fn entries(&self) -> impl Iterator<Item = &'a [u8]> {
        let blocks = self.blocks.chunks_exact(BLOCK);
        blocks.flat_map(|block| block[4..480].chunks_exact(PREFIX_ENTRY)).take(self.count)
    }

    /// The entry of a prefix.
    fn entry(&self, prefix: usize) -> &'a [u8] {
        let block = BLOCK * (prefix / PREFIXES_IN_BLOCK);
        &self.blocks[block + 4 + PREFIX_ENTRY * (prefix % PREFIXES_IN_BLOCK)..][..PREFIX_ENTRY]
    }

    /// Rows 8 and 9. The routers of all slots are put side by side first, eight bytes for
    /// each prefix, since the compiler then tests two prefixes at once.
    #[inline(never)]
    fn good(&self, routers: usize) -> bool {
        let mut not_zero = [0; 8];
        let mut named = [[0; 8]; 128];
        let mut unused = [0; 128];
        let places = named[..self.count].chunks_mut(PREFIXES_IN_BLOCK);
        let places = places.zip(unused[..self.count].chunks_mut(PREFIXES_IN_BLOCK));
        for (block, (named, unused)) in self.blocks.chunks_exact(BLOCK).zip(places) {
            let entries = block[4..480].chunks_exact(PREFIX_ENTRY);
            for (entry, (named, unused)) in entries.zip(named.iter_mut().zip(unused)) {
                let count = attachments(entry);
                let slots = slots(entry);
                for s in 0..8 {
                    not_zero[s] |= slots[s] & ZERO[count][s];
                    named[s] = slots[s] as u8;
                }
                *unused = NAMED[count];
            }
        }
        let bad = named[..self.count].iter().zip(&unused).fold(0, |bad, (named, unused)| {
            let named = u64::from_le_bytes(*named);
            bad | no_router(named, routers) | repeated(named | unused)
        });
        not_zero == [0; 8] && bad & (128 * ONES) == 0
    }

    /// Row 8 at the first prefix that it applies to, else row 9.
    #[cold]
    fn refusal(&self, routers: usize) -> Refusal {
        let bad = self.entries().position(|entry| {
            let count = attachments(entry);
            let (used, unused) = entry[2..].split_at(4 * count.min(8));
            let good = |slot: &[u8]| usize::from(slot[0]) < routers && slot[1] == 0;
            !(1..=8).contains(&count)
                || !used.chunks_exact(4).all(good)
                || unused.iter().any(|byte| *byte != 0)
        });
        let twice = |entry: &[u8]| {
            let used = slots(entry).into_iter().take(attachments(entry));
            let named = used.clone().fold(0u64, |named, slot| named | 1 << (slot & 63));
            (named.count_ones() as usize) < used.count()
        };
        match bad {
            Some(prefix) => Refusal::new(8, prefix),
            None => Refusal::new(9, self.entries().position(twice).unwrap_or(0)),
        }
    }

    /// The routers and own costs of a prefix.
    pub fn attachments(&self, prefix: usize) -> impl Iterator<Item = (usize, u32)> {
        let entry = self.entry(prefix);
        let slots = slots(entry).into_iter().take(attachments(entry));
        slots.map(|slot| ((slot & 63) as usize, slot >> 16))
    }

    /// Puts the columns of the prefixes.
    pub fn put(&self, network: &mut Network) {
        network.prefixes = self.count;
        let columns = network.at.chunks_exact_mut(8).zip(network.own.chunks_exact_mut(8));
        for (entry, (attached, (at, own))) in
            self.entries().zip(network.attached.iter_mut().zip(columns))
        {
            *attached = entry[0];
            let slots = slots(entry);
            at.iter_mut().zip(&slots).for_each(|(cell, slot)| *cell = *slot as u8);
            own.iter_mut().zip(&slots).for_each(|(cell, slot)| *cell = (*slot >> 16) as u16);
        }
    }
}
