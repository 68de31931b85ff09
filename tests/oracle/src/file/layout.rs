//! The layout of "The network file": blocks, fields, and where entries stand.

use crate::network::{Link, Prefix};

/// Bytes of a block.
pub const BLOCK: usize = 512;
/// Blocks of the largest file.
pub const MOST_BLOCKS: usize = 13;
/// Bytes of the largest file.
pub const LARGEST: usize = MOST_BLOCKS * BLOCK;
/// The check is the sum of this many 16-bit words.
pub const CHECKED_WORDS: usize = 255;
/// Offset of the check in its block; the content ends before it.
pub const CHECK: usize = 510;
/// Offset of the content in its block.
pub const CONTENT: usize = 4;

pub const KIND_HEAD: u8 = 1;
pub const KIND_LINKS: u8 = 2;
pub const KIND_PREFIXES: u8 = 3;

/// Offsets of the head's fields.
pub const HEAD_ROUTERS: usize = 4;
pub const HEAD_ZERO: usize = 5;
pub const HEAD_LINKS: usize = 6;
pub const HEAD_PREFIXES: usize = 8;
/// Offset from which the head is zero up to its check.
pub const HEAD_TAIL: usize = 10;

pub const MOST_ROUTERS: usize = 64;
pub const MOST_LINKS: usize = 128;
pub const MOST_PREFIXES: usize = 128;

/// Bytes of a link entry, and entries of a full link block.
pub const LINK_ENTRY: usize = 6;
pub const LINKS_IN_BLOCK: usize = 84;
/// Bytes of a prefix entry, and entries of a full prefix block.
pub const PREFIX_ENTRY: usize = 34;
pub const PREFIXES_IN_BLOCK: usize = 14;
/// Slots of a prefix entry.
pub const ATTACHMENTS: usize = 8;
/// Bytes of a slot, and the offset of the first slot in its entry.
pub const SLOT: usize = 4;
pub const SLOTS: usize = 2;

/// The bytes of a file. A byte after the end reads as 0, so that every row can
/// be tried on every file, also when a fault lets a refused file pass.
#[derive(Clone, Copy)]
pub struct Bytes<'a>(pub &'a [u8]);

impl Bytes<'_> {
    /// The byte at an offset.
    pub fn byte(self, at: usize) -> u8 {
        self.0.get(at).copied().unwrap_or(0)
    }

    /// The 16-bit field at an offset, least byte first.
    pub fn word(self, at: usize) -> u16 {
        u16::from_le_bytes([self.byte(at), self.byte(at + 1)])
    }

    /// Whether all bytes of a range are zero.
    pub fn zero(self, from: usize, to: usize) -> bool {
        (from..to).all(|at| self.byte(at) == 0)
    }

    /// The number of whole blocks.
    pub fn blocks(self) -> usize {
        self.0.len() / BLOCK
    }
}

/// What the head says, judged or not: N, L and the number of prefixes. Where
/// every entry stands follows from them.
#[derive(Clone, Copy, Debug, PartialEq, Eq)]
pub struct Head {
    pub routers: usize,
    pub links: usize,
    pub prefixes: usize,
}

/// What a later block has to be: its kind, its entries and their size.
#[derive(Clone, Copy, Debug, PartialEq, Eq)]
pub struct BlockShape {
    pub kind: u8,
    pub entries: usize,
    pub entry_size: usize,
}

impl Head {
    /// The head's fields of a file.
    pub fn of(bytes: Bytes) -> Head {
        Head {
            routers: usize::from(bytes.byte(HEAD_ROUTERS)),
            links: usize::from(bytes.word(HEAD_LINKS)),
            prefixes: usize::from(bytes.word(HEAD_PREFIXES)),
        }
    }

    fn link_blocks(&self) -> usize {
        self.links.div_ceil(LINKS_IN_BLOCK)
    }

    fn prefix_blocks(&self) -> usize {
        self.prefixes.div_ceil(PREFIXES_IN_BLOCK)
    }

    /// The number of blocks that follows from L and prefixes.
    pub fn blocks_needed(&self) -> usize {
        1 + self.link_blocks() + self.prefix_blocks()
    }

    /// What the later block of this number has to be, if it is needed.
    pub fn block_shape(&self, block: usize) -> Option<BlockShape> {
        let (kind, entry_size, full, total, place) = if block <= self.link_blocks() {
            (KIND_LINKS, LINK_ENTRY, LINKS_IN_BLOCK, self.links, block - 1)
        } else if block < self.blocks_needed() {
            let place = block - 1 - self.link_blocks();
            (KIND_PREFIXES, PREFIX_ENTRY, PREFIXES_IN_BLOCK, self.prefixes, place)
        } else {
            return None;
        };
        // Every block is full but the last of its kind.
        let entries = full.min(total - place * full);
        Some(BlockShape { kind, entries, entry_size })
    }

    /// The offset of a link's entry.
    pub fn link_at(&self, link: usize) -> usize {
        let block = 1 + link / LINKS_IN_BLOCK;
        block * BLOCK + CONTENT + LINK_ENTRY * (link % LINKS_IN_BLOCK)
    }

    /// The offset of a prefix's entry.
    pub fn prefix_at(&self, prefix: usize) -> usize {
        let block = 1 + self.link_blocks() + prefix / PREFIXES_IN_BLOCK;
        block * BLOCK + CONTENT + PREFIX_ENTRY * (prefix % PREFIXES_IN_BLOCK)
    }

    /// How many link entries stand in a file of this length: all of them,
    /// unless the file has too few blocks.
    pub fn links_in(&self, length: usize) -> usize {
        let inside = |link: &usize| self.link_at(*link) + LINK_ENTRY <= length;
        (0..self.links).take_while(inside).count()
    }

    /// How many prefix entries stand in a file of this length.
    pub fn prefixes_in(&self, length: usize) -> usize {
        let inside = |prefix: &usize| self.prefix_at(*prefix) + PREFIX_ENTRY <= length;
        (0..self.prefixes).take_while(inside).count()
    }
}

/// The bytes of a link entry.
pub fn link_entry(link: &Link) -> [u8; LINK_ENTRY] {
    let [forth_low, forth_high] = link.forth.to_le_bytes();
    let [back_low, back_high] = link.back.to_le_bytes();
    [link.a, link.b, forth_low, forth_high, back_low, back_high]
}

/// The bytes of a prefix entry. There is room for eight attachments; the count
/// tells how many there are.
pub fn prefix_entry(prefix: &Prefix) -> [u8; PREFIX_ENTRY] {
    let mut entry = [0; PREFIX_ENTRY];
    entry[0] = u8::try_from(prefix.attachments.len()).unwrap_or(u8::MAX);
    for (slot, attachment) in prefix.attachments.iter().take(ATTACHMENTS).enumerate() {
        let at = SLOTS + SLOT * slot;
        entry[at] = attachment.router;
        entry[at + 2..at + SLOT].copy_from_slice(&attachment.cost.to_le_bytes());
    }
    entry
}
