//! Rows 1 to 9. A file that they accept is not copied: a question takes what it needs of
//! it, the links, and the slots of one prefix.

use super::links::{Links, LINKS_IN_BLOCK, LINK_ENTRY};
use super::prefixes::{Prefixes, PREFIXES_IN_BLOCK, PREFIX_ENTRY};
use crate::answer::Refusal;

pub const BLOCK: usize = 512;
const LARGEST: usize = 13 * BLOCK;

/// Judges a file, and reads its links into a place where there are none.
pub fn read<'a>(file: &'a [u8], links: &mut Links) -> Result<Prefixes<'a>, Refusal> {
    if file.is_empty() || file.len() % BLOCK != 0 || file.len() > LARGEST {
        return Err(Refusal::new(1, 0));
    }
    if let Some(block) = file.chunks_exact(BLOCK).position(|block| !check_good(block)) {
        return Err(Refusal::new(2, block));
    }
    let (head, later) = file.split_at(BLOCK);
    if !head_good(head) {
        return Err(Refusal::new(3, 0));
    }
    links.routers = usize::from(head[4]);
    links.count = usize::from(word(head, 6));
    let prefixes = usize::from(word(head, 8));
    let link_blocks = links.count.div_ceil(LINKS_IN_BLOCK);
    let needed = 1 + link_blocks + prefixes.div_ceil(PREFIXES_IN_BLOCK);
    if file.len() != needed * BLOCK {
        return Err(Refusal::new(4, needed));
    }
    let (link_file, prefix_file) = later.split_at(link_blocks * BLOCK);
    labels::<LINKS_IN_BLOCK, LINK_ENTRY>(link_file, 1, 2, links.count)?;
    labels::<PREFIXES_IN_BLOCK, PREFIX_ENTRY>(prefix_file, 1 + link_blocks, 3, prefixes)?;
    links.read(link_file)?;
    Prefixes::read(prefix_file, prefixes, links.routers)
}

pub fn word(bytes: &[u8], at: usize) -> u16 {
    u16::from_le_bytes([bytes[at], bytes[at + 1]])
}

/// Row 2 at one block. The sum takes in the check itself, so that its length
/// is a power of two: it is right when it is twice the check.
fn check_good(block: &[u8]) -> bool {
    let words = block.chunks_exact(2).map(|pair| u16::from_le_bytes([pair[0], pair[1]]));
    let sum = words.fold(0u16, u16::wrapping_add);
    let check = word(block, 510);
    sum == check.wrapping_add(check)
}

/// Whether every byte is zero, without a branch for each.
fn zeros(bytes: &[u8]) -> bool {
    bytes.iter().fold(0, |all, byte| all | byte) == 0
}

/// Row 3.
fn head_good(head: &[u8]) -> bool {
    head[..4] == [1, 0, 0, 0]
        && (1..=64).contains(&head[4])
        && head[5] == 0
        && word(head, 6) <= 128
        && word(head, 8) <= 128
        && zeros(&head[10..510])
}

/// Row 5 at the blocks of one kind, the first of which has this number. They have so many
/// entries of this size, except for the last.
fn labels<const MOST: usize, const SIZE: usize>(
    blocks: &[u8],
    first: usize,
    kind: u8,
    total: usize,
) -> Result<(), Refusal> {
    let mut left = total;
    for (number, block) in (first..).zip(blocks.chunks_exact(BLOCK)) {
        let entries = left.min(MOST);
        let label = [kind, entries as u8, number as u8, 0];
        let rest = match entries < MOST {
            true => zeros(&block[4 + SIZE * entries..510]),
            false => zeros(&block[4 + SIZE * MOST..510]),
        };
        if block[..4] != label || !rest {
            return Err(Refusal::new(5, number));
        }
        left -= entries;
    }
    Ok(())
}
