//! The rows that judge what is asked beside the file: 10 to 13, 15 and 18.

use super::links::Links;
use super::prefixes::Prefixes;
use super::search::Ranks;
use super::table::Table;
use crate::answer::Refusal;

/// Row 10.
pub fn enough_cells(links: &Links, lent: &[u32]) -> Result<(), Refusal> {
    let cells = links.routers * links.routers;
    if lent.len() < cells {
        return Err(Refusal::new(10, cells));
    }
    Ok(())
}

/// Row 18.
pub fn right_table(table: Table, links: &Links) -> Result<(), Refusal> {
    if !table.right(links) {
        return Err(Refusal::new(18, 0));
    }
    Ok(())
}

/// Row 11.
pub fn long_enough(links: &Links, buffer: &[u8]) -> Result<(), Refusal> {
    let bytes = 2 * links.routers;
    if buffer.len() < bytes {
        return Err(Refusal::new(11, bytes));
    }
    Ok(())
}

/// Row 15, and the ranks as a table that every class has a place in.
pub fn arranged(ranks: &[u8]) -> Result<Ranks, Refusal> {
    let ranks: Ranks = ranks.try_into().map_err(|_| Refusal::new(15, 0))?;
    let seen =
        ranks.iter().fold(0, |seen, rank| seen | 1u32.checked_shl((*rank).into()).unwrap_or(0));
    if seen != 0xff {
        return Err(Refusal::new(15, 0));
    }
    Ok(ranks)
}

/// Row 12.
pub fn named(links: &Links, link: usize, end: usize) -> Result<(), Refusal> {
    if link >= links.count || end > 1 {
        return Err(Refusal::new(12, links.count));
    }
    Ok(())
}

/// Row 13.
pub fn numbered(prefixes: &Prefixes, prefix: usize) -> Result<(), Refusal> {
    if prefix >= prefixes.count {
        return Err(Refusal::new(13, prefixes.count));
    }
    Ok(())
}
