//! Checks of a table by its own numbers, one hop on: what faults ask of a table in
//! place of the distances. Any two of the three take some wrong tables. All three take
//! the file's distances and no other numbers, since every cost is at least 1; a test
//! compares them with the check by the definition.

use super::Table;
use crate::distance::{UNREACHABLE, plus};

/// Whether every cell from a router to itself is 0.
pub fn diagonal_is_zero(table: &Table) -> bool {
    table.workings.routers().all(|x| number(table, x, x) == 0)
}

/// Whether no cell is above a cost plus the cell one hop on. Zeros everywhere have
/// this, and so have the distances of a network with a lower cost.
pub fn has_slack(table: &Table) -> bool {
    let slack = |(x, t)| {
        let mut leaving = table.workings.hops.leaving(x).iter();
        leaving.all(|hop| number(table, x, t) <= plus(number(table, hop.to, t), hop.cost))
    };
    table.places().all(slack)
}

/// Whether every cell that is not from a router to itself is unreachable, or is some
/// cost plus the cell one hop on, be it the least such sum or not. The distances of a
/// network that lacks a link have this.
pub fn is_tight(table: &Table) -> bool {
    let tight = |(x, t)| {
        let own = number(table, x, t);
        let mut leaving = table.workings.hops.leaving(x).iter();
        own == UNREACHABLE || leaving.any(|hop| plus(number(table, hop.to, t), hop.cost) == own)
    };
    table.places().filter(|(x, t)| x != t).all(tight)
}

/// The number in the place of D(x,t). A table that is too short counts as filled up
/// with the unreachable distance; row 10 turns it away before, unless with a fault.
fn number(table: &Table, x: usize, t: usize) -> u32 {
    table.cell(x, t).unwrap_or(UNREACHABLE)
}
