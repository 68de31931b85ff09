//! The table of distances that a second call reads.
//!
//! Each repair question is split in two: one call fills the table, which is the call
//! distances, and the second call takes the file, a table and the question. It takes
//! the table exactly when its first N x N cells are the file's distances, whoever
//! filled it; otherwise row 18 turns the question away. Later cells do not count.

mod kinds;
mod steps;

pub use kinds::{NamedTable, changed, made_from, one_cell_off, right, right_of_file, tables};

use crate::distance::{Distances, UNREACHABLE};
use crate::fault::Fault;
use crate::row::{Cause, Refusal, first_cause};
use crate::workings::Workings;

/// Row 18: one of the table's first N x N cells is not the file's distance. `asked`
/// is the question's link and end, which only a check with a fault looks at.
pub fn row(workings: &Workings, cells: &[u32], asked: Option<(u64, u64)>) -> Option<Refusal> {
    let ctx = &workings.ctx;
    let table = Table { workings, cells };
    let cause = first_cause(ctx, &[(Cause::TableOther, !table.is_taken(asked))])?;
    let number = if ctx.has(Fault::EighteenReturnsCell) { table.first_other() } else { None };
    Some(Refusal::new(cause, number.unwrap_or(0)))
}

/// The workings by the numbers of a table that is not the file's, which only a check
/// with a fault takes. There are none where the numbers are the file's distances: then
/// all that follows from them is that of the file.
pub fn workings(of_file: &Workings, cells: &[u32]) -> Option<Workings> {
    let table = Table { workings: of_file, cells };
    if table.first_other().is_none() || of_file.ctx.has(Fault::TableIgnored) {
        return None;
    }
    let numbers = table.places().map(|(x, t)| table.cell(x, t).unwrap_or(UNREACHABLE));
    let distances = Distances::of_cells(of_file.hops.routers(), numbers.collect());
    let (network, hops) = (of_file.network.clone(), of_file.hops.clone());
    Some(Workings::by(&of_file.ctx, network, hops, distances))
}

/// A table beside the file that it is lent for.
struct Table<'a> {
    workings: &'a Workings,
    cells: &'a [u32],
}

impl Table<'_> {
    /// Every start x and every router t, row by row, row = start.
    fn places(&self) -> impl Iterator<Item = (usize, usize)> + use<> {
        let routers = self.workings.routers();
        routers.clone().flat_map(move |x| routers.clone().map(move |t| (x, t)))
    }

    /// The number in the place of D(x,t), if the table is long enough.
    fn cell(&self, x: usize, t: usize) -> Option<u32> {
        let turned = self.workings.ctx.has(Fault::TableByDestination);
        let (row, column) = if turned { (t, x) } else { (x, t) };
        self.cells.get(row * self.workings.hops.routers() + column).copied()
    }

    fn is_distance(&self, x: usize, t: usize) -> bool {
        self.cell(x, t) == Some(self.workings.distances.between(x, t))
    }

    /// The number of the first cell that is not the file's distance.
    fn first_other(&self) -> Option<usize> {
        self.places().position(|(x, t)| !self.is_distance(x, t))
    }

    /// Whether the table is taken: each of the first N x N cells is compared with the
    /// distance, unless with a fault.
    fn is_taken(&self, asked: Option<(u64, u64)>) -> bool {
        if let Some(wrongly) = self.is_wrongly_taken() {
            return wrongly;
        }
        let mut compared = self.places().filter(|place| self.is_compared(*place, asked));
        compared.all(|(x, t)| self.is_distance(x, t)) && !self.is_turned_away_by_later_cells()
    }

    /// What a check by something else than the distances says.
    fn is_wrongly_taken(&self) -> Option<bool> {
        let ctx = &self.workings.ctx;
        if ctx.has(Fault::TableIgnored) {
            Some(true)
        } else if ctx.has(Fault::TableOnlySlack) {
            Some(steps::diagonal_is_zero(self) && steps::has_slack(self))
        } else if ctx.has(Fault::TableOnlyTight) {
            Some(steps::diagonal_is_zero(self) && steps::is_tight(self))
        } else if ctx.has(Fault::TableDiagonalFree) {
            Some(steps::has_slack(self) && steps::is_tight(self))
        } else {
            None
        }
    }

    /// Whether the cell of a place is compared: always, unless with a fault.
    fn is_compared(&self, (x, t): (usize, usize), asked: Option<(u64, u64)>) -> bool {
        let ctx = &self.workings.ctx;
        let diagonal = x == t && ctx.has(Fault::TableDiagonalNotCompared);
        let last_row =
            x + 1 == self.workings.hops.routers() && ctx.has(Fault::TableLastRowNotCompared);
        let unreachable = self.workings.distances.between(x, t) == UNREACHABLE
            && ctx.has(Fault::TableUnreachableNotCompared);
        let other_row = ctx.has(Fault::TableOnlyRowOfS) && self.asked_s(asked) != Some(x);
        !(diagonal || last_row || unreachable || other_row)
    }

    /// The repairing router S that a question names, if its link is there.
    fn asked_s(&self, asked: Option<(u64, u64)>) -> Option<usize> {
        let (link, end) = asked?;
        let link_end = self.workings.network.link_end(&self.workings.ctx, link, end)?;
        Some(link_end.s)
    }

    /// Whether a fault looks at the cells after the first N x N.
    fn is_turned_away_by_later_cells(&self) -> bool {
        let mut later = self.cells.iter().skip(self.places().count());
        self.workings.ctx.has(Fault::TableBeyondCompared) && later.any(|cell| *cell != 0)
    }
}
