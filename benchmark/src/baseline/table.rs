//! The distances, in rows, and row 18: whether those of a lent table are right.
//!
//! They are where each cell on the diagonal is 0, and each other cell the least sum, over
//! the arcs that leave its row's router, of the arc's cost and the cell of the router that
//! the arc leads to. Every cost is 1 or more, so that no other table passes. An arc that
//! costs more than the distance to where it leads needs no look: once the other arcs give
//! the distances of the table, it is on no least path. The cost of each arc that is looked
//! at is then a cell, so that a set of routers tells all that leave a router.
//!
//! Each arc lowers a row of sums, many columns at once. All rows have 64 columns, so
//! that the compiler knows how many there are; those that are not used stay out of
//! reach. The first row that differs ends the check.

use super::links::Links;
use crate::answer::NO_PATH;
use std::array;
use std::ops::Add;
use std::slice::ChunksExact;

/// No finite distance of any network is larger.
const LONGEST: u32 = 63 * 65_535;

/// The numbers that sums are made of.
trait Number: Copy + PartialOrd + Add<Output = Self> + 'static {
    /// Out of reach.
    const FAR: Self;

    /// The sums of router x start as the 64 numbers from place 64 - x on: as 0 for x
    /// itself, and out of reach for the others.
    const STARTS: &'static [Self; 128];
}

/// Eight at once, for a table in which all cells are below 2^14.
impl Number for i16 {
    const FAR: i16 = 1 << 14;
    const STARTS: &'static [i16; 128] = &{
        let mut starts = [i16::FAR; 128];
        starts[64] = 0;
        starts
    };
}

/// Four at once, for every other table. The sum of two distances is below 2^24, so that
/// it is exact.
impl Number for f32 {
    const FAR: f32 = f32::INFINITY;
    const STARTS: &'static [f32; 128] = &{
        let mut starts = [f32::FAR; 128];
        starts[64] = 0.0;
        starts
    };
}

/// A table in rows of 64 columns.
#[repr(align(64))]
struct Rows<N>([[N; 64]; 64]);

impl<N: Number> Rows<N> {
    /// The rows. Those of 64 cells, the most there are, are made at once. Columns that are
    /// not used are out of reach.
    #[inline(always)]
    fn fill(&mut self, table: Table, number: impl Fn(u32) -> N) {
        for (row, cells) in self.0.iter_mut().zip(table.rows()) {
            if let Ok(cells) = <&[u32; 64]>::try_from(cells) {
                *row = array::from_fn(|t| number(cells[t]));
            } else {
                *row = [N::FAR; 64];
                row.iter_mut().zip(cells).for_each(|(place, cell)| *place = number(*cell));
            }
        }
    }

    /// Whether each cell is 0 on the diagonal, and elsewhere the least sum.
    #[inline]
    fn agree(&self, arcs: &[u64; 64], routers: usize) -> bool {
        (0..routers).all(|x| {
            let own = &self.0[x & 63];
            let starts = &N::STARTS[64 - x..][..64];
            let mut sums: [N; 64] = array::from_fn(|t| starts[t]);
            let mut rest = arcs[x & 63] & !(1 << x);
            while rest != 0 {
                let head = rest.trailing_zeros() as usize & 63;
                rest &= rest - 1;
                let cost = own[head];
                for (least, cell) in sums.iter_mut().zip(&self.0[head]) {
                    let sum = cost + *cell;
                    *least = if sum < *least { sum } else { *least };
                }
            }
            own.iter().zip(&sums).fold(true, |same, (cell, least)| same & (cell == least))
        })
    }
}

/// A cell of 16 bits: one that is too large for it stands as the largest, or as negative.
fn narrow(cell: u32) -> i16 {
    (cell as i32).clamp(i16::MIN.into(), i16::MAX.into()) as i16
}

/// Whether a table of the most rows there are is right, and all its cells small. Their
/// number is known here, so that the compiler makes the rows in place. All bits are
/// gathered from the cells themselves: gathered from the rows, they keep the compiler from
/// the instruction that narrows eight cells.
#[inline(never)]
fn full_right(cells: &[u32; 64 * 64], arcs: &[u64; 64]) -> bool {
    let mut all = 0;
    let rows: Rows<i16> = Rows(array::from_fn(|x| {
        let cells: [u32; 64] = array::from_fn(|t| cells[64 * x + t]);
        all |= cells.iter().fold(0, |all, cell| all | cell);
        cells.map(narrow)
    }));
    all < i16::FAR as u32 && rows.agree(arcs, 64)
}

/// The distances of a network with so many routers, row by row.
#[derive(Clone, Copy)]
pub struct Table<'a> {
    pub routers: usize,
    cells: &'a [u32],
}

impl<'a> Table<'a> {
    /// The first cells of those that are lent, which are enough.
    pub fn new(routers: usize, lent: &'a [u32]) -> Table<'a> {
        Table { routers, cells: &lent[..routers * routers] }
    }

    pub fn rows(self) -> ChunksExact<'a, u32> {
        self.cells.chunks_exact(self.routers)
    }

    /// The distances from a router.
    pub fn row(self, router: usize) -> &'a [u32] {
        &self.cells[router * self.routers..][..self.routers]
    }

    /// Row 18: whether these are the distances of a network with these links.
    pub fn right(self, links: &Links) -> bool {
        let mut arcs = links.joined;
        if !self.keep_least(links, &mut arcs) {
            return false;
        }
        match self.cells.try_into() {
            Ok(cells) => full_right(cells, &arcs) || self.far_right(&arcs),
            Err(_) => self.part_right(&arcs) || self.far_right(&arcs),
        }
    }

    /// The same for a table of fewer rows.
    fn part_right(self, arcs: &[u64; 64]) -> bool {
        let all = self.cells.iter().fold(0, |all, cell| all | cell);
        if all >= i16::FAR as u32 {
            return false;
        }
        let mut rows = Rows([[0; 64]; 64]);
        rows.fill(self, narrow);
        rows.agree(arcs, self.routers)
    }

    /// The same for every table. A cell that is no distance of any network stands as no
    /// number, which no sum is equal to.
    #[inline(never)]
    fn far_right(self, arcs: &[u64; 64]) -> bool {
        let mut rows = Rows([[0.0; 64]; 64]);
        rows.fill(self, |cell| match cell {
            0..=LONGEST => cell as i32 as f32,
            NO_PATH => f32::FAR,
            _ => f32::NAN,
        });
        rows.agree(arcs, self.routers)
    }

    /// Drops the arcs that cost more than the distance to where they lead. False where an
    /// arc costs less than that.
    #[inline]
    fn keep_least(self, links: &Links, arcs: &mut [u64; 64]) -> bool {
        let n = self.routers;
        for [out, back] in links.directions() {
            let there = self.cells[out.from * n + out.to];
            let home = self.cells[back.from * n + back.to];
            if (out.cost != there) | (back.cost != home) {
                if (out.cost < there) | (back.cost < home) {
                    return false;
                }
                arcs[out.from & 63] &= !(u64::from(out.cost > there) << out.to);
                arcs[back.from & 63] &= !(u64::from(back.cost > home) << back.to);
            }
        }
        true
    }
}
