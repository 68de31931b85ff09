//! The distances of a file, worked out once for many questions.

use crate::answer::{Pair, Played, Repair};
use crate::call::{self, WORK_CELLS};
use crate::refusal::Refusal;

/// The distances between the routers of a file, which it borrows. Where many questions are asked
/// about one file, they are worked out once, and each question only checks them.
///
/// ```
/// use planner::{Pair, Table, ASCENDING_RANKS};
///
/// let network = planner::text::parse("routers 3\nlink 0 1 1 1\nlink 1 2 1 1\nlink 2 0 1 1")?;
/// let file = network.to_bytes();
/// let table = Table::of(&file)?;
/// for link in 0..network.links().len() {
///     for end in 0..2 {
///         let pair = table.link_repair(&ASCENDING_RANKS, link, end)?;
///         assert_eq!(pair.first, pair.endpoint);
///     }
/// }
/// # Ok::<(), Box<dyn std::error::Error>>(())
/// ```
#[derive(Clone, Debug)]
pub struct Table<'file> {
    file: &'file [u8],
    cells: Vec<u32>,
}

impl<'file> Table<'file> {
    /// Works the distances of a file out, or refuses it by the rows 1 to 9.
    pub fn of(file: &'file [u8]) -> Result<Table<'file>, Refusal> {
        let mut cells = vec![0; WORK_CELLS];
        call::distances(file, &mut cells)?;
        Ok(Table { file, cells })
    }

    /// The file.
    pub fn file(&self) -> &'file [u8] {
        self.file
    }

    /// The cells, as [`distances`](crate::distances) leaves them in an area of [`WORK_CELLS`] zeros.
    pub fn cells(&self) -> &[u32] {
        &self.cells
    }

    /// The pair that repairs a link, as [`link_repair`](crate::link_repair) answers it.
    pub fn link_repair(&self, ranks: &[u8], link: usize, end: usize) -> Result<Pair, Refusal> {
        call::link_repair_with(self.file, &self.cells, ranks, link, end)
    }

    /// What repairs the traffic from S to a prefix, as [`prefix_repair`](crate::prefix_repair)
    /// answers it.
    pub fn prefix_repair(
        &self,
        ranks: &[u8],
        link: usize,
        end: usize,
        prefix: usize,
    ) -> Result<Repair, Refusal> {
        call::prefix_repair_with(self.file, &self.cells, ranks, link, end, prefix)
    }

    /// Plays the route of a packet from S to a prefix, as [`route`](crate::route) does.
    pub fn route(
        &self,
        ranks: &[u8],
        link: usize,
        end: usize,
        prefix: usize,
        choices: &[u8],
        route: &mut [u8],
    ) -> Result<Played, Refusal> {
        call::route_with(self.file, &self.cells, ranks, link, end, prefix, choices, route)
    }
}
