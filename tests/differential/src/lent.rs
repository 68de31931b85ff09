//! Buffers as they are lent to a call: a pattern in them that no call would
//! write, and guard cells before and after that no call may touch.

use std::fmt::{self, Display, Formatter};

/// Guard cells on each side of a buffer.
pub const GUARDS: usize = 32;

/// A cell of a buffer, with its two patterns. They depend on the place, so that
/// a cell that was moved is noticed too.
pub trait Cell: Copy + PartialEq + Into<u64> {
    /// What a lent cell holds before a call that may write it.
    fn fill(place: usize) -> Self;
    /// What a guard cell holds.
    fn guard(place: usize) -> Self;
}

/// No distance is so large, but the unreachable one, which is larger.
impl Cell for u32 {
    fn fill(place: usize) -> u32 {
        0xc0de_0000 + place as u32
    }

    fn guard(place: usize) -> u32 {
        0xfeed_0000 + place as u32
    }
}

/// A router is below 64, a lent byte is 128 or more, a guard is between them.
impl Cell for u8 {
    fn fill(place: usize) -> u8 {
        0x80 | (place % 128) as u8
    }

    fn guard(place: usize) -> u8 {
        0x40 | (place % 64) as u8
    }
}

/// What a buffer of this length holds before a call that may write it.
pub fn filled<C: Cell>(length: usize) -> Vec<C> {
    (0..length).map(C::fill).collect()
}

/// A buffer between guard cells.
#[derive(Clone, Debug)]
pub struct Lent<C> {
    cells: Vec<C>,
}

impl<C: Cell> Lent<C> {
    /// A buffer of this length, filled with the pattern.
    pub fn of_length(length: usize) -> Lent<C> {
        Lent::holding(&filled::<C>(length))
    }

    /// A buffer with these contents.
    pub fn holding(contents: &[C]) -> Lent<C> {
        let mut cells = Vec::with_capacity(contents.len() + 2 * GUARDS);
        cells.extend((0..GUARDS).map(C::guard));
        cells.extend_from_slice(contents);
        cells.extend((0..GUARDS).map(C::guard));
        Lent { cells }
    }

    /// The buffer without its guards.
    pub fn contents(&self) -> &[C] {
        &self.cells[GUARDS..self.cells.len() - GUARDS]
    }

    /// The buffer without its guards, to write to.
    pub fn lend(&mut self) -> &mut [C] {
        let end = self.cells.len() - GUARDS;
        &mut self.cells[GUARDS..end]
    }

    /// The first cell that is not as expected, the guards among them.
    pub fn difference(&self, expected: &[C]) -> Option<Difference> {
        let contents = self.contents();
        assert_eq!(contents.len(), expected.len(), "a buffer keeps its length");
        let after = &self.cells[GUARDS + contents.len()..];
        let inside = || first("the cells", contents, |place| expected[place]);
        first_guard("the guard cells before", &self.cells[..GUARDS])
            // Nearly always the whole slices are equal, which is found faster.
            .or_else(|| if contents == expected { None } else { inside() })
            .or_else(|| first_guard("the guard cells after", after))
    }
}

fn first_guard<C: Cell>(part: &'static str, cells: &[C]) -> Option<Difference> {
    first(part, cells, C::guard)
}

fn first<C: Cell>(
    part: &'static str,
    cells: &[C],
    expected: impl Fn(usize) -> C,
) -> Option<Difference> {
    let place = (0..cells.len()).find(|place| cells[*place] != expected(*place))?;
    let (expected, found) = (expected(place).into(), cells[place].into());
    Some(Difference { part, place, expected, found })
}

/// A cell that is not as expected.
#[derive(Clone, Copy, Debug, PartialEq, Eq)]
pub struct Difference {
    pub part: &'static str,
    pub place: usize,
    pub expected: u64,
    pub found: u64,
}

impl Display for Difference {
    fn fmt(&self, out: &mut Formatter) -> fmt::Result {
        let Difference { part, place, expected, found } = self;
        write!(out, "{part}: cell {place} is {found}, expected {expected}")
    }
}

#[cfg(test)]
mod tests {
    use super::*;

    /// Changes each cell in turn, the guards too, and asserts that it shows.
    fn every_changed_cell_shows<C: Cell + std::ops::BitXor<Output = C>>(one: C, length: usize) {
        let expected = filled::<C>(length);
        let untouched = Lent::<C>::of_length(length);
        assert_eq!(untouched.difference(&expected), None);
        for place in 0..length + 2 * GUARDS {
            let mut lent = untouched.clone();
            lent.cells[place] = lent.cells[place] ^ one;
            let difference = lent.difference(&expected).expect("the change shows");
            let part = match place {
                0..GUARDS => "the guard cells before",
                _ if place < GUARDS + length => "the cells",
                _ => "the guard cells after",
            };
            assert_eq!(difference.part, part);
        }
    }

    #[test]
    fn a_changed_cell_or_guard_shows() {
        for length in [0, 1, 2, 81] {
            every_changed_cell_shows(1u32, length);
            every_changed_cell_shows(1u8, length);
        }
    }

    #[test]
    fn the_pattern_is_nothing_that_a_call_writes() {
        assert!(filled::<u8>(300).iter().all(|byte| *byte >= 64));
        let distance = |cell: &u32| *cell <= 4_194_240 || *cell == u32::MAX;
        assert!(!filled::<u32>(5000).iter().any(distance));
    }
}
