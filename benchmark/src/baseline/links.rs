//! The links of a file, with rows 6 and 7, and the neighbours of each router.

use super::avoid::set_where;
use super::read::{word, BLOCK};
use crate::answer::{Network, Refusal};

pub const LINKS_IN_BLOCK: usize = 84;
pub const LINK_ENTRY: usize = 6;

/// One bit for each router.
const ALONE: [u64; 64] = {
    let mut alone = [1; 64];
    let mut router = 0;
    while router < 64 {
        alone[router] <<= router;
        router += 1;
    }
    alone
};

/// The links: what a question about a link needs of a network.
pub struct Links {
    pub routers: usize,
    pub count: usize,
    /// The routers a and b of each link.
    ends: [[u8; 2]; 128],
    /// Its costs, from a to b and from b to a.
    costs: [[u16; 2]; 128],
    /// Each router and its neighbours, as a set.
    pub joined: [u64; 64],
}

/// One direction of a link.
#[derive(Clone, Copy, Default)]
pub struct Direction {
    pub from: usize,
    pub to: usize,
    pub cost: u32,
}

impl Links {
    pub const NONE: Links =
        Links { routers: 0, count: 0, ends: [[0; 2]; 128], costs: [[0; 2]; 128], joined: ALONE };

    /// Reads the entries of all links, and judges them by rows 6 and 7. What is wrong is
    /// looked for only when something is, so that the tests have no branch for each link.
    #[inline(never)]
    pub fn read(&mut self, blocks: &[u8]) -> Result<(), Refusal> {
        let ends = self.ends[..self.count].chunks_mut(LINKS_IN_BLOCK);
        let costs = self.costs[..self.count].chunks_mut(LINKS_IN_BLOCK);
        for (block, (ends, costs)) in blocks.chunks_exact(BLOCK).zip(ends.zip(costs)) {
            let entries = block[4..508].chunks_exact(LINK_ENTRY);
            for (entry, (ends, costs)) in entries.zip(ends.iter_mut().zip(costs)) {
                *ends = [entry[0], entry[1]];
                *costs = [word(entry, 2), word(entry, 4)];
            }
        }
        if self.numbers_good() & self.join() {
            return Ok(());
        }
        Err(self.refusal())
    }

    /// Row 6, but for links that join a router to itself.
    fn numbers_good(&self) -> bool {
        let routers = self.routers as u8;
        let ends = self.ends[..self.count].as_flattened().iter();
        let costs = self.costs[..self.count].as_flattened().iter();
        let high = ends.fold(0, |bad, end| bad | u8::from(*end >= routers));
        let free = costs.fold(0, |bad, cost| bad | u16::from(*cost == 0));
        high == 0 && free == 0
    }

    /// Joins the two routers of each link. The answer is whether none of them were joined
    /// before; a router is joined to itself from the first.
    fn join(&mut self) -> bool {
        let mut twice = 0;
        for [a, b] in &self.ends[..self.count] {
            let (a, b) = (usize::from(a & 63), usize::from(b & 63));
            twice |= self.joined[a] & ALONE[b];
            self.joined[a] |= ALONE[b];
            self.joined[b] |= ALONE[a];
        }
        twice == 0
    }

    /// Row 6 at the first link that it applies to, else row 7.
    #[cold]
    fn refusal(&self) -> Refusal {
        let links = || self.ends[..self.count].iter().zip(&self.costs);
        let routers = self.routers;
        let bad = links().position(|([a, b], costs)| {
            usize::from(*a.max(b)) >= routers || a == b || costs.contains(&0)
        });
        let again = |k: usize, [a, b]: [u8; 2]| {
            self.ends[..k].iter().any(|earlier| *earlier == [a, b] || *earlier == [b, a])
        };
        match bad {
            Some(link) => Refusal::new(6, link),
            None => {
                Refusal::new(7, (0..self.count).find(|k| again(*k, self.ends[*k])).unwrap_or(0))
            }
        }
    }

    /// The two directions of a link, the one from router a first.
    pub fn both(&self, link: usize) -> [Direction; 2] {
        let ([a, b], [out, back]) = (self.ends[link].map(usize::from), self.costs[link]);
        [
            Direction { from: a, to: b, cost: u32::from(out) },
            Direction { from: b, to: a, cost: u32::from(back) },
        ]
    }

    /// The two directions of each link, in the order of the file.
    #[inline]
    pub fn directions(&self) -> impl Iterator<Item = [Direction; 2]> + '_ {
        (0..self.count.min(128)).map(|link| self.both(link))
    }

    /// The directions that leave a router. 32 links are looked at in one go.
    #[inline]
    pub fn leaving(&self, router: usize) -> impl Iterator<Item = Direction> + '_ {
        let ends = self.ends[..self.count].as_flattened().chunks(64).zip((0..).step_by(32));
        ends.flat_map(move |(ends, first)| {
            let mut rest = set_where(ends.iter().map(|end| usize::from(*end) == router));
            std::iter::from_fn(move || {
                let place = (rest != 0).then(|| rest.trailing_zeros() as usize)?;
                rest &= rest - 1;
                Some(self.both(first + place / 2)[place % 2])
            })
        })
    }

    /// Puts the columns of the links.
    pub fn put(&self, network: &mut Network) {
        (network.routers, network.links) = (self.routers, self.count);
        for k in 0..self.count {
            [network.from[k], network.to[k]] = self.ends[k];
            [network.out[k], network.back[k]] = self.costs[k];
        }
    }
}
