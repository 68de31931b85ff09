//! A network by value, as a program hands it to the call that writes it: three
//! counts, and columns with room for the most links and prefixes. A cell that no
//! entry speaks of may hold anything.

use crate::file::{ATTACHMENTS, MOST_LINKS, MOST_PREFIXES};
use crate::network::{Attachment, Link, Network, Prefix};
use crate::text;
use std::fmt::{self, Debug, Formatter};

/// The slots of all prefixes.
pub const SLOTS: usize = ATTACHMENTS * MOST_PREFIXES;

/// Counts and columns. The counts are as wide as in any interface.
#[derive(Clone, PartialEq, Eq)]
pub struct Columns {
    pub routers: u64,
    pub links: u64,
    pub prefixes: u64,
    /// Router a and router b of each link.
    pub from: [u8; MOST_LINKS],
    pub to: [u8; MOST_LINKS],
    /// The cost a to b and the cost b to a.
    pub out: [u16; MOST_LINKS],
    pub back: [u16; MOST_LINKS],
    /// How many attachments each prefix has.
    pub attached: [u8; MOST_PREFIXES],
    /// Router and cost of each slot: slot s of prefix p is cell 8 * p + s.
    pub at: [u8; SLOTS],
    pub own: [u16; SLOTS],
}

impl Columns {
    /// The columns of a network; every cell that no entry speaks of is 0. Of more
    /// entries than there is room for the first are there.
    pub fn of(network: &Network) -> Columns {
        let mut columns = Columns {
            routers: u64::from(network.routers),
            links: network.links.len() as u64,
            prefixes: network.prefixes.len() as u64,
            from: [0; MOST_LINKS],
            to: [0; MOST_LINKS],
            out: [0; MOST_LINKS],
            back: [0; MOST_LINKS],
            attached: [0; MOST_PREFIXES],
            at: [0; SLOTS],
            own: [0; SLOTS],
        };
        for (k, link) in network.links.iter().take(MOST_LINKS).enumerate() {
            (columns.from[k], columns.to[k]) = (link.a, link.b);
            (columns.out[k], columns.back[k]) = (link.forth, link.back);
        }
        for (p, prefix) in network.prefixes.iter().take(MOST_PREFIXES).enumerate() {
            columns.attached[p] = u8::try_from(prefix.attachments.len()).unwrap_or(u8::MAX);
            for (s, attachment) in prefix.attachments.iter().take(ATTACHMENTS).enumerate() {
                columns.at[ATTACHMENTS * p + s] = attachment.router;
                columns.own[ATTACHMENTS * p + s] = attachment.cost;
            }
        }
        columns
    }

    /// Whether every count has room in the columns, and that of routers in a byte.
    pub fn in_room(&self) -> bool {
        let mut attached = self.attached[..self.used_prefixes()].iter();
        self.routers <= u64::from(u8::MAX)
            && self.links <= MOST_LINKS as u64
            && self.prefixes <= MOST_PREFIXES as u64
            && attached.all(|count| usize::from(*count) <= ATTACHMENTS)
    }

    /// How many of the cells of a column of links are used.
    pub fn used_links(&self) -> usize {
        self.links.min(MOST_LINKS as u64) as usize
    }

    /// How many of the cells of a column of prefixes are used.
    pub fn used_prefixes(&self) -> usize {
        self.prefixes.min(MOST_PREFIXES as u64) as usize
    }

    /// How many slots of a prefix are used.
    pub fn used_slots(&self, prefix: usize) -> usize {
        usize::from(self.attached[prefix]).min(ATTACHMENTS)
    }

    /// The network of these columns. Of a count with no room in them there are as
    /// many entries as there is room for, and of the routers the lower 8 bits.
    pub fn network(&self) -> Network {
        let link = |k: usize| Link {
            a: self.from[k],
            b: self.to[k],
            forth: self.out[k],
            back: self.back[k],
        };
        let slot = |cell: usize| Attachment { router: self.at[cell], cost: self.own[cell] };
        let prefix = |p: usize| Prefix {
            attachments: (0..self.used_slots(p)).map(|s| slot(ATTACHMENTS * p + s)).collect(),
        };
        Network {
            routers: self.routers as u8,
            links: (0..self.used_links()).map(link).collect(),
            prefixes: (0..self.used_prefixes()).map(prefix).collect(),
        }
    }
}

/// The counts, and the entries as a text.
impl Debug for Columns {
    fn fmt(&self, out: &mut Formatter) -> fmt::Result {
        let Columns { routers, links, prefixes, .. } = self;
        let text = text::of_network(&self.network());
        write!(out, "{routers} routers, {links} links, {prefixes} prefixes:\n{text}")
    }
}
