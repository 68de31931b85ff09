//! A network as the file describes it, and the hops that its links offer.

use crate::fault::{Context, Fault};

/// A link joins routers a and b. Its two costs may differ.
#[derive(Clone, Copy, Debug, PartialEq, Eq)]
pub struct Link {
    pub a: u8,
    pub b: u8,
    /// The cost a to b.
    pub forth: u16,
    /// The cost b to a.
    pub back: u16,
}

/// A router that a prefix is attached to, and that router's cost to it.
#[derive(Clone, Copy, Debug, PartialEq, Eq)]
pub struct Attachment {
    pub router: u8,
    pub cost: u16,
}

/// A prefix is known by its attachments.
#[derive(Clone, Debug, Default, PartialEq, Eq)]
pub struct Prefix {
    pub attachments: Vec<Attachment>,
}

/// Routers, links and prefixes count from 0 in file order. The fields are as
/// wide as the file's, so that a network that the reader refuses can be
/// written too.
#[derive(Clone, Debug, Default, PartialEq, Eq)]
pub struct Network {
    /// N, the number of routers.
    pub routers: u8,
    pub links: Vec<Link>,
    pub prefixes: Vec<Prefix>,
}

impl Network {
    /// A network of this many routers, with no link and no prefix.
    pub fn of_routers(routers: u8) -> Network {
        Network { routers, ..Network::default() }
    }

    /// Adds a link with its cost a to b and its cost b to a.
    pub fn link(mut self, a: u8, b: u8, forth: u16, back: u16) -> Network {
        self.links.push(Link { a, b, forth, back });
        self
    }

    /// Adds a prefix with its attachments, each a router and its cost.
    pub fn prefix(mut self, attachments: &[(u8, u16)]) -> Network {
        let attachments = attachments.iter();
        let attachments = attachments.map(|&(router, cost)| Attachment { router, cost });
        self.prefixes.push(Prefix { attachments: attachments.collect() });
        self
    }

    /// What a question's link and end name, if there is such a link. End 0
    /// makes a the repairing router S and b the far router E, 1 the reverse.
    pub fn link_end(&self, ctx: &Context, link: u64, end: u64) -> Option<LinkEnd> {
        let number = usize::try_from(link).ok()?;
        let Link { a, b, .. } = *self.links.get(number)?;
        let (a, b) = (usize::from(a), usize::from(b));
        let forth = (end == 0) != ctx.has(Fault::EndsReversed);
        let (s, e) = if forth { (a, b) } else { (b, a) };
        Some(LinkEnd { link: number, s, e, forth })
    }
}

/// The link of a question with its repairing router S and its far router E.
#[derive(Clone, Copy, Debug, PartialEq, Eq)]
pub struct LinkEnd {
    pub link: usize,
    pub s: usize,
    pub e: usize,
    forth: bool,
}

impl LinkEnd {
    /// The number of the hop over the link from S to E.
    pub fn s_to_e(&self) -> usize {
        hop_number(self.link, self.forth)
    }

    /// The number of the hop over the link from E to S.
    pub fn e_to_s(&self) -> usize {
        hop_number(self.link, !self.forth)
    }
}

/// The cost that says that a link is under maintenance in one direction. Walks
/// may use the link as before, but no repair starts over it.
pub const MAINTENANCE: u32 = 65_535;

/// A hop: over one link, in one direction.
#[derive(Clone, Copy, Debug, PartialEq, Eq)]
pub struct Hop {
    pub from: usize,
    pub to: usize,
    pub cost: u32,
    /// Twice the link's number, plus 1 for the direction b to a.
    pub number: usize,
}

impl Hop {
    /// Whether the hop goes from its link's router a to router b.
    pub fn is_forth(&self) -> bool {
        self.number % 2 == 0
    }

    /// The link that the hop is over.
    pub fn link(&self) -> usize {
        self.number / 2
    }
}

fn hop_number(link: usize, forth: bool) -> usize {
    2 * link + usize::from(!forth)
}

/// All hops of a network, by the router they leave.
#[derive(Clone, Debug)]
pub struct Hops {
    leaving: Vec<Vec<Hop>>,
    numbers: usize,
}

impl Hops {
    /// The hops of a network. A link that names a router not below N offers
    /// none; only a reader with a fault lets such a link pass.
    pub fn of(ctx: &Context, network: &Network) -> Hops {
        let routers = usize::from(network.routers);
        let mut leaving = vec![Vec::new(); routers];
        for (link, ends) in network.links.iter().enumerate() {
            let (a, b) = (usize::from(ends.a), usize::from(ends.b));
            if a >= routers || b >= routers {
                continue;
            }
            let (mut forth, mut back) = (u32::from(ends.forth), u32::from(ends.back));
            if ctx.has(Fault::CostsWrongWayRound) {
                (forth, back) = (back, forth);
            }
            leaving[a].push(Hop { from: a, to: b, cost: forth, number: hop_number(link, true) });
            leaving[b].push(Hop { from: b, to: a, cost: back, number: hop_number(link, false) });
        }
        if ctx.has(Fault::MaintenanceNotThere) {
            leaving.iter_mut().for_each(|hops| hops.retain(|hop| hop.cost != MAINTENANCE));
        }
        for hops in &mut leaving {
            hops.sort_by_key(|hop| hop.to);
        }
        Hops { leaving, numbers: 2 * network.links.len() }
    }

    /// N, the number of routers.
    pub fn routers(&self) -> usize {
        self.leaving.len()
    }

    /// One more than the largest hop number.
    pub fn numbers(&self) -> usize {
        self.numbers
    }

    /// The hops that leave router x, by the router they lead to, ascending.
    /// Their `to` are x's neighbours.
    pub fn leaving(&self, x: usize) -> &[Hop] {
        self.leaving.get(x).map_or(&[], |hops| hops)
    }
}
