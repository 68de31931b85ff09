//! A network, and the limits that it keeps.

use std::error::Error;
use std::fmt::{self, Display, Formatter};

/// The most routers of a network.
pub const MOST_ROUTERS: usize = 64;
/// The most links of a network.
pub const MOST_LINKS: usize = 128;
/// The most prefixes of a network.
pub const MOST_PREFIXES: usize = 128;
/// The most attachments of a prefix.
pub const MOST_ATTACHMENTS: usize = 8;
/// The cost that says that a link is under maintenance in one direction. Packets may go over it as
/// over any other, but no repair starts over it.
pub const MAINTENANCE: u16 = 65_535;

/// A link joins two routers. Its two costs may differ.
#[derive(Clone, Copy, Debug, PartialEq, Eq, Hash)]
pub struct Link {
    /// Router a, which is S where the question's end is 0.
    pub a: u8,
    /// Router b, which is S where the question's end is 1.
    pub b: u8,
    /// The cost from a to b.
    pub out: u16,
    /// The cost from b to a.
    pub back: u16,
}

/// A router that a prefix is attached to, and that router's cost to it.
#[derive(Clone, Copy, Debug, PartialEq, Eq, Hash)]
pub struct Attachment {
    /// The router.
    pub router: u8,
    /// The router's own cost to the prefix, which may be 0.
    pub cost: u16,
}

/// A prefix is known by its attachments.
#[derive(Clone, Debug, PartialEq, Eq, Hash)]
pub struct Prefix {
    attachments: Vec<Attachment>,
}

impl Prefix {
    /// The attachments, 1 to 8 of them, each with another router.
    pub fn attachments(&self) -> &[Attachment] {
        &self.attachments
    }
}

/// A network. Routers, links and prefixes count from 0, links and prefixes in the order in which
/// they were added.
///
/// A network keeps the limits of a network file at all times (docs/SPECIFICATION.md, The network
/// file), so that [`Network::to_bytes`] makes a file that [`load`](crate::load) accepts.
#[derive(Clone, Debug, PartialEq, Eq, Hash)]
pub struct Network {
    routers: u8,
    links: Vec<Link>,
    prefixes: Vec<Prefix>,
}

impl Network {
    /// A network of 1 to 64 routers, with no link and no prefix.
    pub fn new(routers: u8) -> Result<Network, LimitError> {
        if routers == 0 || usize::from(routers) > MOST_ROUTERS {
            return Err(LimitError::Routers(routers));
        }
        Ok(Network { routers, links: Vec::new(), prefixes: Vec::new() })
    }

    /// The number of routers.
    pub fn routers(&self) -> usize {
        usize::from(self.routers)
    }

    /// The links.
    pub fn links(&self) -> &[Link] {
        &self.links
    }

    /// The prefixes.
    pub fn prefixes(&self) -> &[Prefix] {
        &self.prefixes
    }

    /// The neighbours of a router, in the order of the links, to which the link is under
    /// maintenance in the direction from that router.
    pub fn under_maintenance(&self, router: u8) -> impl Iterator<Item = u8> + '_ {
        let directions = self.links.iter().flat_map(|link| {
            let Link { a, b, out, back } = *link;
            [(a, b, out), (b, a, back)]
        });
        let maintained =
            directions.filter(move |(from, _, cost)| *from == router && *cost == MAINTENANCE);
        maintained.map(|(_, to, _)| to)
    }

    /// Adds a link. A network with which that would break a limit stays as it is.
    pub fn add_link(&mut self, link: Link) -> Result<(), LimitError> {
        if self.links.len() == MOST_LINKS {
            return Err(LimitError::Links);
        }
        self.has_router(link.a)?;
        self.has_router(link.b)?;
        if link.a == link.b {
            return Err(LimitError::Loop(link.a));
        }
        if link.out == 0 || link.back == 0 {
            return Err(LimitError::LinkCost);
        }
        let ends = |link: &Link| (link.a.min(link.b), link.a.max(link.b));
        if let Some(earlier) = self.links.iter().position(|other| ends(other) == ends(&link)) {
            return Err(LimitError::Joined { a: link.a, b: link.b, earlier });
        }
        self.links.push(link);
        Ok(())
    }

    /// Adds a prefix with these attachments. A network with which that would break a limit stays
    /// as it is.
    pub fn add_prefix(&mut self, attachments: &[Attachment]) -> Result<(), LimitError> {
        if self.prefixes.len() == MOST_PREFIXES {
            return Err(LimitError::Prefixes);
        }
        if attachments.is_empty() || attachments.len() > MOST_ATTACHMENTS {
            return Err(LimitError::Attachments(attachments.len()));
        }
        for (place, attachment) in attachments.iter().enumerate() {
            self.has_router(attachment.router)?;
            if attachments[..place].iter().any(|other| other.router == attachment.router) {
                return Err(LimitError::NamedTwice(attachment.router));
            }
        }
        self.prefixes.push(Prefix { attachments: attachments.to_vec() });
        Ok(())
    }

    fn has_router(&self, router: u8) -> Result<(), LimitError> {
        if router < self.routers {
            Ok(())
        } else {
            Err(LimitError::NoRouter { router, routers: self.routers })
        }
    }
}

/// A limit of a network file that a network would break (docs/SPECIFICATION.md, The network file).
#[derive(Clone, Copy, Debug, PartialEq, Eq, Hash)]
pub enum LimitError {
    /// Not 1 to 64 routers.
    Routers(u8),
    /// A link after the 128th.
    Links,
    /// A prefix after the 128th.
    Prefixes,
    /// A router that is not below the number of routers.
    NoRouter {
        /// The router.
        router: u8,
        /// The number of routers.
        routers: u8,
    },
    /// A link that joins this router to itself.
    Loop(u8),
    /// A link with cost 0.
    LinkCost,
    /// A link between two routers that are joined already.
    Joined {
        /// The link's router a.
        a: u8,
        /// The link's router b.
        b: u8,
        /// The number of the link that joins them.
        earlier: usize,
    },
    /// A prefix with this many attachments, not 1 to 8.
    Attachments(usize),
    /// A prefix that names this router twice.
    NamedTwice(u8),
}

impl Display for LimitError {
    fn fmt(&self, out: &mut Formatter) -> fmt::Result {
        match *self {
            LimitError::Routers(found) => {
                write!(out, "the number of routers is {found}, expected 1 to {MOST_ROUTERS}")
            }
            LimitError::Links => write!(out, "a network has at most {MOST_LINKS} links"),
            LimitError::Prefixes => write!(out, "a network has at most {MOST_PREFIXES} prefixes"),
            LimitError::NoRouter { router, routers } => {
                let last = routers.saturating_sub(1);
                write!(out, "there is no router {router}: the routers are 0 to {last}")
            }
            LimitError::Loop(router) => {
                write!(out, "the link joins router {router} to itself")
            }
            LimitError::LinkCost => write!(out, "the link has cost 0, expected 1 to 65535"),
            LimitError::Joined { a, b, earlier } => {
                write!(out, "routers {a} and {b} are joined by link {earlier} already")
            }
            LimitError::Attachments(found) => {
                write!(out, "the prefix has {found} attachments, expected 1 to {MOST_ATTACHMENTS}")
            }
            LimitError::NamedTwice(router) => {
                write!(out, "the prefix names router {router} twice")
            }
        }
    }
}

impl Error for LimitError {}
