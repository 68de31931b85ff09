//! A Router-LSA: its fields, its bytes, and the LSA of some bytes.

use super::fletcher;
use super::layout::*;
use std::net::Ipv4Addr;

/// A Router-LSA. Its length, its count of links and its checksum follow from the rest.
#[derive(Clone, Debug, PartialEq, Eq)]
pub struct Lsa {
    pub age: u16,
    pub options: u8,
    pub ls_type: u8,
    pub link_state_id: u32,
    pub advertising_router: u32,
    pub sequence: u32,
    pub flags: u8,
    /// The byte after the flags, 0 in the RFC.
    pub zero: u8,
    pub links: Vec<RouterLink>,
}

/// The most links that the length of an LSA has room for.
pub const MOST_IN_LSA: usize = (u16::MAX as usize - BEFORE_LINKS) / LINK;

/// One link of a Router-LSA.
#[derive(Clone, Debug, PartialEq, Eq)]
pub struct RouterLink {
    /// The other router's ID, or the network of a stub link.
    pub id: u32,
    /// An address of the router, or the mask of a stub link.
    pub data: u32,
    pub link_type: u8,
    pub metric: u16,
    pub tos: Vec<[u8; TOS]>,
}

impl RouterLink {
    /// A point-to-point link to a router.
    pub fn point_to_point(id: u32, data: u32, metric: u16) -> RouterLink {
        RouterLink { id, data, link_type: POINT_TO_POINT, metric, tos: Vec::new() }
    }

    /// A stub link to a network.
    pub fn stub(network: u32, mask: u32, metric: u16) -> RouterLink {
        RouterLink { id: network, data: mask, link_type: STUB, metric, tos: Vec::new() }
    }

    fn bytes(&self) -> Vec<u8> {
        let mut bytes = [self.id.to_be_bytes(), self.data.to_be_bytes()].concat();
        bytes.extend([self.link_type, self.tos.len() as u8]);
        bytes.extend(self.metric.to_be_bytes());
        bytes.extend(self.tos.as_flattened());
        bytes
    }

    /// The link that some bytes start with, and how many bytes it has.
    fn read(bytes: &[u8]) -> Option<(RouterLink, usize)> {
        let length = LINK + TOS * usize::from(*bytes.get(LINK_TOS)?);
        let tos = bytes.get(LINK..length)?.chunks_exact(TOS);
        let link = RouterLink {
            id: long(bytes, LINK_ID),
            data: long(bytes, LINK_DATA),
            link_type: byte(bytes, LINK_TYPE),
            metric: word(bytes, LINK_METRIC),
            tos: tos.map(|tos| std::array::from_fn(|place| tos[place])).collect(),
        };
        Some((link, length))
    }
}

impl Lsa {
    /// The Router-LSA of a router, with plain values in the fields that say nothing
    /// of the network.
    pub fn of(id: u32, links: Vec<RouterLink>) -> Lsa {
        Lsa {
            age: 1,
            options: 2,
            ls_type: ROUTER_LSA,
            link_state_id: id,
            advertising_router: id,
            sequence: 0x8000_0001,
            flags: 0,
            zero: 0,
            links,
        }
    }

    /// The bytes, with the right length, count and checksum. A length that does not fit
    /// its field is written as its lower 16 bits.
    pub fn bytes(&self) -> Vec<u8> {
        let links: Vec<u8> = self.links.iter().flat_map(RouterLink::bytes).collect();
        let mut bytes = self.age.to_be_bytes().to_vec();
        bytes.extend([self.options, self.ls_type]);
        for field in [self.link_state_id, self.advertising_router, self.sequence] {
            bytes.extend(field.to_be_bytes());
        }
        bytes.extend([0, 0]);
        bytes.extend(((BEFORE_LINKS + links.len()) as u16).to_be_bytes());
        bytes.extend([self.flags, self.zero]);
        bytes.extend((self.links.len() as u16).to_be_bytes());
        bytes.extend(links);
        fletcher::set_checksum(&mut bytes);
        bytes
    }

    /// The fields of the LSA of some bytes, judged or not, and whether its links fill
    /// them. Links that do not fit are left out.
    pub fn read(bytes: &[u8]) -> (Lsa, bool) {
        let mut links = Vec::new();
        let mut place = BEFORE_LINKS;
        let count = usize::from(word(bytes, COUNT));
        while links.len() < count {
            let rest = bytes.get(place..).unwrap_or_default();
            let Some((link, length)) = RouterLink::read(rest) else {
                break;
            };
            links.push(link);
            place += length;
        }
        let filled = links.len() == count && place == bytes.len();
        (Lsa::with_header(bytes, links), filled)
    }

    fn with_header(bytes: &[u8], links: Vec<RouterLink>) -> Lsa {
        Lsa {
            age: word(bytes, AGE),
            options: byte(bytes, OPTIONS),
            ls_type: byte(bytes, LS_TYPE),
            link_state_id: long(bytes, LINK_STATE_ID),
            advertising_router: long(bytes, ADVERTISING_ROUTER),
            sequence: long(bytes, SEQUENCE),
            flags: byte(bytes, FLAGS),
            zero: byte(bytes, ZERO),
            links,
        }
    }

    /// The links of one type.
    pub fn links_of(&self, link_type: u8) -> impl Iterator<Item = &RouterLink> {
        self.links.iter().filter(move |link| link.link_type == link_type)
    }
}

/// A 32-bit number as four numbers with points between them.
pub fn dotted(number: u32) -> String {
    Ipv4Addr::from(number).to_string()
}
