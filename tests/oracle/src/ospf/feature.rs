//! What a run that is taken in shows: tests count these, so that none is missing from
//! what they try.

use super::judge::pieces;
use super::layout::*;
use super::lsa::{Lsa, MOST_IN_LSA};
use super::named::Named;
use crate::fault::Context;
use crate::file::{ATTACHMENTS, LARGEST, MOST_LINKS, MOST_PREFIXES, MOST_ROUTERS, write};
use std::collections::{BTreeMap, BTreeSet};

listed! {
    /// Something that a run that is taken in may have.
    pub enum Feature {
        OneSided: "a link to a router whose LSA does not describe it",
        ToAbsentRouter: "a link to a router that has no LSA",
        StubTwice: "two stub links of one router for one network and mask, with different metrics",
        LowerStubFirst: "the lower metric of two such stub links first",
        LowerStubLast: "the lower metric of two such stub links last",
        StubMetricZero: "a stub link with metric 0",
        StubMetricMost: "a stub link with metric 65,535",
        LinkMetricMost: "a link with metric 65,535",
        MetricsDiffer: "a link whose two metrics differ",
        OtherMask: "a network with two masks",
        HostBits: "a network with ones where its mask has none",
        HostRoute: "a stub link with the mask 255.255.255.255",
        DefaultRoute: "a stub link to 0.0.0.0 with the mask 0.0.0.0",
        StubOfOwnId: "a stub link whose network is the router's own ID",
        ManyLinks: "an LSA with over 255 links",
        LongestLsa: "an LSA of 65,532 bytes, the most that links fill",
        LoneRouter: "a router without a link",
        SeveralRouters: "a prefix of several routers",
        MostAttachments: "a prefix of eight routers",
        MostRouters: "64 routers",
        MostLinks: "128 links",
        MostPrefixes: "128 prefixes",
        LargestFile: "a file of 6,656 bytes",
        OneBlock: "a file of one block",
        HighId: "a Link State ID above 2,147,483,647, and one below",
        HighNetwork: "a network above 2,147,483,647, and one below",
        LowestId: "the Link State ID 0.0.0.0",
        HighestId: "the Link State ID 255.255.255.255",
        NotInOrder: "LSAs that do not come by ascending Link State ID",
        AdvertisingRouterDiffers: "an LSA whose Advertising Router is another",
        MaxAge: "an LSA of age 3600",
        AgeOver: "an LSA of an age above 3600",
        AnyFlags: "a flag other than V, E and B",
        ByteAfterFlags: "a byte after the flags that is not 0",
        ReservedSequence: "the reserved sequence number",
        FirstChecksumByteZero: "a checksum whose first byte is 0",
        SecondChecksumByteZero: "a checksum whose second byte is 0",
    }
}

/// The features of a run whose LSAs are all good and whose network is within the limits.
pub fn features(run: &[u8]) -> BTreeSet<Feature> {
    let bytes: Vec<&[u8]> = pieces(run).iter().map(|piece| piece.bytes).collect();
    let lsas: Vec<Lsa> = bytes.iter().map(|bytes| Lsa::read(bytes).0).collect();
    let named = Named::of(&Context::sound(), &lsas);
    let mut found = of_sizes(&named);
    found.extend(of_order(&lsas));
    found.extend(of_links(&named));
    found.extend(lsas.iter().flat_map(of_stubs));
    found.extend(lsas.iter().flat_map(of_fields));
    found.extend(bytes.iter().flat_map(|bytes| of_checksum(bytes)));
    found.into_iter().filter(|(_, has)| *has).map(|(feature, _)| feature).collect()
}

type Found = Vec<(Feature, bool)>;

fn of_sizes(named: &Named) -> Found {
    let length = write(&named.network()).len();
    let attached = |count: usize| named.prefixes.iter().any(|p| p.attachments.len() >= count);
    vec![
        (Feature::SeveralRouters, attached(2)),
        (Feature::MostAttachments, attached(ATTACHMENTS)),
        (Feature::MostRouters, named.routers.len() == MOST_ROUTERS),
        (Feature::MostLinks, named.links.len() == MOST_LINKS),
        (Feature::MostPrefixes, named.prefixes.len() == MOST_PREFIXES),
        (Feature::LargestFile, length == LARGEST),
        (Feature::OneBlock, length == 512),
    ]
}

fn of_order(lsas: &[Lsa]) -> Found {
    let ids: Vec<u32> = lsas.iter().map(|lsa| lsa.link_state_id).collect();
    let stubs = lsas.iter().flat_map(|lsa| lsa.links_of(STUB));
    let networks: Vec<u32> = stubs.map(|link| link.id).collect();
    let both = |numbers: &[u32]| {
        let high = |number: &u32| *number > i32::MAX as u32;
        numbers.iter().any(high) && !numbers.iter().all(high)
    };
    vec![
        (Feature::NotInOrder, !ids.is_sorted()),
        (Feature::HighId, both(&ids)),
        (Feature::LowestId, ids.contains(&0)),
        (Feature::HighestId, ids.contains(&u32::MAX)),
        (Feature::HighNetwork, both(&networks)),
    ]
}

fn of_links(named: &Named) -> Found {
    let there: BTreeSet<u32> = named.routers.iter().copied().collect();
    let networks: Vec<u32> = named.prefixes.iter().map(|prefix| prefix.network).collect();
    let one_sided =
        |is_there: bool| named.one_sided.iter().any(|(_, to, _)| there.contains(to) == is_there);
    vec![
        (Feature::OneSided, one_sided(true)),
        (Feature::ToAbsentRouter, one_sided(false)),
        (Feature::MetricsDiffer, named.links.iter().any(|link| link.forth != link.back)),
        (Feature::OtherMask, networks.windows(2).any(|pair| pair[0] == pair[1])),
    ]
}

fn of_stubs(lsa: &Lsa) -> Found {
    let mut metrics: BTreeMap<(u32, u32), Vec<u16>> = BTreeMap::new();
    for link in lsa.links_of(STUB) {
        metrics.entry((link.id, link.data)).or_default().push(link.metric);
    }
    let any = |has: &dyn Fn(u32, u32, u16) -> bool| {
        lsa.links_of(STUB).any(|link| has(link.id, link.data, link.metric))
    };
    let pair = |has: &dyn Fn(u16, u16) -> bool| {
        metrics.values().any(|metrics| metrics.windows(2).any(|pair| has(pair[0], pair[1])))
    };
    vec![
        (Feature::StubTwice, pair(&|first, next| first != next)),
        (Feature::LowerStubFirst, pair(&|first, next| first < next)),
        (Feature::LowerStubLast, pair(&|first, next| first > next)),
        (Feature::StubMetricZero, any(&|_, _, metric| metric == 0)),
        (Feature::StubMetricMost, any(&|_, _, metric| metric == u16::MAX)),
        (Feature::HostBits, any(&|network, mask, _| network & !mask != 0)),
        (Feature::HostRoute, any(&|_, mask, _| mask == u32::MAX)),
        (Feature::DefaultRoute, any(&|network, mask, _| (network, mask) == (0, 0))),
        (Feature::StubOfOwnId, any(&|network, _, _| network == lsa.link_state_id)),
    ]
}

fn of_fields(lsa: &Lsa) -> Found {
    let most = lsa.links_of(POINT_TO_POINT).any(|link| link.metric == u16::MAX);
    vec![
        (Feature::LinkMetricMost, most),
        (Feature::LoneRouter, lsa.links.is_empty()),
        (Feature::ManyLinks, lsa.links.len() > 255),
        (Feature::LongestLsa, lsa.links.len() == MOST_IN_LSA),
        (Feature::AdvertisingRouterDiffers, lsa.advertising_router != lsa.link_state_id),
        (Feature::MaxAge, lsa.age == MAX_AGE),
        (Feature::AgeOver, lsa.age > MAX_AGE),
        (Feature::AnyFlags, lsa.flags & !7 != 0),
        (Feature::ByteAfterFlags, lsa.zero != 0),
        (Feature::ReservedSequence, lsa.sequence == 0x8000_0000),
    ]
}

fn of_checksum(bytes: &[u8]) -> Found {
    vec![
        (Feature::FirstChecksumByteZero, bytes[CHECKSUM] == 0),
        (Feature::SecondChecksumByteZero, bytes[CHECKSUM + 1] == 0),
    ]
}
