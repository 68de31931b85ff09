//! Things to add to a run of LSAs that no LSA is bad for.

use super::layout::{POINT_TO_POINT, STUB};
use super::lsa::{Lsa, RouterLink};
use super::make::{link_metric, mask, stub_metric};
use crate::random::Random;

listed! {
    /// Something to add to a run that no LSA is bad for.
    pub enum Extra {
        OneSided: "a link to a router that does not describe it",
        ToAbsentRouter: "a link to a router that has no LSA",
        StubTwice: "a second stub link for a network and mask, with another metric",
        SharedStub: "a stub link of a network and mask that another router has",
        StubMetricZero: "a stub link with metric 0",
        OtherMask: "a stub link of a network that has another mask elsewhere",
        HostBits: "a stub link whose network has ones where its mask has none",
        HostRoute: "a stub link with the mask 255.255.255.255",
        DefaultRoute: "a stub link to 0.0.0.0 with the mask 0.0.0.0",
        OwnId: "a stub link whose network is the router's own ID",
        RouterId: "a stub link whose network is another router's ID",
        LoneRouter: "a router without a link",
        SameAdvertisingRouter: "two LSAs with one Advertising Router",
        ToAdvertisingRouter: "a link to the Advertising Router, which is another router",
    }
}

/// Adds something to an LSA of a run; there has to be a router.
pub fn add(extra: Extra, lsas: &mut Vec<Lsa>, random: &mut Random) {
    let (one, other) = (random.below(lsas.len()), random.below(lsas.len()));
    let (id, other_id) = (lsas[one].link_state_id, lsas[other].link_state_id);
    let other_stub = lsas[other].links_of(STUB).next().cloned();
    let (network, metric) = (random.any() as u32, stub_metric(random));
    let stub = other_stub.unwrap_or(RouterLink::stub(network, mask(random), metric));
    let absent = absent(lsas);
    let leads = |from: usize, to: u32| lsas[from].links_of(POINT_TO_POINT).any(|l| l.id == to);
    let linked = leads(one, other_id) || leads(other, id);
    let added = match extra {
        Extra::OneSided if one == other || linked => return,
        Extra::OneSided => RouterLink::point_to_point(other_id, network, link_metric(random)),
        Extra::ToAbsentRouter if lsas[one].links.iter().any(|link| link.id == absent) => return,
        Extra::ToAbsentRouter => RouterLink::point_to_point(absent, network, link_metric(random)),
        Extra::StubTwice => return twice(&mut lsas[one].links, stub, random),
        Extra::SharedStub => RouterLink { metric, ..stub },
        Extra::StubMetricZero => RouterLink::stub(network, mask(random), 0),
        Extra::OtherMask => return other_mask(&mut lsas[one].links, stub, random),
        Extra::HostBits => RouterLink::stub(network | 1, u32::MAX << 8, metric),
        Extra::HostRoute => RouterLink::stub(network, u32::MAX, metric),
        Extra::DefaultRoute => RouterLink::stub(0, 0, metric),
        Extra::OwnId => RouterLink::stub(id, u32::MAX, metric),
        Extra::RouterId => RouterLink::stub(other_id, u32::MAX, metric),
        Extra::LoneRouter => return lsas.insert(one, Lsa::of(absent, Vec::new())),
        Extra::SameAdvertisingRouter => {
            lsas[one].advertising_router = lsas[other].advertising_router;
            return;
        }
        Extra::ToAdvertisingRouter => {
            let end = lsas[one].links_of(POINT_TO_POINT).next().map(|link| link.id);
            lsas[one].advertising_router = end.unwrap_or(other_id);
            return;
        }
    };
    let place = random.below(lsas[one].links.len() + 1);
    lsas[one].links.insert(place, added);
}

/// An ID that no router has.
pub fn absent(lsas: &[Lsa]) -> u32 {
    let mut id = lsas.iter().map(|lsa| lsa.link_state_id).max().unwrap_or(0).wrapping_add(9);
    while lsas.iter().any(|lsa| lsa.link_state_id == id) {
        id = id.wrapping_add(9);
    }
    id
}

/// A stub link, and another of the same network and mask with another metric.
fn twice(links: &mut Vec<RouterLink>, stub: RouterLink, random: &mut Random) {
    for metric in [stub.metric, stub.metric.wrapping_add(random.between(1, 600) as u16)] {
        let place = random.below(links.len() + 1);
        links.insert(place, RouterLink { metric, ..stub.clone() });
    }
}

/// A stub link, and another of the same network with another mask.
fn other_mask(links: &mut Vec<RouterLink>, stub: RouterLink, random: &mut Random) {
    let data = stub.data ^ 1 << random.below(32);
    for data in [stub.data, data] {
        let place = random.below(links.len() + 1);
        links.insert(place, RouterLink { data, ..stub.clone() });
    }
}
