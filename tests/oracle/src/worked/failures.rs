//! Networks for several failures together: in each a packet visits a router twice where a
//! mistake lets a router send it on by something else than a usual step or a neighbour
//! repair that is downstream.

use super::{four_classes, node_ring_6, ring, ring_4_with_prefix};
use crate::network::Network;

/// Ring 4 with a prefix at 1 and 2. Routers 0 and 3 are equally near to it, so that each is
/// a repair of class 1 for the other.
pub fn failures_equally_near() -> Network {
    ring_4_with_prefix()
}

/// Ring 3 with a prefix at 1, which is the far router of both links to it. Routers 0 and 2
/// are equally near, so that each is a repair of class 5 for the other.
pub fn failures_over_far() -> Network {
    ring(3).prefix(&[(1, 0)])
}

/// Ring 6 with link 0 costing 3 and a prefix at 1. From 0 a tunnel by 5 to 3 repairs link
/// 0; a packet that comes to 5 without the tunnel may go back to 0.
pub fn failures_tunnel() -> Network {
    node_ring_6(3)
}

/// A line of four routers with a prefix at each end.
pub fn failures_two_prefixes() -> Network {
    let line = (0..3).fold(Network::of_routers(4), |line, a| line.link(a, a + 1, 1, 1));
    line.prefix(&[(0, 0)]).prefix(&[(3, 0)])
}

/// Router 4 with the prefix is behind 0. From 0 router 2 is downstream towards 1, but not
/// towards the prefix.
pub fn failures_link_repair() -> Network {
    let mut network = Network { routers: 5, ..four_classes() }.link(0, 4, 1, 1);
    network.prefixes.clear();
    network.prefix(&[(4, 0)])
}

/// Link 0 is under maintenance both ways. By the costs of before, router 1 goes over 2 to
/// the prefix at 0; by those of now, router 2 goes over 1.
pub fn failures_maintenance() -> Network {
    Network::of_routers(3)
        .link(2, 0, 65_535, 65_535)
        .link(1, 2, 1, 1)
        .link(1, 0, 10, 10)
        .prefix(&[(0, 0)])
}

/// From 0 router 2 repairs link 0 over the far router 1, in class 4; where the link from 2 to
/// 1 has failed too, router 3 repairs it from there, in class 0. The prefix is at 4.
pub fn failures_two_repairs() -> Network {
    Network::of_routers(5)
        .link(0, 1, 5, 5)
        .link(0, 2, 4, 4)
        .link(0, 3, 4, 4)
        .link(2, 1, 4, 4)
        .link(3, 4, 3, 3)
        .link(1, 4, 1, 1)
        .link(3, 2, 5, 5)
        .prefix(&[(4, 0)])
}
