//! The hand-worked networks of document 01, networks of the source documents
//! that their text determines, networks in which ranks matter, networks with
//! links under maintenance, networks with dear attachments, networks for node
//! protection, and networks for several failures together.

mod failures;
mod node;

pub use failures::*;
pub use node::*;

use crate::network::Network;

/// Ring k: link i joins i and i + 1, the last joins k - 1 and 0, all costs 1.
pub fn ring(k: u8) -> Network {
    (0..k).fold(Network::of_routers(k), |network, i| network.link(i, (i + 1) % k, 1, 1))
}

/// Ring 4 with a prefix at 1 and 2, cost 0 each.
pub fn ring_4_with_prefix() -> Network {
    ring(4).prefix(&[(1, 0), (2, 0)])
}

/// Ring 5 with a prefix at 1, cost 0.
pub fn ring_5_with_prefix() -> Network {
    ring(5).prefix(&[(1, 0)])
}

/// Ring 3 with cost 2 from 2 to 1.
pub fn ring_3_dear_back() -> Network {
    let mut network = ring(3);
    network.links[1].back = 2;
    network
}

/// Ring 4 with link 2 costing 10 both ways.
pub fn ring_4_dear_link() -> Network {
    let mut network = ring(4);
    network.links[2].forth = 10;
    network.links[2].back = 10;
    network
}

/// Two routers, one link.
pub fn two_routers() -> Network {
    Network::of_routers(2).link(0, 1, 1, 1)
}

/// One router alone.
pub fn lone_router() -> Network {
    Network::of_routers(1)
}

/// Figure 1 of source document 000: the ring S, A, B, C, D, E as the routers
/// 0 to 5. Link 0 is S-E, with S as its router a. B-C has the given cost.
pub fn figure_1(b_to_c: u16) -> Network {
    Network::of_routers(6)
        .link(0, 5, 1, 1)
        .link(0, 1, 1, 1)
        .link(1, 2, 1, 1)
        .link(2, 3, b_to_c, b_to_c)
        .link(3, 4, 1, 1)
        .link(4, 5, 1, 1)
}

/// Topology 1 of source document 001: the ring S, N, R1, R2, R3, E as the
/// routers 0 to 5, D1 as 6 behind E and D2 as 7 behind R3, all costs 1. Link 0
/// is S-E, with S as its router a. The prefixes are R3, E, D1 and D2.
pub fn topology_1() -> Network {
    Network::of_routers(8)
        .link(0, 5, 1, 1)
        .link(0, 1, 1, 1)
        .link(1, 2, 1, 1)
        .link(2, 3, 1, 1)
        .link(3, 4, 1, 1)
        .link(4, 5, 1, 1)
        .link(5, 6, 1, 1)
        .link(4, 7, 1, 1)
        .prefix(&[(4, 0)])
        .prefix(&[(5, 0)])
        .prefix(&[(6, 0)])
        .prefix(&[(7, 0)])
}

/// Topology 2 of source document 001: topology 1 with a link N-E.
pub fn topology_2() -> Network {
    topology_1().link(1, 5, 1, 1)
}

/// Routers in a square of columns and rows, numbered row by row, each joined
/// to the next in its row and its column, all costs 1.
pub fn grid(columns: u8, rows: u8) -> Network {
    let mut network = Network::of_routers(columns * rows);
    for router in 0..columns * rows {
        if router % columns + 1 < columns {
            network = network.link(router, router + 1, 1, 1);
        }
        if router / columns + 1 < rows {
            network = network.link(router, router + columns, 1, 1);
        }
    }
    network
}

/// Every first hop of router 0 is under maintenance, but no direction to it: for
/// link 0 and its end 0 there is no pair, for its end 1 there is.
pub fn maintenance_first_hops() -> Network {
    Network::of_routers(5)
        .link(0, 1, 1, 1)
        .link(0, 2, 65_535, 1)
        .link(3, 0, 1, 65_535)
        .link(2, 4, 1, 1)
        .link(3, 4, 1, 1)
        .link(4, 1, 1, 1)
        .prefix(&[(1, 0)])
}

/// For link 0, end 0, the tunnel from 5 to 3 goes over link 3, which is under
/// maintenance both ways.
pub fn maintenance_tunnel() -> Network {
    Network::of_routers(6)
        .link(0, 1, 65_534, 65_534)
        .link(1, 2, 1, 1)
        .link(2, 3, 1, 1)
        .link(3, 4, 65_535, 65_535)
        .link(4, 5, 1, 1)
        .link(5, 0, 1, 1)
        .prefix(&[(1, 0)])
}

/// Link 0 is under maintenance both ways. It is repaired as any other link;
/// for the other links of its two routers it is no first hop.
pub fn maintenance_protected_link() -> Network {
    Network::of_routers(4)
        .link(0, 1, 65_535, 65_535)
        .link(1, 2, 30_000, 30_000)
        .link(2, 3, 30_000, 30_000)
        .link(3, 0, 30_000, 30_000)
        .prefix(&[(1, 0)])
}

/// For link 0, end 0, routers 3 and 4 are in extended P by way of 3 alone, to
/// which the direction from 0 is under maintenance. P and Q do not ask for it.
pub fn maintenance_extended_p() -> Network {
    Network::of_routers(6)
        .link(0, 1, 1, 1)
        .link(0, 2, 1, 1)
        .link(0, 3, 65_535, 1)
        .link(3, 4, 1, 1)
        .link(4, 1, 1, 1)
        .link(2, 5, 2, 2)
        .link(5, 1, 2, 2)
        .prefix(&[(4, 0)])
}

/// Costs of 65,535 and 65,534 in every mixture of the two directions.
pub fn maintenance_costs() -> Network {
    Network::of_routers(7)
        .link(0, 1, 65_535, 65_534)
        .link(1, 2, 65_534, 65_535)
        .link(2, 3, 65_535, 65_535)
        .link(3, 4, 65_534, 65_534)
        .link(4, 5, 65_535, 1)
        .link(5, 0, 65_534, 1)
        .link(1, 4, 1, 65_535)
        .link(2, 5, 1, 65_534)
        .link(6, 0, 65_534, 65_535)
        .link(6, 2, 65_535, 65_534)
        .link(6, 4, 1, 1)
        .prefix(&[(3, 0)])
        .prefix(&[(1, 65_535), (4, 65_534)])
}

/// Ring 6 with another cost, that of every link and of all attachments but one.
pub fn ring_6_of_cost(cost: u16) -> Network {
    let mut network = ring(6).prefix(&[(1, cost)]).prefix(&[(2, cost), (3, cost), (4, 0)]);
    for link in &mut network.links {
        (link.forth, link.back) = (cost, cost);
    }
    network
}

/// The networks with links under maintenance, with their names.
pub fn maintenance() -> Vec<(&'static str, Network)> {
    vec![
        ("maintenance, first hops", maintenance_first_hops()),
        ("maintenance, tunnel", maintenance_tunnel()),
        ("maintenance, protected link", maintenance_protected_link()),
        ("maintenance, extended P", maintenance_extended_p()),
        ("maintenance, costs", maintenance_costs()),
        ("ring 6 of costs 65,534", ring_6_of_cost(65_534)),
        ("ring 6 of costs 65,535", ring_6_of_cost(65_535)),
    ]
}

/// Ring 4 with a prefix at 1 for 0 and at 3 for 100. Router 3 delivers, though
/// its own cost is far above its distance, which goes over link 0 or link 2.
pub fn attached_ring_4() -> Network {
    ring(4).prefix(&[(1, 0), (3, 100)])
}

/// A line 2, 0, 1, 3. For link 0, end 0, the only first hop 2 is attached at the
/// highest cost and serves as its own endpoint; its distance goes over the link.
pub fn attached_first_hop() -> Network {
    Network::of_routers(4)
        .link(0, 1, 1, 1)
        .link(0, 2, 1, 1)
        .link(1, 3, 1, 1)
        .prefix(&[(1, 0), (2, 65_535)])
        .prefix(&[(3, 0), (0, 65_535)])
}

/// Ring 4 and router 4 behind 1. For link 0, end 0, the far router 1 is attached,
/// once far dearer than 4, once cheaper, once not at all.
pub fn attached_far_end() -> Network {
    let network = Network { routers: 5, ..ring(4) };
    network
        .link(1, 4, 1, 1)
        .prefix(&[(1, 100), (4, 0)])
        .prefix(&[(4, 100), (1, 0)])
        .prefix(&[(4, 0)])
}

/// For link 0, end 0, the tunnel from 2 to 4 passes router 3, which is attached.
pub fn attached_tunnel() -> Network {
    Network::of_routers(6)
        .link(0, 1, 1, 1)
        .link(0, 2, 10, 1)
        .link(2, 3, 1, 1)
        .link(3, 4, 1, 1)
        .link(4, 1, 1, 1)
        .link(4, 5, 1, 1)
        .link(1, 5, 1, 1)
        .prefix(&[(5, 0), (3, 50)])
}

/// Ring 4 with prefixes at 1 and at 0, which is S for link 0, end 0: its own cost
/// equals the way over 1, is far above it, or below it.
pub fn attached_s() -> Network {
    ring(4).prefix(&[(0, 1), (1, 0)]).prefix(&[(0, 100), (1, 0)]).prefix(&[(0, 0), (1, 5)])
}

/// Ring 4 with link 0 costing 3 both ways. For link 0, end 0, router 3 is
/// downstream, though its own cost to the prefix is above the distance of 0.
pub fn attached_class() -> Network {
    let mut network = ring(4).prefix(&[(1, 0), (3, 100)]);
    (network.links[0].forth, network.links[0].back) = (3, 3);
    network
}

/// Ring 8 with a prefix at every router, and one at every other router.
pub fn attached_everywhere() -> Network {
    let costs = [65_535, 0, 65_535, 65_534, 1, 2, 3, 65_535];
    let all: Vec<(u8, u16)> = (0..8).zip(costs).collect();
    let odd: Vec<(u8, u16)> = all.iter().copied().filter(|(router, _)| router % 2 == 1).collect();
    ring(8).prefix(&all).prefix(&odd)
}

/// The networks with dear attachments, with their names.
pub fn attached() -> Vec<(&'static str, Network)> {
    vec![
        ("attached, ring 4", attached_ring_4()),
        ("attached, first hop", attached_first_hop()),
        ("attached, far end", attached_far_end()),
        ("attached, tunnel", attached_tunnel()),
        ("attached, S", attached_s()),
        ("attached, class", attached_class()),
        ("attached, everywhere", attached_everywhere()),
    ]
}

/// For link 0, end 0, each of the classes 4 to 7 has a serving pair: 4 by router 2, 5
/// by router 3, and 6 and 7 by a tunnel from each of these two to the other. The
/// prefix is at E.
pub fn four_classes() -> Network {
    Network::of_routers(4)
        .link(0, 1, 4, 4)
        .link(0, 2, 3, 3)
        .link(2, 1, 3, 3)
        .link(0, 3, 3, 3)
        .link(3, 1, 5, 5)
        .prefix(&[(1, 0)])
}

/// For link 0, end 0, only neighbours serve: router 2 in class 4 and router 3 in
/// class 5. A tunnel from one to the other crosses the link from E to S.
pub fn neighbours_only() -> Network {
    Network::of_routers(4)
        .link(0, 1, 2, 1)
        .link(0, 2, 1, 100)
        .link(2, 1, 1, 100)
        .link(0, 3, 1, 100)
        .link(3, 1, 2, 100)
        .prefix(&[(1, 0)])
}

/// Ring 3 with link 0 costing 9 both ways, so that S avoids to E.
pub fn ring_3_dear_link() -> Network {
    let mut network = ring(3);
    (network.links[0].forth, network.links[0].back) = (9, 9);
    network
}

/// All of them with their names.
pub fn all() -> Vec<(&'static str, Network)> {
    let mut all = vec![
        ("lone router", lone_router()),
        ("two routers", two_routers()),
        ("ring 3", ring(3)),
        ("ring 3, cost 2 from 2 to 1", ring_3_dear_back()),
        ("ring 4", ring(4)),
        ("ring 4 with prefix", ring_4_with_prefix()),
        ("ring 4, link 2 costs 10", ring_4_dear_link()),
        ("ring 5", ring(5)),
        ("ring 5 with prefix", ring_5_with_prefix()),
        ("figure 1", figure_1(1)),
        ("figure 1, B-C costs 4", figure_1(4)),
        ("topology 1", topology_1()),
        ("topology 2", topology_2()),
        ("four classes", four_classes()),
        ("neighbours only", neighbours_only()),
        ("ring 3, link 0 costs 9", ring_3_dear_link()),
        ("grid 3 by 3 with prefix", grid(3, 3).prefix(&[(8, 0)]).prefix(&[(2, 2), (5, 1), (8, 0)])),
    ];
    all.extend(maintenance());
    all.extend(attached());
    all.extend(nodes());
    all
}
