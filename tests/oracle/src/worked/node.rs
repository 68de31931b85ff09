//! Networks for node protection: which repairs survive the failure of the far router
//! E too. All are worked for link 0, end 0.

use super::{ring, ring_3_dear_link};
use crate::network::Network;

/// Each of the eight classes has a serving pair. The neighbours 2, 3, 4 and 5 are of
/// the classes 0, 1, 4 and 5, and tunnels between them, over S, of the others: router
/// 2 and 3 reach the prefix without E, 4 and 5 over E.
pub fn node_eight_classes() -> Network {
    Network::of_routers(7)
        .link(0, 1, 4, 4)
        .link(0, 2, 3, 3)
        .link(0, 3, 3, 3)
        .link(0, 4, 3, 3)
        .link(0, 5, 3, 3)
        .link(2, 6, 4, 4)
        .link(3, 6, 6, 6)
        .link(4, 1, 3, 3)
        .link(5, 1, 5, 5)
        .link(1, 6, 1, 1)
        .prefix(&[(6, 0)])
}

/// Neighbour 2 is nearer to the prefix, but over E; neighbour 3 is farther, and does
/// without.
pub fn node_farther_neighbour() -> Network {
    Network::of_routers(5)
        .link(0, 1, 2, 2)
        .link(0, 2, 2, 2)
        .link(2, 1, 1, 1)
        .link(1, 4, 1, 1)
        .link(0, 3, 2, 2)
        .link(3, 4, 4, 4)
        .prefix(&[(4, 0)])
}

/// Ring 4 with prefixes at E alone, and at E and another router: where a walk is
/// delivered decides.
pub fn node_ring_4() -> Network {
    ring(4)
        .prefix(&[(1, 0)])
        .prefix(&[(1, 0), (2, 0)])
        .prefix(&[(1, 0), (2, 1)])
        .prefix(&[(1, 0), (3, 100)])
}

/// E is 4. The tunnel from 1 to 3 goes over 2 or over E at the same cost; the one
/// from 1 to 2 does not.
pub fn node_tunnel() -> Network {
    Network::of_routers(6)
        .link(0, 4, 1, 1)
        .link(4, 3, 1, 1)
        .link(3, 5, 1, 1)
        .link(0, 1, 2, 2)
        .link(1, 4, 2, 2)
        .link(1, 2, 1, 1)
        .link(2, 3, 2, 2)
        .prefix(&[(5, 0)])
}

/// E is 4. From neighbour 1 to the prefix at 3 one way is over 2 and one over E, at the
/// same cost. The other prefix is at E.
pub fn node_second_leg() -> Network {
    Network::of_routers(5)
        .link(0, 4, 1, 1)
        .link(4, 3, 1, 1)
        .link(0, 1, 1, 1)
        .link(1, 4, 1, 1)
        .link(1, 2, 1, 1)
        .link(2, 3, 1, 1)
        .prefix(&[(3, 0)])
        .prefix(&[(4, 0)])
}

/// Router 3, before E on the way of neighbour 2, is attached, far dearer than what is
/// beyond it, and delivers. A tunnel from 2 to 4 passes it and then E.
pub fn node_attached() -> Network {
    Network::of_routers(6)
        .link(0, 1, 4, 4)
        .link(0, 2, 5, 5)
        .link(2, 3, 1, 1)
        .link(3, 1, 1, 1)
        .link(1, 4, 5, 5)
        .link(1, 5, 1, 1)
        .prefix(&[(1, 0), (3, 50)])
        .prefix(&[(5, 0), (3, 50), (4, 60)])
}

/// The neighbours 2 and 3 alone serve, as in `neighbours_only`, with this cost from 2 to
/// E. Where a prefix is at one of them too, that one delivers before E.
pub fn node_neighbours(cost: u16) -> Network {
    Network::of_routers(4)
        .link(0, 1, 2, 1)
        .link(0, 2, 1, 100)
        .link(2, 1, cost, 100)
        .link(0, 3, 1, 100)
        .link(3, 1, 2, 100)
        .prefix(&[(1, 0), (2, 50)])
        .prefix(&[(1, 0), (3, 50)])
        .prefix(&[(1, 0), (2, 50), (3, 50)])
        .prefix(&[(1, 0), (3, 1)])
}

/// Neighbour 2 goes to E. Router 3 behind it is attached too, and farther than S: a tunnel
/// to it does without E.
pub fn node_tunnel_or_neighbour() -> Network {
    Network::of_routers(4)
        .link(0, 1, 2, 2)
        .link(0, 2, 2, 2)
        .link(2, 1, 1, 1)
        .link(2, 3, 5, 5)
        .prefix(&[(1, 0), (3, 50)])
}

/// Ring 6 with another cost of link 0, both ways, a prefix at E, and one at router 4 too.
/// With cost 5 neighbour 5 comes to E with its fourth hop; with cost 3 a tunnel is needed.
pub fn node_ring_6(cost: u16) -> Network {
    let mut network = ring(6).prefix(&[(1, 0)]).prefix(&[(1, 0), (4, 50)]);
    (network.links[0].forth, network.links[0].back) = (cost, cost);
    network
}

/// Link 0 costs 9, so that traffic from S to the prefix at E goes over router 2: it visits
/// E, but not over the link.
pub fn node_not_touched() -> Network {
    ring_3_dear_link().prefix(&[(1, 0)])
}

/// All of them with their names.
pub fn nodes() -> Vec<(&'static str, Network)> {
    vec![
        ("node, eight classes", node_eight_classes()),
        ("node, farther neighbour", node_farther_neighbour()),
        ("node, ring 4", node_ring_4()),
        ("node, tunnel", node_tunnel()),
        ("node, second leg", node_second_leg()),
        ("node, attached", node_attached()),
        ("node, neighbours", node_neighbours(1)),
        ("node, neighbours far", node_neighbours(3)),
        ("node, tunnel or neighbour", node_tunnel_or_neighbour()),
        ("node, not touched", node_not_touched()),
        ("node, ring 6, link 0 costs 5", node_ring_6(5)),
        ("node, ring 6, link 0 costs 3", node_ring_6(3)),
    ]
}
