//! Every pair of a question, judged by the lists of all its walks, in the plainest
//! way.

use crate::brute::{Brute, Walk};
use crate::common::refused;
use oracle::answer::Answer;
use oracle::network::{Network, Prefix};
use oracle::ranks::Arrangement;
use oracle::repair::Pair;

/// A target by its walks and its distances.
pub struct Target<'a> {
    pub walks: Box<dyn Fn(usize) -> Vec<Walk> + 'a>,
    pub distance: Box<dyn Fn(usize) -> u64 + 'a>,
}

impl<'a> Target<'a> {
    pub fn router(brute: &'a Brute, t: usize) -> Target<'a> {
        Target {
            walks: Box::new(move |x| brute.walks_to_router(x, t)),
            distance: Box::new(move |x| brute.distance[x][t]),
        }
    }

    pub fn prefix(brute: &'a Brute, prefix: &'a Prefix) -> Target<'a> {
        Target {
            walks: Box::new(|x| brute.walks_to_prefix(x, prefix)),
            distance: Box::new(|x| brute.to_prefix(x, prefix)),
        }
    }
}

/// A serving pair: its class, then the other keys in their order: D(S,y), y, tunnel
/// cost, n.
pub type Serving = (u32, u64, usize, u64, usize);

/// All pairs that serve.
pub fn all_serving(brute: &Brute, s: usize, e: usize, target: &Target) -> Vec<Serving> {
    let mut serving = Vec::new();
    for n in brute.first_hops(s, e) {
        for y in (0..brute.routers).filter(|y| *y != s && *y != e) {
            let first_leg = brute.walks_to_router(n, y);
            let second_leg = (target.walks)(y);
            if Brute::avoid(&first_leg, s, e) && Brute::avoid(&second_leg, s, e) {
                let nearer = (target.distance)(y) < (target.distance)(s);
                let visited = Brute::visit(&first_leg, e) || Brute::visit(&second_leg, e);
                let tunnel = if y == n { 0 } else { 2 };
                let class = tunnel + u32::from(!nearer) + if visited { 4 } else { 0 };
                let cost = brute.cost[s][n].expect("a neighbour") + brute.distance[n][y];
                serving.push((class, brute.distance[s][y], y, cost, n));
            }
        }
    }
    serving
}

/// The pair that the ranks put first, by sorting all that serve, or 14.
pub fn first_pair(mut serving: Vec<Serving>, ranks: &Arrangement) -> Answer {
    serving.sort_by_key(|(class, from_s, y, cost, n)| {
        (ranks[*class as usize], *from_s, *y, *cost, *n)
    });
    let Some((class, _, endpoint, cost, first_hop)) = serving.first().copied() else {
        return refused(14, 0);
    };
    let tunnel_cost = u32::try_from(cost).expect("a cost fits");
    Answer::Pair(Pair { first_hop, endpoint, class, tunnel_cost })
}

/// Every link and end with its S and E.
pub fn far_routers(network: &Network) -> Vec<(u64, u64, usize, usize)> {
    let links = network.links.iter().zip(0..);
    let ends = links.flat_map(|(link, number)| {
        let (a, b) = (usize::from(link.a), usize::from(link.b));
        [(number, 0, a, b), (number, 1, b, a)]
    });
    ends.collect()
}
