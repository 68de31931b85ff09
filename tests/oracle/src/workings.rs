//! What all answers about one accepted file share, worked out once.

use crate::distance::Distances;
use crate::fault::Context;
use crate::network::{Hops, Network, Prefix};
use crate::walk::{Target, Walks};
use std::cell::OnceCell;

/// A network with its distances, and its walks as far as they were asked for.
pub struct Workings {
    pub ctx: Context,
    pub network: Network,
    pub hops: Hops,
    pub distances: Distances,
    /// Walks by target. The last place stands for a target that is not there.
    to_router: Vec<OnceCell<Walks>>,
    to_prefix: Vec<OnceCell<Walks>>,
}

impl Workings {
    /// The workings of a network.
    pub fn of(ctx: &Context, network: Network) -> Workings {
        let hops = Hops::of(ctx, &network);
        let distances = Distances::over(ctx, &hops);
        Workings::by(ctx, network, hops, distances)
    }

    /// The workings of a network by these numbers for its distances.
    pub fn by(ctx: &Context, network: Network, hops: Hops, distances: Distances) -> Workings {
        let to_router = vec![OnceCell::new(); hops.routers() + 1];
        let to_prefix = vec![OnceCell::new(); network.prefixes.len() + 1];
        Workings { ctx: ctx.clone(), network, hops, distances, to_router, to_prefix }
    }

    /// The routers.
    pub fn routers(&self) -> std::ops::Range<usize> {
        0..self.hops.routers()
    }

    /// The walks towards a router.
    pub fn to_router(&self, t: usize) -> &Walks {
        let place = t.min(self.hops.routers());
        self.to_router[place].get_or_init(|| self.walks(Target::Router(t)))
    }

    /// The walks towards a prefix.
    pub fn to_prefix(&self, prefix: u64) -> &Walks {
        let count = self.network.prefixes.len();
        let place = usize::try_from(prefix).unwrap_or(count).min(count);
        self.to_prefix[place].get_or_init(|| {
            let nowhere = Prefix::default();
            let prefix = self.network.prefixes.get(place).unwrap_or(&nowhere);
            self.walks(Target::Prefix(prefix))
        })
    }

    fn walks(&self, target: Target) -> Walks {
        Walks::towards(&self.ctx, &self.hops, &self.distances, target)
    }
}
