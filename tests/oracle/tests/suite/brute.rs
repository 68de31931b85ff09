//! Document 01 once more, for tiny networks and in the plainest way: every
//! path and every walk is listed. The tests compare the oracle with this.

use oracle::network::{Network, Prefix};

/// An unreachable distance.
pub const FAR: u64 = u64::MAX;

pub struct Brute {
    pub routers: usize,
    /// The cost x to z of the link that joins them, if there is one.
    pub cost: Vec<Vec<Option<u64>>>,
    /// D(x,t).
    pub distance: Vec<Vec<u64>>,
}

/// A walk as the routers it comes to, the start included.
pub type Walk = Vec<usize>;

impl Brute {
    pub fn new(network: &Network) -> Brute {
        let routers = usize::from(network.routers);
        let mut cost = vec![vec![None; routers]; routers];
        for link in &network.links {
            cost[usize::from(link.a)][usize::from(link.b)] = Some(u64::from(link.forth));
            cost[usize::from(link.b)][usize::from(link.a)] = Some(u64::from(link.back));
        }
        let mut brute = Brute { routers, cost, distance: Vec::new() };
        brute.distance = brute.floyd_warshall();
        brute
    }

    fn floyd_warshall(&self) -> Vec<Vec<u64>> {
        let all = 0..self.routers;
        let mut least = vec![vec![FAR; self.routers]; self.routers];
        for x in all.clone() {
            for t in all.clone() {
                least[x][t] = if x == t { 0 } else { self.cost[x][t].unwrap_or(FAR) };
            }
        }
        for middle in all.clone() {
            for x in all.clone() {
                for t in all.clone() {
                    let through = least[x][middle].saturating_add(least[middle][t]);
                    least[x][t] = least[x][t].min(through);
                }
            }
        }
        least
    }

    /// The least cost over all paths, each path listed.
    pub fn least_path(&self, x: usize, t: usize, before: &[usize]) -> u64 {
        if x == t {
            return 0;
        }
        let mut least = FAR;
        for z in 0..self.routers {
            let cost = self.cost[x][z].filter(|_| !before.contains(&z));
            if let Some(cost) = cost {
                let rest = self.least_path(z, t, &[before, &[x]].concat());
                least = least.min(rest.saturating_add(cost));
            }
        }
        least
    }

    /// D(x,p).
    pub fn to_prefix(&self, x: usize, prefix: &Prefix) -> u64 {
        let sums = prefix.attachments.iter().map(|attachment| {
            self.distance[x][usize::from(attachment.router)]
                .saturating_add(u64::from(attachment.cost))
        });
        sums.min().unwrap_or(FAR)
    }

    /// Every walk from x towards router t. It panics when one has N hops.
    pub fn walks_to_router(&self, x: usize, t: usize) -> Vec<Walk> {
        let remaining = |r: usize| self.distance[r][t];
        self.walks(vec![x], &remaining, &|r| r == t, &|r| r != t)
    }

    /// Every walk from x to delivery, at the first attached router on it.
    pub fn walks_to_prefix(&self, x: usize, prefix: &Prefix) -> Vec<Walk> {
        let remaining = |r: usize| self.to_prefix(r, prefix);
        let attached = |r: usize| own_cost(prefix, r).is_some();
        self.walks(vec![x], &remaining, &attached, &|r| !attached(r))
    }

    /// Every walk from x to delivery as it was before attached routers delivered:
    /// where the own cost is the distance, and a walk may go on from there.
    pub fn walks_to_prefix_before(&self, x: usize, prefix: &Prefix) -> Vec<Walk> {
        let remaining = |r: usize| self.to_prefix(r, prefix);
        let delivers = |r: usize| own_cost(prefix, r) == Some(remaining(r));
        self.walks(vec![x], &remaining, &delivers, &|_| true)
    }

    fn walks(
        &self,
        begun: Walk,
        remaining: &dyn Fn(usize) -> u64,
        may_end: &dyn Fn(usize) -> bool,
        may_step: &dyn Fn(usize) -> bool,
    ) -> Vec<Walk> {
        let here = begun[begun.len() - 1];
        if remaining(here) == FAR {
            return Vec::new();
        }
        assert!(begun.len() <= self.routers, "a walk has N hops");
        let mut walks = Vec::new();
        if may_end(here) {
            walks.push(begun.clone());
        }
        let mut may_go_on = may_end(here);
        for z in 0..self.routers {
            let tight = |cost: u64| remaining(z).saturating_add(cost) == remaining(here);
            if may_step(here) && self.cost[here][z].is_some_and(tight) {
                may_go_on = true;
                let longer = [begun.as_slice(), &[z]].concat();
                walks.extend(self.walks(longer, remaining, may_end, may_step));
            }
        }
        assert!(may_go_on, "a walk can neither end nor go on");
        walks
    }

    /// Avoiding, when these are all walks: there is one, and none crosses the
    /// link between s and e, either way.
    pub fn avoid(walks: &[Walk], s: usize, e: usize) -> bool {
        let crosses = |walk: &Walk| walk.windows(2).any(|hop| hop == [s, e] || hop == [e, s]);
        !walks.is_empty() && !walks.iter().any(crosses)
    }

    /// Whether one of these walks goes over the link from s to e.
    pub fn touch(walks: &[Walk], s: usize, e: usize) -> bool {
        walks.iter().any(|walk| walk.windows(2).any(|hop| hop == [s, e]))
    }

    /// Whether one of these walks visits a router; its start and its end count.
    pub fn visit(walks: &[Walk], router: usize) -> bool {
        walks.iter().any(|walk| walk.contains(&router))
    }

    /// S's neighbours other than E to which the cost from S is below 65,535.
    pub fn first_hops(&self, s: usize, e: usize) -> Vec<usize> {
        let in_use = |n: &usize| self.cost[s][*n].is_some_and(|cost| cost < 65_535);
        (0..self.routers).filter(|n| in_use(n) && *n != e).collect()
    }
}

/// A router's own cost to a prefix, if it is attached to it.
pub fn own_cost(prefix: &Prefix, router: usize) -> Option<u64> {
    let own = prefix.attachments.iter().find(|own| usize::from(own.router) == router);
    own.map(|own| u64::from(own.cost))
}
