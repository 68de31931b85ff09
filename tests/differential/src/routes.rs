//! Played routes, hop by hop, by the rules of document 01 written out once
//! more. Nothing here comes from the oracle's walks: distances are those of
//! the Floyd-Warshall method, and every hop is held against the network.

use crate::compare::Heard;
use crate::lent::{Cell, filled};
use oracle::network::{Network, Prefix};

/// A distance that no path has. It is far above every real sum.
const FAR: u64 = u64::MAX / 4;

/// The cost of a link under maintenance. Walks go over it; no repair starts
/// over it.
const MAINTENANCE: u64 = 65_535;

/// A network with the costs and distances that the rules speak of.
pub struct Rules<'a> {
    network: &'a Network,
    /// The cost x to z of the link that joins them.
    cost: Vec<Vec<Option<u64>>>,
    /// D(x,t).
    distance: Vec<Vec<u64>>,
}

/// A route question with the pair that repairs it.
#[derive(Clone, Copy, Debug)]
pub struct Asking<'a> {
    pub link: usize,
    pub end: u64,
    pub prefix: usize,
    /// n and y.
    pub pair: (usize, usize),
    pub choices: &'a [u8],
}

/// What a route met on its way.
#[derive(Clone, Copy, Debug, Default, PartialEq, Eq)]
pub struct Met {
    pub hops: usize,
    /// Routers with more than one option.
    pub choices: usize,
    /// Whether it was delivered though a step was tight, the own cost of the
    /// router being its distance.
    pub delivered_near: bool,
    /// Whether it was delivered by a router whose own cost is above its distance.
    pub delivered_dear: bool,
    /// Attached routers that the tunnel passed.
    pub passed: usize,
    /// Hops over a link under maintenance.
    pub maintained: usize,
}

impl<'a> Rules<'a> {
    /// The rules for a network.
    pub fn of(network: &'a Network) -> Rules<'a> {
        let routers = usize::from(network.routers);
        let mut cost = vec![vec![None; routers]; routers];
        for link in &network.links {
            let (a, b) = (usize::from(link.a), usize::from(link.b));
            cost[a][b] = Some(u64::from(link.forth));
            cost[b][a] = Some(u64::from(link.back));
        }
        let distance = floyd_warshall(&cost);
        Rules { network, cost, distance }
    }

    /// D(x,p): the least of D(x,a) plus a's cost to p over its attachments a.
    pub(crate) fn to_prefix(&self, x: usize, prefix: &Prefix) -> u64 {
        let attachments = prefix.attachments.iter();
        let sums = attachments.map(|attached| {
            self.distance[x][usize::from(attached.router)] + u64::from(attached.cost)
        });
        sums.min().unwrap_or(FAR)
    }

    /// D(x,t).
    pub(crate) fn to_router(&self, x: usize, t: usize) -> u64 {
        self.distance[x][t]
    }

    /// N.
    pub(crate) fn routers(&self) -> usize {
        self.cost.len()
    }

    /// The prefixes.
    pub(crate) fn prefixes(&self) -> &[Prefix] {
        &self.network.prefixes
    }

    /// S and E of a link and an end.
    pub(crate) fn ends(&self, link: usize, end: u64) -> Option<(usize, usize)> {
        let ends = self.network.links.get(link)?;
        let (a, b) = (usize::from(ends.a), usize::from(ends.b));
        Some(if end == 0 { (a, b) } else { (b, a) })
    }

    /// The next routers of a walk at x, ascending: the cost x to z plus the
    /// distance from z equals the finite distance from x.
    pub(crate) fn next_routers(&self, x: usize, remaining: impl Fn(usize) -> u64) -> Vec<usize> {
        let steps =
            |z: &usize| self.cost[x][*z].is_some_and(|cost| cost + remaining(*z) == remaining(x));
        let routers = if remaining(x) < FAR { 0..self.cost.len() } else { 0..0 };
        routers.filter(steps).collect()
    }

    /// Follows a route from hop to hop. The error says which rule is broken.
    pub fn follow(&self, asking: &Asking, route: &[u8]) -> Result<Met, String> {
        let (s, e) = self.ends(asking.link, asking.end).ok_or("there is no such link")?;
        let route: Vec<usize> = route.iter().map(|router| usize::from(*router)).collect();
        self.hops_are_links(&route, (s, e))?;
        let (n, y) = asking.pair;
        if route.len() < 2 || route[0] != s || route[1] != n || n == e {
            return Err(format!("the route does not start with S {s} and the first hop {n}"));
        }
        if self.maintained(s, n) {
            return Err(format!("the first hop {n} is under maintenance"));
        }
        let prefix = &self.network.prefixes[asking.prefix];
        let mut walk = Walk { rules: self, route: &route, at: 1, used: 0, met: Met::default() };
        walk.tunnel(y, asking.choices)?;
        walk.met.passed = route[1..walk.at].iter().filter(|x| attached(prefix, **x)).count();
        walk.deliver(prefix, asking.choices)?;
        let maintained = route.windows(2).filter(|hop| self.maintained(hop[0], hop[1])).count();
        Ok(Met { hops: route.len() - 1, maintained, ..walk.met })
    }

    /// The routers that links join to S.
    pub(crate) fn neighbours(&self, s: usize) -> Vec<usize> {
        (0..self.routers()).filter(|z| self.cost[s][*z].is_some()).collect()
    }

    /// The neighbours of S other than E to which the link is not under maintenance.
    pub(crate) fn first_hops(&self, s: usize, e: usize) -> Vec<usize> {
        let neighbours = self.neighbours(s).into_iter();
        neighbours.filter(|n| *n != e && !self.maintained(s, *n)).collect()
    }

    /// Whether the hop from x to z is under maintenance.
    fn maintained(&self, x: usize, z: usize) -> bool {
        self.cost[x][z] == Some(MAINTENANCE)
    }

    /// Every hop is over a link, and none over the link that dropped; a route
    /// has at most 2 x N routers.
    fn hops_are_links(&self, route: &[usize], (s, e): (usize, usize)) -> Result<(), String> {
        let routers = self.cost.len();
        if route.len() > 2 * routers || route.iter().any(|router| *router >= routers) {
            return Err("the route is too long or names a router that is not there".to_string());
        }
        for hop in route.windows(2) {
            if self.cost[hop[0]][hop[1]].is_none() {
                return Err(format!("no link joins {} and {}", hop[0], hop[1]));
            }
            if hop == [s, e] || hop == [e, s] {
                return Err(format!("the hop from {} to {} crosses the link", hop[0], hop[1]));
            }
        }
        Ok(())
    }
}

fn floyd_warshall(cost: &[Vec<Option<u64>>]) -> Vec<Vec<u64>> {
    let routers = cost.len();
    let mut least: Vec<Vec<u64>> =
        cost.iter().map(|row| row.iter().map(|cost| cost.unwrap_or(FAR)).collect()).collect();
    for (x, row) in least.iter_mut().enumerate() {
        row[x] = 0;
    }
    for middle in 0..routers {
        let through = least[middle].clone();
        for row in &mut least {
            let first = row[middle];
            for (cell, second) in row.iter_mut().zip(&through) {
                *cell = (*cell).min(first + second).min(FAR);
            }
        }
    }
    least
}

/// A route that is being followed.
struct Walk<'a> {
    rules: &'a Rules<'a>,
    route: &'a [usize],
    /// The place in the route.
    at: usize,
    /// Choice bytes used so far.
    used: usize,
    met: Met,
}

impl Walk<'_> {
    /// The next choice byte modulo the number of options. A byte that has run
    /// out counts as 0.
    fn option(&mut self, choices: &[u8], options: usize) -> usize {
        let byte = choices.get(self.used).copied().unwrap_or(0);
        self.used += 1;
        self.met.choices += usize::from(options > 1);
        usize::from(byte) % options
    }

    /// One step to the router that the rules and the choices name.
    fn step(&mut self, next: usize) -> Result<(), String> {
        let here = self.route[self.at];
        match self.route.get(self.at + 1) {
            Some(found) if *found == next => self.at += 1,
            found => return Err(format!("after {here} comes {found:?}, expected {next}")),
        }
        Ok(())
    }

    /// The steps from n to y, each on a shortest path to y, fewer than N.
    fn tunnel(&mut self, y: usize, choices: &[u8]) -> Result<(), String> {
        let start = self.at;
        while self.route[self.at] != y {
            let here = self.route[self.at];
            let nexts = self.rules.next_routers(here, |z| self.rules.distance[z][y]);
            if nexts.is_empty() {
                return Err(format!("no step leads from {here} to the endpoint {y}"));
            }
            let option = self.option(choices, nexts.len());
            self.step(nexts[option])?;
        }
        self.fewer_than_n(start)
    }

    /// The steps from y to delivery, each on a shortest path to the prefix, fewer
    /// than N. At the first attached router delivery is the only option.
    fn deliver(&mut self, prefix: &Prefix, choices: &[u8]) -> Result<(), String> {
        let start = self.at;
        while !attached(prefix, self.route[self.at]) {
            let here = self.route[self.at];
            let nexts = self.rules.next_routers(here, |z| self.rules.to_prefix(z, prefix));
            if nexts.is_empty() {
                return Err(format!("router {here} can neither deliver nor step"));
            }
            let option = self.option(choices, nexts.len());
            self.step(nexts[option])?;
        }
        if self.at + 1 != self.route.len() {
            return Err("the route goes on after delivery".to_string());
        }
        self.delivered(prefix);
        self.fewer_than_n(start)
    }

    /// What delivery at the last router met.
    fn delivered(&mut self, prefix: &Prefix) {
        let here = self.route[self.at];
        let distance = self.rules.to_prefix(here, prefix);
        let nexts = self.rules.next_routers(here, |z| self.rules.to_prefix(z, prefix));
        self.met.delivered_dear = own_cost(prefix, here) > Some(distance);
        self.met.delivered_near = !self.met.delivered_dear && !nexts.is_empty();
    }

    fn fewer_than_n(&self, start: usize) -> Result<(), String> {
        if self.at - start < self.rules.cost.len() {
            return Ok(());
        }
        Err("a leg has N hops or more".to_string())
    }
}

/// A router's own cost to a prefix that it is attached to.
pub(crate) fn own_cost(prefix: &Prefix, x: usize) -> Option<u64> {
    let own = prefix.attachments.iter().find(|own| usize::from(own.router) == x);
    own.map(|own| u64::from(own.cost))
}

/// Whether x is attached to a prefix. Then it delivers, whatever its own cost is.
pub(crate) fn attached(prefix: &Prefix, x: usize) -> bool {
    own_cost(prefix, x).is_some()
}

/// Follows a route that a planner wrote, and looks at the bytes after it.
pub fn follow_heard(
    rules: &Rules,
    asking: &Asking,
    heard: &Heard,
    count: u64,
) -> Result<Met, String> {
    let buffer = heard.route.contents();
    let count = usize::try_from(count).ok().filter(|count| *count <= buffer.len());
    let (route, later) = buffer.split_at(count.ok_or("the count is longer than the buffer")?);
    if later != &filled::<u8>(buffer.len())[route.len()..] {
        let first = u8::fill(route.len());
        return Err(format!("a byte after the route is written; the first was {first}"));
    }
    rules.follow(asking, route)
}
