//! Several failures together: links have failed, any of them, and routers repair without
//! knowing of each other. Each sends a packet for one prefix on by a usual step of the
//! walk, or by a neighbour repair for that prefix that is downstream, in any mixture.
//!
//! A packet is followed from send to send. That it comes to no router twice is not taken
//! for granted, and no distance is looked at here: which sends there are follows from
//! the walks and from the pairs that serve.

use crate::fault::{Context, Fault};
use crate::network::{Hop, LinkEnd, MAINTENANCE, Network};
use crate::random::Random;
use crate::ranks::ASCENDING;
use crate::repair;
use crate::walk::Walks;
use crate::workings::Workings;

/// "Downstream (classes 0 and 4)": the classes of the neighbour repairs that are.
pub const DOWNSTREAM: [u32; 2] = [0, 4];

/// By what a router sends a packet on.
#[derive(Clone, Copy, Debug, PartialEq, Eq, PartialOrd, Ord)]
pub enum Way {
    /// "By a usual step of the walk."
    Step,
    /// "By a neighbour repair for that prefix": of the link to this far router E.
    Repair { far: usize, class: u32 },
}

/// A send: the hop that it takes, and by what.
#[derive(Clone, Copy, Debug, PartialEq, Eq)]
pub struct Sending {
    pub hop: Hop,
    pub way: Way,
}

/// The sends of every router for one prefix.
#[derive(Clone, Debug)]
pub struct Sends {
    /// By router: whether it delivers, and so sends nothing on.
    delivers: Vec<bool>,
    /// By router: its sends, none of them twice.
    leaving: Vec<Vec<Sending>>,
}

/// How the trail of a packet ends.
#[derive(Clone, Copy, Debug, PartialEq, Eq)]
pub enum End {
    /// At an attached router.
    Delivered,
    /// "A router with neither choice drops the packet."
    Dropped,
    /// At a router that it visited before: never, unless with a fault.
    Twice,
}

/// Where a packet went.
#[derive(Clone, Debug)]
pub struct Trail {
    pub start: usize,
    pub sends: Vec<Sending>,
    /// How many sends were not possible, at the routers that it visited, since their
    /// links had failed.
    pub passed_by: usize,
    pub end: End,
}

impl Trail {
    /// The routers that the packet visits, the start included.
    pub fn routers(&self) -> Vec<usize> {
        let hops = self.sends.iter().map(|sending| sending.hop.to);
        [self.start].into_iter().chain(hops).collect()
    }

    /// The far router and the class of each repair that the packet took.
    pub fn repairs(&self) -> Vec<(usize, u32)> {
        let repair = |sending: &Sending| match sending.way {
            Way::Step => None,
            Way::Repair { far, class } => Some((far, class)),
        };
        self.sends.iter().filter_map(repair).collect()
    }
}

impl Sends {
    /// Every send for a prefix, "all by one file's costs": the usual steps, and all pairs
    /// that are downstream neighbour repairs, for every link and end.
    pub fn of(workings: &Workings, prefix: u64) -> Sends {
        let mut sends = Sends::by_one_file(workings, prefix);
        if workings.ctx.has(Fault::SendsByTwoFiles) {
            let other = Sends::by_one_file(&before_maintenance(workings), prefix);
            let routers = sends.leaving.iter_mut().zip(other.leaving);
            routers.skip(1).step_by(2).for_each(|(sends, other)| *sends = other);
        }
        sends
    }

    fn by_one_file(workings: &Workings, prefix: u64) -> Sends {
        let mut sends = Sends::of_steps(workings, prefix);
        neighbour_repairs(workings, prefix).into_iter().for_each(|sending| sends.add(sending));
        sends
    }

    /// The usual steps alone.
    pub fn of_steps(workings: &Workings, prefix: u64) -> Sends {
        let walks = workings.to_prefix(prefix);
        let delivers: Vec<bool> = workings.routers().map(|x| walks.delivers(x)).collect();
        let leaving = vec![Vec::new(); delivers.len()];
        let mut sends = Sends { delivers, leaving };
        for hop in workings.routers().flat_map(|x| usual_steps(workings, prefix, x)) {
            sends.add(Sending { hop, way: Way::Step });
        }
        sends
    }

    /// Adds a send, unless it is there. Attached routers deliver: they send nothing on.
    pub fn add(&mut self, sending: Sending) {
        let from = sending.hop.from;
        if !self.delivers[from] && !self.leaving[from].contains(&sending) {
            self.leaving[from].push(sending);
        }
    }

    /// These sends, and some of attached routers too, as if those did not deliver.
    pub fn with_attached(&self, sends: &[Sending]) -> Sends {
        let mut wider = Sends { delivers: vec![false; self.delivers.len()], ..self.clone() };
        sends.iter().for_each(|sending| wider.add(*sending));
        wider
    }

    /// The sends of a router.
    pub fn at(&self, x: usize) -> &[Sending] {
        self.leaving.get(x).map_or(&[], |sends| sends)
    }

    /// The sends of all routers.
    pub fn all(&self) -> impl Iterator<Item = &Sending> {
        self.leaving.iter().flatten()
    }

    /// The trail of a packet, "whichever links have failed": at each router one of the
    /// sends left is taken at random. `failed` is by link.
    pub fn trail(&self, start: usize, failed: &[bool], random: &mut Random) -> Trail {
        let mut trail = Trail { start, sends: Vec::new(), passed_by: 0, end: End::Delivered };
        let mut visited = vec![false; self.leaving.len()];
        let mut here = start;
        while !std::mem::replace(&mut visited[here], true) {
            if self.delivers[here] {
                return trail;
            }
            let possible = |sending: &&Sending| !failed[sending.hop.link()];
            let left: Vec<Sending> = self.leaving[here].iter().filter(possible).copied().collect();
            trail.passed_by += self.leaving[here].len() - left.len();
            if left.is_empty() {
                return Trail { end: End::Dropped, ..trail };
            }
            let sending = random.pick(&left);
            trail.sends.push(sending);
            here = sending.hop.to;
        }
        Trail { end: End::Twice, ..trail }
    }

    /// The routers from which a packet may be sent on without end. Where there is none,
    /// no packet visits a router twice, whatever is chosen and whichever links have failed:
    /// a failed link only takes sends away.
    pub fn endless(&self) -> Vec<usize> {
        let mut endless = vec![true; self.leaving.len()];
        for _ in 0..self.leaving.len() {
            let on = |x: usize| self.leaving[x].iter().any(|sending| endless[sending.hop.to]);
            endless = (0..endless.len()).map(on).collect();
        }
        (0..endless.len()).filter(|x| endless[*x]).collect()
    }
}

/// The usual steps at a router: those of the walks towards the prefix.
fn usual_steps(workings: &Workings, prefix: u64, x: usize) -> Vec<Hop> {
    if workings.ctx.has(Fault::OtherPrefixStepSent) {
        let prefixes = 0..workings.network.prefixes.len() as u64;
        return prefixes.flat_map(|other| workings.to_prefix(other).steps(x).to_vec()).collect();
    }
    workings.to_prefix(prefix).steps(x).to_vec()
}

/// Every neighbour repair for a prefix that is downstream: each pair (n, n) that serves
/// it for some link and end, and has class 0 or 4. S is any router, an attached one too.
pub fn neighbour_repairs(workings: &Workings, prefix: u64) -> Vec<Sending> {
    let target = workings.to_prefix(prefix);
    let mut repairs = Vec::new();
    for ends in link_ends(workings) {
        repairs.extend(of_link_end(workings, &ends, target));
        if workings.ctx.has(Fault::LinkRepairSent) {
            repairs.extend(of_link_end(workings, &ends, workings.to_router(ends.e)));
        }
    }
    repairs
}

/// Those for one link and end.
fn of_link_end(workings: &Workings, ends: &LinkEnd, target: &Walks) -> Vec<Sending> {
    let serving = repair::serving(workings, ends, target, &ASCENDING).into_iter();
    let pairs = serving.map(|candidate| candidate.pair);
    let sent = pairs.filter(|pair| is_sent(&workings.ctx, pair.class));
    sent.filter_map(|pair| over_first_hop(workings, ends, pair.first_hop, pair.class)).collect()
}

/// Whether a router sends by serving pairs of a class: "neighbour repairs that are
/// downstream (classes 0 and 4)"; "tunnels aren't meant".
fn is_sent(ctx: &Context, class: u32) -> bool {
    let by_mistake = match class {
        1 | 5 => ctx.has(Fault::NotDownstreamSent),
        2 | 6 => ctx.has(Fault::TunnelSentPlain),
        _ => false,
    };
    DOWNSTREAM.contains(&class) || by_mistake
}

/// The send over the first hop of a repair, if n is a neighbour of S.
pub fn over_first_hop(
    workings: &Workings,
    ends: &LinkEnd,
    n: usize,
    class: u32,
) -> Option<Sending> {
    let hop = workings.hops.leaving(ends.s).iter().find(|hop| hop.to == n)?;
    Some(Sending { hop: *hop, way: Way::Repair { far: ends.e, class } })
}

/// Every link and end.
fn link_ends(workings: &Workings) -> Vec<LinkEnd> {
    let links = 0..workings.network.links.len() as u64;
    let ends = links.flat_map(|link| [(link, 0), (link, 1)]);
    ends.filter_map(|(link, end)| workings.network.link_end(&workings.ctx, link, end)).collect()
}

/// What a fault takes for a second file: that of before maintenance, with cost 1 for
/// every cost of 65,535.
fn before_maintenance(workings: &Workings) -> Workings {
    let before = |cost: u16| if u32::from(cost) == MAINTENANCE { 1 } else { cost };
    let mut network: Network = workings.network.clone();
    for link in &mut network.links {
        (link.forth, link.back) = (before(link.forth), before(link.back));
    }
    Workings::of(&workings.ctx, network)
}
