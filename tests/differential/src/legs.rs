//! Every walk of both legs of a pair, by the rules of document 01 written out once
//! more: each arrives, in fewer than N hops, and misses the link that dropped; and the
//! class tells whether one of them visits E. Towards a prefix a walk ends at the first
//! attached router on it.
//!
//! Walks that come to the same router go on alike, so that each router is looked at
//! once, however many walks lead there.

use crate::call::Told;
use crate::routes::{Rules, attached};
use oracle::answer::Question;
use oracle::network::Prefix;
use oracle::ranks::ASCENDING;

/// What a leg goes towards.
#[derive(Clone, Copy, Debug)]
pub enum Target<'a> {
    Router(usize),
    Prefix(&'a Prefix),
}

impl Target<'_> {
    /// Whether a walk ends at x: there, or at an attached router.
    fn ends_at(self, x: usize) -> bool {
        match self {
            Target::Router(t) => x == t,
            Target::Prefix(prefix) => attached(prefix, x),
        }
    }
}

/// All walks from a router, which all end.
#[derive(Clone, Copy, Debug, Default, PartialEq, Eq)]
pub struct Leg {
    /// The hops of the longest.
    pub hops: usize,
    /// Whether one visits E. Its start and its end count.
    pub visits: bool,
}

/// What is known of the walks from a router.
#[derive(Clone, Copy)]
enum Walked {
    Not,
    /// A walk is on its way from here.
    Open,
    Whole(Leg),
}

/// Pairs whose legs were walked.
#[derive(Clone, Copy, Debug, Default, PartialEq, Eq)]
pub struct Pairs {
    /// Those of prefix repairs.
    pub of_prefixes: u64,
    /// Those of prefix repairs with a class below 4: every walk misses E.
    pub without_e: u64,
    /// Prefix repairs with another class by ascending ranks, of small networks: of every
    /// pair that serves some walk visits E.
    pub none_without_e: u64,
    /// Those of link repairs, towards E.
    pub of_links: u64,
    /// Those of link repairs, towards each prefix whose traffic may cross the link.
    pub of_links_for_prefixes: u64,
}

impl Pairs {
    /// Adds those of another part of a run.
    pub fn add(&mut self, other: &Pairs) {
        self.of_prefixes += other.of_prefixes;
        self.without_e += other.without_e;
        self.none_without_e += other.none_without_e;
        self.of_links += other.of_links;
        self.of_links_for_prefixes += other.of_links_for_prefixes;
    }
}

impl Rules<'_> {
    fn remaining(&self, target: Target, x: usize) -> u64 {
        match target {
            Target::Router(t) => self.to_router(x, t),
            Target::Prefix(prefix) => self.to_prefix(x, prefix),
        }
    }

    /// Where a walk from x may go next: nowhere from its end.
    fn nexts(&self, target: Target, x: usize) -> Vec<usize> {
        if target.ends_at(x) {
            return Vec::new();
        }
        self.next_routers(x, |z| self.remaining(target, z))
    }

    /// Whether traffic from S to a prefix may cross the link: some walk from S goes
    /// over it from S to E. A walk leaves S once, with its first hop.
    pub fn may_cross(&self, (s, e): (usize, usize), prefix: &Prefix) -> bool {
        self.nexts(Target::Prefix(prefix), s).contains(&e)
    }

    /// All walks from x. The error says what one does wrong.
    pub fn every_walk(
        &self,
        x: usize,
        target: Target,
        ends: (usize, usize),
    ) -> Result<Leg, String> {
        let mut walked = vec![Walked::Not; self.routers()];
        let leg = self.walk_on(x, target, ends, &mut walked)?;
        if leg.hops >= self.routers() {
            return Err(format!("a walk from {x} towards {target:?} has {} hops", leg.hops));
        }
        Ok(leg)
    }

    fn walk_on(
        &self,
        x: usize,
        target: Target,
        (s, e): (usize, usize),
        walked: &mut [Walked],
    ) -> Result<Leg, String> {
        match walked[x] {
            Walked::Whole(leg) => return Ok(leg),
            Walked::Open => return Err(format!("a walk towards {target:?} comes to {x} twice")),
            Walked::Not => walked[x] = Walked::Open,
        }
        let nexts = self.nexts(target, x);
        if nexts.is_empty() && !target.ends_at(x) {
            return Err(format!("a walk towards {target:?} can neither end nor step at {x}"));
        }
        let mut leg = Leg { hops: 0, visits: x == e };
        for z in nexts {
            if (x, z) == (s, e) || (x, z) == (e, s) {
                return Err(format!("a walk towards {target:?} crosses the link from {x} to {z}"));
            }
            let rest = self.walk_on(z, target, (s, e), walked)?;
            leg.hops = leg.hops.max(1 + rest.hops);
            leg.visits |= rest.visits;
        }
        walked[x] = Walked::Whole(leg);
        Ok(leg)
    }

    /// Every walk of both legs of a pair: whether one visits E.
    pub fn both_legs(
        &self,
        (n, y): (usize, usize),
        target: Target,
        ends: (usize, usize),
    ) -> Result<bool, String> {
        let leg = |x, target| self.every_walk(x, target, ends);
        let first = leg(n, Target::Router(y)).map_err(|wrong| format!("first leg: {wrong}"))?;
        let second = leg(y, target).map_err(|wrong| format!("second leg: {wrong}"))?;
        Ok(first.visits || second.visits)
    }

    /// Walks both legs of a pair, and compares its class.
    fn legs_and_class(
        &self,
        pair: (usize, usize),
        class: u64,
        target: Target,
        (s, e): (usize, usize),
    ) -> Result<(), String> {
        let visits = self.both_legs(pair, target, (s, e))?;
        let nearer = self.remaining(target, pair.1) < self.remaining(target, s);
        let expected = 4 * u64::from(visits) + 2 * u64::from(pair.0 != pair.1) + u64::from(!nearer);
        if class != expected {
            return Err(format!("the pair {pair:?} has class {class}, expected {expected}"));
        }
        Ok(())
    }

    /// The pairs that serve a target and of which no walk visits E.
    fn without_e(&self, target: Target, (s, e): (usize, usize)) -> Vec<(usize, usize)> {
        let endpoints = (0..self.routers()).filter(|y| *y != s && *y != e);
        let hops = self.first_hops(s, e);
        let pairs = endpoints.flat_map(|y| hops.iter().map(move |n| (*n, y)));
        pairs.filter(|pair| self.both_legs(*pair, target, (s, e)) == Ok(false)).collect()
    }
}

/// The most routers of a network of which every pair is walked.
const SMALL: usize = 12;

/// Walks the legs of a pair that a planner told, and compares its class: of a prefix
/// repair towards the prefix; of a link repair towards E, and then the legs towards every
/// prefix whose traffic from S may cross the link.
pub fn walk_told(
    rules: &Rules,
    question: &Question,
    told: &Told,
    pairs: &mut Pairs,
) -> Result<(), String> {
    let Told::Pair { first, endpoint, class, .. } = told else {
        return Ok(());
    };
    let pair = (*first as usize, *endpoint as usize);
    if pair.0.max(pair.1) >= rules.routers() {
        return Err(format!("the pair {pair:?} names a router that is not there"));
    }
    let ends = |link: &u64, end| rules.ends(*link as usize, end).ok_or("there is no such link");
    match question {
        Question::PrefixRepair { link, end, prefix, .. } => {
            let target = Target::Prefix(&rules.prefixes()[*prefix as usize]);
            let ends = ends(link, *end)?;
            rules.legs_and_class(pair, *class, target, ends)?;
            pairs.of_prefixes += 1;
            pairs.without_e += u64::from(*class < 4);
            let ascending = question.ranks() == Some(&ASCENDING[..]);
            if *class >= 4 && ascending && rules.routers() <= SMALL {
                none_without_e(rules, target, ends)?;
                pairs.none_without_e += 1;
            }
        }
        Question::LinkRepair { link, end, .. } => {
            let (s, e) = ends(link, *end)?;
            rules.legs_and_class(pair, *class, Target::Router(e), (s, e))?;
            pairs.of_links += 1;
            for prefix in rules.prefixes().iter().filter(|p| rules.may_cross((s, e), p)) {
                rules.both_legs(pair, Target::Prefix(prefix), (s, e))?;
                pairs.of_links_for_prefixes += 1;
            }
        }
        _ => return Err("a question that is no repair was told a pair".to_string()),
    }
    Ok(())
}

/// By ascending ranks a class from 4 on says that no serving pair does without E.
fn none_without_e(rules: &Rules, target: Target, ends: (usize, usize)) -> Result<(), String> {
    match rules.without_e(target, ends).first() {
        Some(pair) => Err(format!("the class is 4 or more, but {pair:?} does without E")),
        None => Ok(()),
    }
}
