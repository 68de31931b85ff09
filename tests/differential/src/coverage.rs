//! What a run met. A run that meets too little shows too little, so tests
//! assert that each thing that can happen did happen.

use crate::attached;
use crate::compare::Asked;
use crate::maintenance;
use crate::node;
use crate::ranks;
use crate::routes::Met;
use crate::tables;
use crate::writing;
use oracle::answer::{Answer, Opened, Outcome, Question, inputs};
use oracle::network::{LinkEnd, Network};
use oracle::repair::{asked_about, deciding_key, serving};
use oracle::row::Cause;
use oracle::space::{self, Space};
use std::collections::BTreeMap;
use std::fmt::{self, Display, Formatter};

/// Things that a run meets, besides the causes of refusals.
pub mod thing {
    pub const ACCEPTED: &str = "load: accepted";
    pub const ENTRY: &str = "entry: copied";
    pub const NO_ENTRY: &str = "entry: empty";
    pub const DONE: &str = "distances: done";
    pub const SIZE: &str = "size";
    pub const PLAN: &str = "plan: text";
    pub const LINK_14: &str = "link repair: 14";
    pub const PREFIX_14: &str = "prefix repair: 14";
    pub const ROUTE_14: &str = "route: 14";
    pub const PREFIX_UNTOUCHED: &str = "prefix repair: untouched";
    pub const ROUTE_UNTOUCHED: &str = "route: untouched";
    pub const PREFIX_UNREACHABLE: &str = "prefix repair: unreachable";
    pub const ROUTE_UNREACHABLE: &str = "route: unreachable";
    pub const PLAYED: &str = "route: played";
    pub const CHOICE: &str = "route: a choice between two or more options";
    pub const FEWEST: &str = "network: 1 router, no link and no prefix";
    pub const MOST: &str = "network: 64 routers, 128 links and 128 prefixes";
    pub const COST: &str = "network: a link cost of 65,535";
    pub const ATTACHMENTS: &str = "network: a prefix with 8 attachments";
    pub const E_TO_S: &str = "extended P: a router out of it by a crossing from E to S alone";

    /// All of them.
    pub const ALL: [&str; 20] = [
        ACCEPTED,
        ENTRY,
        NO_ENTRY,
        DONE,
        SIZE,
        PLAN,
        LINK_14,
        PREFIX_14,
        ROUTE_14,
        PREFIX_UNTOUCHED,
        ROUTE_UNTOUCHED,
        PREFIX_UNREACHABLE,
        ROUTE_UNREACHABLE,
        PLAYED,
        CHOICE,
        FEWEST,
        MOST,
        COST,
        ATTACHMENTS,
        E_TO_S,
    ];
}

/// What the keys of the order of pairs are, the first deciding.
const KEYS: [&str; 5] = ["rank", "distance", "endpoint", "cost", "first hop"];

/// How often each thing was met.
#[derive(Clone, Debug, Default, PartialEq, Eq)]
pub struct Coverage {
    counts: BTreeMap<String, u64>,
}

impl Coverage {
    /// How often a thing was met.
    pub fn count(&self, thing: &str) -> u64 {
        self.counts.get(thing).copied().unwrap_or(0)
    }

    /// Adds what another part of the run met.
    pub fn add(&mut self, other: &Coverage) {
        for (thing, count) in &other.counts {
            self.met(thing, *count);
        }
    }

    pub(crate) fn met(&mut self, thing: &str, count: u64) {
        if count > 0 {
            *self.counts.entry(thing.to_string()).or_default() += count;
        }
    }

    /// Counts one call, as the oracle answers it.
    pub fn call(&mut self, opened: &Opened, asked: &Asked, outcome: &Outcome) {
        match &outcome.answer {
            Answer::Refused { number: 14, .. } => self.fourteen(&asked.question),
            Answer::Refused { .. } => {
                let refusal = opened.refusal(&inputs(&asked.question, &asked.buffers()));
                let cause = refusal.expect("a refused question has a cause").cause;
                self.met(&of_cause(cause), 1);
            }
            Answer::Pair(pair) => {
                let thing = of_class(is_link(&asked.question), pair.class);
                self.met(&thing, 1);
                self.deciding(opened, &asked.question);
            }
            Answer::Accepted(network) => self.network(network),
            Answer::Set(_) => self.e_to_s(opened, &asked.question),
            Answer::Written(count) => self.written(&asked.question, *count),
            other => self.met(of_answer(&asked.question, other), 1),
        }
    }

    /// Sizes and costs at their limits.
    fn network(&mut self, network: &Network) {
        let counts = (network.routers, network.links.len(), network.prefixes.len());
        let costs = network.links.iter().filter(|link| link.forth.max(link.back) == u16::MAX);
        let full = network.prefixes.iter().filter(|prefix| prefix.attachments.len() == 8);
        self.met(thing::ACCEPTED, 1);
        self.met(thing::FEWEST, u64::from(counts == (1, 0, 0)));
        self.met(thing::MOST, u64::from(counts == (64, 128, 128)));
        self.met(thing::COST, costs.count() as u64);
        self.met(thing::ATTACHMENTS, full.count() as u64);
    }

    fn fourteen(&mut self, question: &Question) {
        let thing = match question {
            Question::LinkRepair { .. } => thing::LINK_14,
            Question::PrefixRepair { .. } => thing::PREFIX_14,
            _ => thing::ROUTE_14,
        };
        self.met(thing, 1);
        self.met(&of_cause(Cause::NoPair), 1);
    }

    /// The key that puts the answer before the next serving pair.
    fn deciding(&mut self, opened: &Opened, question: &Question) {
        let workings = opened.workings();
        if let (Some((ends, target)), Some(ranks)) =
            (asked_about(workings, question), question.ranks())
            && let Some(key) = deciding_key(&serving(workings, &ends, target, ranks))
        {
            self.met(&of_key(key), 1);
        }
    }

    /// Routers that are not in extended P but would be, if a walk over the link
    /// from E to S did not count as crossing it.
    fn e_to_s(&mut self, opened: &Opened, question: &Question) {
        let Question::Space { space: Space::ExtendedP, .. } = question else {
            return;
        };
        let Some(ends) = ends(opened, question) else {
            return;
        };
        let workings = opened.workings();
        let members = space::members(workings, Space::ExtendedP, &ends);
        let first_hops = space::first_hops(workings, &ends);
        let without = |r: &usize| {
            let walks = workings.to_router(*r);
            let not_by_s = |n: &usize| walks.reachable_from(*n) && !walks.takes(*n, ends.s_to_e());
            !members.contains(r) && first_hops.iter().any(not_by_s)
        };
        self.met(thing::E_TO_S, workings.routers().filter(without).count() as u64);
    }

    /// Counts what a played route met.
    pub fn route(&mut self, met: &Met) {
        self.met(thing::CHOICE, met.choices as u64);
        self.met(attached::thing::PLAYED_NEAR, u64::from(met.delivered_near));
        self.met(attached::thing::PLAYED_DEAR, u64::from(met.delivered_dear));
        self.met(attached::thing::PLAYED_PAST, met.passed as u64);
        self.met(maintenance::thing::PLAYED, met.maintained as u64);
    }

    /// Which of these things were not met.
    pub fn missing(&self, things: &[String]) -> Vec<String> {
        things.iter().filter(|thing| self.count(thing) == 0).cloned().collect()
    }
}

impl Display for Coverage {
    fn fmt(&self, out: &mut Formatter) -> fmt::Result {
        for (thing, count) in &self.counts {
            writeln!(out, "{count:>9}  {thing}")?;
        }
        Ok(())
    }
}

/// Everything that a whole run has to meet.
pub fn everything() -> Vec<String> {
    let mut things: Vec<String> = thing::ALL.map(str::to_string).into();
    things.extend(of_repairs());
    things.extend(attached::thing::ALL.map(str::to_string));
    things.extend(maintenance::thing::ALL.map(str::to_string));
    things.extend(node::thing::ALL.map(str::to_string));
    things.extend(ranks::things());
    things.extend(tables::things());
    things.extend(writing::things());
    things.extend(Cause::ALL.iter().map(|cause| of_cause(*cause)));
    things
}

/// The classes and the deciding keys.
pub fn of_repairs() -> Vec<String> {
    let of_links = (4..8).map(|class| of_class(true, class));
    let of_prefixes = (0..8).map(|class| of_class(false, class));
    of_links.chain(of_prefixes).chain((1..=5).map(of_key)).collect()
}

/// The causes of some rows.
pub fn of_rows(rows: &[u8]) -> Vec<String> {
    let causes = Cause::ALL.iter().filter(|cause| rows.contains(&cause.row()));
    causes.map(|cause| of_cause(*cause)).collect()
}

fn of_cause(cause: Cause) -> String {
    format!("row {:02}: {}", cause.row(), cause.words())
}

fn of_class(link: bool, class: u32) -> String {
    let call = if link { "link repair" } else { "prefix repair" };
    format!("{call}: class {class}")
}

/// The name of a key, which are numbered from 1.
fn of_key(key: usize) -> String {
    format!("deciding key {key}: {}", KEYS[key - 1])
}

fn is_link(question: &Question) -> bool {
    matches!(question, Question::LinkRepair { .. })
}

fn of_answer(question: &Question, answer: &Answer) -> &'static str {
    let route = matches!(question, Question::Route { .. });
    match answer {
        Answer::Part { bytes, .. } if bytes.is_empty() => thing::NO_ENTRY,
        Answer::Part { .. } => thing::ENTRY,
        Answer::Size(_) => thing::SIZE,
        Answer::Text(_) => thing::PLAN,
        Answer::Untouched if route => thing::ROUTE_UNTOUCHED,
        Answer::Untouched => thing::PREFIX_UNTOUCHED,
        Answer::Unreachable if route => thing::ROUTE_UNREACHABLE,
        Answer::Unreachable => thing::PREFIX_UNREACHABLE,
        Answer::Count(_) => thing::PLAYED,
        _ => thing::DONE,
    }
}

/// The link and end of a question that has them.
pub(crate) fn ends(opened: &Opened, question: &Question) -> Option<LinkEnd> {
    let workings = opened.workings();
    match question {
        Question::Space { link, end, .. }
        | Question::LinkRepair { link, end, .. }
        | Question::PrefixRepair { link, end, .. }
        | Question::Route { link, end, .. } => {
            workings.network.link_end(&workings.ctx, *link, *end)
        }
        _ => None,
    }
}
