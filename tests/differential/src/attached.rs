//! What a run met of attached routers. A walk towards a prefix ends at the first
//! attached router on it, however dear that attachment is. Each answer is held
//! against that of an oracle whose walks pass attached routers, as they did before,
//! so that a run shows what the change changes, and that it changes nothing else.

use crate::compare::Asked;
use crate::coverage::{Coverage, ends};
use crate::routes::own_cost;
use oracle::answer::{Answer, Opened, Outcome, Question};
use oracle::class::NOT_PROTECTING;
use oracle::network::LinkEnd;
use oracle::ranks::ASCENDING;
use oracle::repair::Pair;
use oracle::walk::Walks;
use oracle::workings::Workings;

/// Things that a run meets where routers are attached.
pub mod thing {
    pub const UNTOUCHED_PAIR: &str = "attached: prefix repair: untouched where a pair was";
    pub const UNTOUCHED_14: &str = "attached: prefix repair: untouched where 14 was";
    pub const REPAIRED: &str = "attached: prefix repair: a pair where 14 was";
    pub const OTHER_CLASS: &str = "attached: prefix repair: another pair, of another class";
    pub const OTHER_PAIR: &str = "attached: prefix repair: another pair of the same class";
    pub const WITHOUT_E: &str = "attached: prefix repair: the same pair, now without E";
    pub const SAME_PAIR: &str = "attached: prefix repair: the same pair as before";
    pub const SAME_14: &str = "attached: prefix repair: 14 as before";
    pub const SAME_UNTOUCHED: &str = "attached: prefix repair: untouched as before";
    pub const SAME_UNREACHABLE: &str = "attached: prefix repair: unreachable as before";
    pub const ROUTE_UNTOUCHED: &str = "attached: route: untouched where one was played";
    pub const ROUTE_UNTOUCHED_14: &str = "attached: route: untouched where 14 was";
    pub const ROUTE_PLAYED: &str = "attached: route: played where 14 was";
    pub const ROUTE_OTHER: &str = "attached: route: another, by another pair";
    pub const ROUTE_SHORTER: &str = "attached: route: a shorter one, by the same pair";
    pub const ROUTE_SAME: &str = "attached: route: the same as before";
    pub const SAME_UNPLAYED: &str = "attached: route: not played as before";
    pub const S_AT_DISTANCE: &str = "attached: S, at its distance, where the step to E is tight";
    pub const S_DEAR: &str = "attached: S, above its distance, where the step to E is tight";
    pub const S_DEAREST: &str = "attached: S, at 65,535, where the step to E is tight";
    pub const E_AT_DISTANCE: &str = "attached: E, at its distance, where a pair is told";
    pub const E_DEAR: &str = "attached: E, above its distance, where a pair is told";
    pub const FIRST_HOP: &str = "attached: a first hop above its distance is its own endpoint";
    pub const FIRST_HOP_DEAREST: &str = "attached: a first hop at 65,535 is its own endpoint";
    pub const ENDPOINT: &str = "attached: the endpoint of a tunnel is above its distance";
    pub const TUNNEL: &str = "attached: a tunnel that may pass an attached router";
    pub const LATER: &str = "attached: a second leg that ends at a router above its distance";
    pub const SUMS: &str = "attached: an endpoint that avoids though a sum is its distance";
    pub const ALL_ROUTERS: &str = "attached: every router of six or more";
    pub const PLAYED_NEAR: &str = "attached: played to a router that had a step, at its distance";
    pub const PLAYED_DEAR: &str = "attached: played to a router above its distance";
    pub const PLAYED_PAST: &str = "attached: played in a tunnel past an attached router";

    /// All of them.
    pub const ALL: [&str; 32] = [
        UNTOUCHED_PAIR,
        UNTOUCHED_14,
        REPAIRED,
        OTHER_CLASS,
        OTHER_PAIR,
        WITHOUT_E,
        SAME_PAIR,
        SAME_14,
        SAME_UNTOUCHED,
        SAME_UNREACHABLE,
        ROUTE_UNTOUCHED,
        ROUTE_UNTOUCHED_14,
        ROUTE_PLAYED,
        ROUTE_OTHER,
        ROUTE_SHORTER,
        ROUTE_SAME,
        SAME_UNPLAYED,
        S_AT_DISTANCE,
        S_DEAR,
        S_DEAREST,
        E_AT_DISTANCE,
        E_DEAR,
        FIRST_HOP,
        FIRST_HOP_DEAREST,
        ENDPOINT,
        TUNNEL,
        LATER,
        SUMS,
        ALL_ROUTERS,
        PLAYED_NEAR,
        PLAYED_DEAR,
        PLAYED_PAST,
    ];
}

impl Coverage {
    /// Counts one call, as the oracle answers it. `before` is the file as an oracle
    /// opens it whose walks pass attached routers.
    pub fn attached(&mut self, opened: &Opened, before: &Opened, asked: &Asked, outcome: &Outcome) {
        if matches!(outcome.answer, Answer::Refused { number, .. } if number != 14) {
            return;
        }
        let Some(ends) = ends(opened, &asked.question) else {
            return;
        };
        let old = before.ask(&asked.question, &asked.buffers());
        let Some(prefix) = prefix_of(&asked.question) else {
            assert_eq!(outcome, &old, "{:?}", asked.question);
            return;
        };
        let to = To { workings: opened.workings(), prefix };
        to.assert_rest_same(&ends, &asked.question, outcome, &old);
        if !to.may_differ() {
            return;
        }
        if let Question::PrefixRepair { .. } = asked.question {
            self.ends_attached(&to, &ends, &outcome.answer);
            self.met(repaired(&outcome.answer, &old.answer), 1);
        } else {
            let same_pair = match (repair(opened, asked), repair(before, asked)) {
                (Answer::Pair(now), Answer::Pair(old)) => same_routers(&now, &old),
                _ => false,
            };
            self.met(played(outcome, &old, same_pair), 1);
        }
    }

    /// Which routers are attached: S, E, those of the pair.
    fn ends_attached(&mut self, to: &To, ends: &LinkEnd, answer: &Answer) {
        let walks = to.walks();
        let tight = walks.tight(ends.s).iter().any(|hop| hop.to == ends.e);
        let (at_distance, dear) = (to.at_distance(ends.s), to.dear(ends.s));
        self.met(thing::S_AT_DISTANCE, u64::from(tight && at_distance));
        self.met(thing::S_DEAR, u64::from(tight && dear));
        self.met(thing::S_DEAREST, u64::from(tight && dear && to.dearest(ends.s)));
        let all = to.workings.routers().all(|x| walks.delivers(x));
        self.met(thing::ALL_ROUTERS, u64::from(all && to.workings.routers().len() >= 6));
        let Answer::Pair(pair) = answer else {
            return;
        };
        self.met(thing::E_AT_DISTANCE, u64::from(to.at_distance(ends.e)));
        self.met(thing::E_DEAR, u64::from(to.dear(ends.e)));
        self.pair_attached(to, ends, pair);
    }

    fn pair_attached(&mut self, to: &To, ends: &LinkEnd, pair: &Pair) {
        let (n, y) = (pair.first_hop, pair.endpoint);
        let dear = to.dear(y);
        self.met(thing::FIRST_HOP, u64::from(n == y && dear));
        self.met(thing::FIRST_HOP_DEAREST, u64::from(n == y && dear && to.dearest(y)));
        self.met(thing::ENDPOINT, u64::from(n != y && dear));
        let tunnel = to.workings.to_router(y);
        let passes = |x: &usize| *x != y && to.walks().delivers(*x) && tunnel.visits(n, *x);
        self.met(thing::TUNNEL, u64::from(to.workings.routers().any(|x| passes(&x))));
        let ended = |x: &usize| *x != y && to.dear(*x) && to.walks().visits(y, *x);
        self.met(thing::LATER, u64::from(to.workings.routers().any(|x| ended(&x))));
        self.met(thing::SUMS, u64::from(to.a_sum_is_the_distance(ends, y)));
    }
}

/// The prefix of a question that has one.
fn prefix_of(question: &Question) -> Option<u64> {
    match question {
        Question::PrefixRepair { prefix, .. } | Question::Route { prefix, .. } => Some(*prefix),
        _ => None,
    }
}

/// The prefix repair of the same question.
fn repair(opened: &Opened, asked: &Asked) -> Answer {
    let Question::Route { ranks, link, end, prefix, .. } = &asked.question else {
        unreachable!("asked of routes only");
    };
    let question = Question::prefix_repair(*link, *end, *prefix).with_ranks(ranks);
    opened.ask(&question, &asked.buffers()).answer
}

/// A prefix of a network.
struct To<'a> {
    workings: &'a Workings,
    prefix: u64,
}

impl To<'_> {
    fn walks(&self) -> &Walks {
        self.workings.to_prefix(self.prefix)
    }

    /// The own cost of a router that is attached.
    fn own(&self, x: usize) -> Option<u64> {
        own_cost(&self.workings.network.prefixes[self.prefix as usize], x)
    }

    /// Attached, the own cost being the distance.
    fn at_distance(&self, x: usize) -> bool {
        self.own(x) == Some(self.walks().remaining(x).into())
    }

    /// Attached, the own cost being above the distance.
    fn dear(&self, x: usize) -> bool {
        self.own(x) > Some(self.walks().remaining(x).into())
    }

    fn dearest(&self, x: usize) -> bool {
        self.own(x) == Some(65_535)
    }

    /// Whether a tight step leaves an attached router. Only there walks differ from
    /// those of before.
    fn may_differ(&self) -> bool {
        let walks = self.walks();
        self.workings.routers().any(|x| walks.delivers(x) && !walks.tight(x).is_empty())
    }

    /// Whether the distance of x is a sum over the link, though x avoids it.
    fn a_sum_is_the_distance(&self, ends: &LinkEnd, x: usize) -> bool {
        let (walks, distances) = (self.walks(), &self.workings.distances);
        let hop = self.workings.hops.leaving(ends.s).iter().find(|hop| hop.to == ends.e);
        let cost = hop.map_or(0, |hop| u64::from(hop.cost));
        let sum = u64::from(distances.between(x, ends.s)) + cost;
        sum + u64::from(walks.remaining(ends.e)) == u64::from(walks.remaining(x))
    }

    /// Nothing changes where no tight step leaves an attached router; an attached S
    /// is untouched, and only there is untouched new; the work area, unreachable and
    /// who had a repair stay.
    fn assert_rest_same(&self, ends: &LinkEnd, question: &Question, now: &Outcome, old: &Outcome) {
        assert_eq!(now.left.work, old.left.work, "{question:?}");
        if !self.may_differ() {
            assert_eq!(now, old, "{question:?}");
        }
        let attached = self.walks().delivers(ends.s);
        assert!(!attached || now.answer == Answer::Untouched, "{question:?}");
        match (&now.answer, &old.answer) {
            (Answer::Untouched, old) => assert!(attached || *old == Answer::Untouched),
            (Answer::Pair(now), Answer::Pair(old)) => {
                // A pair may now do without E and so have 4 less, which may be any rank.
                let ascending = question.ranks() == Some(&ASCENDING[..]);
                assert!(!ascending || now.class <= old.class, "{question:?}");
            }
            (Answer::Pair(_) | Answer::Count(_), Answer::Refused { .. }) => {}
            (Answer::Count(_), Answer::Count(_)) => {}
            (now, old) => assert_eq!(now, old, "{question:?}"),
        }
    }
}

/// Whether two pairs have the same first hop and endpoint.
fn same_routers(one: &Pair, other: &Pair) -> bool {
    (one.first_hop, one.endpoint) == (other.first_hop, other.endpoint)
}

/// How a repair differs from the one before.
fn repaired(now: &Answer, old: &Answer) -> &'static str {
    match (now, old) {
        (Answer::Untouched, Answer::Pair(_)) => thing::UNTOUCHED_PAIR,
        (Answer::Untouched, Answer::Refused { .. }) => thing::UNTOUCHED_14,
        (Answer::Untouched, _) => thing::SAME_UNTOUCHED,
        (Answer::Pair(_), Answer::Refused { .. }) => thing::REPAIRED,
        (Answer::Pair(now), Answer::Pair(old))
            if same_routers(now, old) && now.class != old.class =>
        {
            assert_eq!(now.class + NOT_PROTECTING, old.class);
            thing::WITHOUT_E
        }
        (Answer::Pair(now), Answer::Pair(old)) if now.class != old.class => thing::OTHER_CLASS,
        (Answer::Pair(now), Answer::Pair(old)) if now != old => thing::OTHER_PAIR,
        (Answer::Pair(_), _) => thing::SAME_PAIR,
        (Answer::Refused { .. }, _) => thing::SAME_14,
        _ => thing::SAME_UNREACHABLE,
    }
}

/// How a route differs from the one before.
fn played(now: &Outcome, old: &Outcome, same_pair: bool) -> &'static str {
    match (&now.answer, &old.answer) {
        (Answer::Untouched, Answer::Count(_)) => thing::ROUTE_UNTOUCHED,
        (Answer::Untouched, Answer::Refused { .. }) => thing::ROUTE_UNTOUCHED_14,
        (Answer::Count(_), Answer::Refused { .. }) => thing::ROUTE_PLAYED,
        (Answer::Count(_), Answer::Count(_)) if now == old => thing::ROUTE_SAME,
        (Answer::Count(now), Answer::Count(old)) if same_pair => {
            assert!(now < old, "a walk is the beginning of one of before");
            thing::ROUTE_SHORTER
        }
        (Answer::Count(_), Answer::Count(_)) => thing::ROUTE_OTHER,
        _ => thing::SAME_UNPLAYED,
    }
}
