//! What a run met of node protection. Each answer is held against that of an oracle that
//! adds 4 to no class, so that a run shows what node protection changes, and that it
//! changes nothing else: by ascending ranks a prefix may get another pair, one that does
//! without E; a link gets the same pair.

use crate::compare::Asked;
use crate::coverage::Coverage;
use oracle::answer::{Answer, Opened, Outcome, Question};
use oracle::class::NOT_PROTECTING;
use oracle::network::LinkEnd;
use oracle::ranks::{ASCENDING, Arrangement, arrangement_of};
use oracle::repair::{Pair, asked_about};
use oracle::walk::{Move, Walks};
use oracle::workings::Workings;

/// Things that a run meets of node protection.
pub mod thing {
    pub const LINK: &str = "node: link repair: the pair of before, with 4 added";
    pub const LINK_RANKED: &str = "node: link repair: the pair that the ranks of 4 to 7 name";
    pub const SAME: &str = "node: prefix repair: the pair of before, which does without E";
    pub const FOUR: &str = "node: prefix repair: the pair of before, with 4 added";
    pub const HIGHER: &str = "node: prefix repair: another pair, of a higher class, without E";
    pub const OTHER: &str = "node: prefix repair: another pair of the same class, without E";
    pub const SAME_14: &str = "node: 14 as before";
    pub const SAME_OTHER: &str = "node: untouched or unreachable as before";
    pub const ROUTE_SAME: &str = "node: route: the same as before";
    pub const ROUTE_OTHER: &str = "node: route: another than before";
    pub const FIRST_LEG: &str = "node: only the first leg may visit E";
    pub const SECOND_LEG: &str = "node: only the second leg may visit E";
    pub const BOTH_LEGS: &str = "node: both legs may visit E";
    pub const DELIVERED: &str = "node: the second leg may be delivered at E";
    pub const PASSED: &str = "node: the second leg may pass E";
    pub const SOME_TUNNEL: &str = "node: the first leg may visit E or miss it";
    pub const SOME_SECOND: &str = "node: the second leg may visit E or miss it";
    pub const LATE: &str = "node: the second leg comes to E with its third hop or later";
    pub const BEFORE_E: &str = "node: the second leg ends before E, on a way that leads over E";
    pub const PAST_ATTACHED: &str = "node: a tunnel passes an attached router, and then E";

    /// All of them.
    pub const ALL: [&str; 20] = [
        LINK,
        LINK_RANKED,
        SAME,
        FOUR,
        HIGHER,
        OTHER,
        SAME_14,
        SAME_OTHER,
        ROUTE_SAME,
        ROUTE_OTHER,
        FIRST_LEG,
        SECOND_LEG,
        BOTH_LEGS,
        DELIVERED,
        PASSED,
        SOME_TUNNEL,
        SOME_SECOND,
        LATE,
        BEFORE_E,
        PAST_ATTACHED,
    ];
}

impl Coverage {
    /// Counts one repair or route, as the oracle answers it. `before` is the file as an
    /// oracle opens it that adds 4 to no class.
    pub fn node(&mut self, opened: &Opened, before: &Opened, asked: &Asked, outcome: &Outcome) {
        let question = &asked.question;
        let turned_away = matches!(outcome.answer, Answer::Refused { number, .. } if number != 14);
        let Some(ranks) = arrangement_of(question).filter(|_| !turned_away) else {
            return;
        };
        if let Question::LinkRepair { .. } = question {
            let as_before = question.clone().with_ranks(&halves_turned(&ranks));
            let old = before.ask(&as_before, &asked.buffers());
            self.met(link(outcome, &old, ranks == ASCENDING), 1);
            return;
        }
        if ranks == ASCENDING {
            let old = before.ask(question, &asked.buffers());
            self.met(changed(question, outcome, &old), 1);
        }
        if let (Answer::Pair(pair), Some((ends, target))) =
            (&outcome.answer, asked_about(opened.workings(), question))
        {
            let legs = Legs { workings: opened.workings(), target, pair };
            legs.met(&ends).into_iter().for_each(|thing| self.met(thing, 1));
        }
    }
}

/// The ranks of the classes 4 to 7 for the classes 0 to 3, and the reverse.
fn halves_turned(ranks: &Arrangement) -> Arrangement {
    std::array::from_fn(|class| ranks[class ^ NOT_PROTECTING as usize])
}

/// The pair with 4 added to its class.
fn with_four(pair: &Pair) -> Pair {
    Pair { class: pair.class + NOT_PROTECTING, ..*pair }
}

/// How a link repair differs from the one before: by 4.
fn link(now: &Outcome, old: &Outcome, ascending: bool) -> &'static str {
    assert_eq!(now.left, old.left);
    match (&now.answer, &old.answer) {
        (Answer::Pair(now), Answer::Pair(old)) => {
            assert_eq!(*now, with_four(old));
            if ascending { thing::LINK } else { thing::LINK_RANKED }
        }
        (now, old) => {
            assert_eq!(now, old);
            thing::SAME_14
        }
    }
}

/// How a prefix repair or a route differs from the one before, by ascending ranks.
fn changed(question: &Question, now: &Outcome, old: &Outcome) -> &'static str {
    assert_eq!(now.left.work, old.left.work, "{question:?}");
    match (&now.answer, &old.answer) {
        (Answer::Pair(now), Answer::Pair(old)) if now == old => thing::SAME,
        (Answer::Pair(now), Answer::Pair(old)) if *now == with_four(old) => thing::FOUR,
        (Answer::Pair(now), Answer::Pair(old)) => {
            assert!(now.class < NOT_PROTECTING && now.class >= old.class, "{question:?}");
            if now.class > old.class { thing::HIGHER } else { thing::OTHER }
        }
        (Answer::Count(_), Answer::Count(_)) if now == old => thing::ROUTE_SAME,
        (Answer::Count(_), Answer::Count(_)) => thing::ROUTE_OTHER,
        (now, old) => {
            assert_eq!(now, old, "{question:?}");
            let fourteen = matches!(now, Answer::Refused { .. });
            if fourteen { thing::SAME_14 } else { thing::SAME_OTHER }
        }
    }
}

/// A pair that is told for a prefix, and the walks towards it.
struct Legs<'a> {
    workings: &'a Workings,
    target: &'a Walks,
    pair: &'a Pair,
}

impl Legs<'_> {
    /// Where the walks of the pair visit E.
    fn met(&self, ends: &LinkEnd) -> Vec<&'static str> {
        let (e, n, y) = (ends.e, self.pair.first_hop, self.pair.endpoint);
        let tunnel = self.workings.to_router(y);
        let (first, second) = (tunnel.visits(n, e), self.target.visits(y, e));
        let attached = |x: &usize| self.target.delivers(*x);
        let passes = |x: &usize| tunnel.visits(n, *x) && tunnel.visits(*x, e);
        let past = first && self.workings.routers().filter(attached).any(|x| passes(&x));
        let delivered = self.target.delivers(e);
        let things = [
            (thing::FIRST_LEG, first && !second),
            (thing::SECOND_LEG, second && !first),
            (thing::BOTH_LEGS, first && second),
            (thing::DELIVERED, second && delivered),
            (thing::PASSED, second && !delivered),
            (thing::SOME_TUNNEL, first && misses(tunnel, n, e)),
            (thing::SOME_SECOND, second && misses(self.target, y, e)),
            (thing::LATE, second && !within(self.target, y, e, 2)),
            (thing::BEFORE_E, !second && self.leads_over(y, e)),
            (thing::PAST_ATTACHED, past),
        ];
        things.into_iter().filter(|(_, met)| *met).map(|(thing, _)| thing).collect()
    }

    /// Whether the distance from y to the prefix is one over E.
    fn leads_over(&self, y: usize, e: usize) -> bool {
        let to_e = u64::from(self.workings.distances.between(y, e));
        to_e + u64::from(self.target.remaining(e)) == u64::from(self.target.remaining(y))
    }
}

/// Whether some walk from a start misses a router. Each router is looked at once.
fn misses(walks: &Walks, start: usize, router: usize) -> bool {
    let mut seen = vec![start];
    let mut looked = 0;
    while let Some(here) = seen.get(looked).copied() {
        looked += 1;
        if here == router {
            continue;
        }
        let nexts = nexts(walks, here);
        if nexts.is_empty() {
            return true;
        }
        seen.extend(nexts.into_iter().filter(|next| !seen.contains(next)).collect::<Vec<_>>());
    }
    false
}

/// Whether some walk from x comes to a router within so many hops.
fn within(walks: &Walks, x: usize, router: usize, hops: usize) -> bool {
    let next = || nexts(walks, x).into_iter().any(|z| within(walks, z, router, hops - 1));
    x == router || (hops > 0 && next())
}

/// The routers that a walk at x may step to.
fn nexts(walks: &Walks, x: usize) -> Vec<usize> {
    let to = |next: &Move| match next {
        Move::Step(hop) => Some(hop.to),
        Move::Deliver => None,
    };
    walks.moves(x).iter().filter_map(to).collect()
}
