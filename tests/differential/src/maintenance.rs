//! What a run met of links under maintenance. A direction of cost 65,535 is no
//! first hop of a repair; walks go over it. Each answer is held against that of
//! an oracle which leaves nothing out, so that a run shows what it changes.

use crate::compare::Asked;
use crate::coverage::{Coverage, ends};
use oracle::answer::{Answer, Opened, Outcome, Question};
use oracle::network::{Hop, LinkEnd, MAINTENANCE};
use oracle::repair::Pair;
use oracle::space::Space;
use oracle::walk::Walks;
use oracle::workings::Workings;

/// Things that a run meets where links are under maintenance.
pub mod thing {
    pub const LEFT_OUT: &str = "maintenance: a first hop is left out";
    pub const ALL_LEFT_OUT: &str = "maintenance: every first hop is left out";
    pub const SMALLER: &str = "maintenance: extended P is smaller than before";
    pub const LINK_14: &str = "maintenance: link repair: 14 where there was a pair";
    pub const PREFIX_14: &str = "maintenance: prefix repair: 14 where there was a pair";
    pub const ROUTE_14: &str = "maintenance: route: 14 where one was played";
    pub const LINK_OTHER: &str = "maintenance: link repair: another pair than before";
    pub const PREFIX_OTHER: &str = "maintenance: prefix repair: another pair than before";
    pub const ROUTE_OTHER: &str = "maintenance: route: another than before";
    pub const SAME: &str = "maintenance: the same pair though a first hop is left out";
    pub const FIRST_LEG: &str = "maintenance: a tunnel that may cross a cost of 65,535";
    pub const SECOND_LEG: &str = "maintenance: a second leg that may cross a cost of 65,535";
    pub const PLAYED: &str = "maintenance: a played hop at a cost of 65,535";
    pub const DROPS: &str = "maintenance: the link that drops costs 65,535 from S";
    pub const DROPS_PAIR: &str = "maintenance: a pair for a link that costs 65,535 from S";
    pub const ONLY_TO_S: &str = "maintenance: a first hop that costs 65,535 to S alone";
    pub const JUST_BELOW: &str = "maintenance: a first hop at a cost of 65,534";

    /// All of them.
    pub const ALL: [&str; 17] = [
        LEFT_OUT,
        ALL_LEFT_OUT,
        SMALLER,
        LINK_14,
        PREFIX_14,
        ROUTE_14,
        LINK_OTHER,
        PREFIX_OTHER,
        ROUTE_OTHER,
        SAME,
        FIRST_LEG,
        SECOND_LEG,
        PLAYED,
        DROPS,
        DROPS_PAIR,
        ONLY_TO_S,
        JUST_BELOW,
    ];
}

impl Coverage {
    /// Counts one call about a link and an end, as the oracle answers it.
    /// `before` is the file as an oracle opens it that leaves no first hop out.
    pub fn maintenance(
        &mut self,
        opened: &Opened,
        before: &Opened,
        asked: &Asked,
        outcome: &Outcome,
    ) {
        if matches!(outcome.answer, Answer::Refused { number, .. } if number != 14) {
            return;
        }
        let Some(ends) = ends(opened, &asked.question) else {
            return;
        };
        let workings = opened.workings();
        let neighbours: Vec<&Hop> = neighbours(workings, &ends).collect();
        let left_out = neighbours.iter().filter(|hop| hop.cost == MAINTENANCE).count();
        self.met(thing::DROPS, u64::from(costs_most(workings, &ends)));
        self.met(thing::LEFT_OUT, u64::from(left_out > 0));
        self.met(thing::ALL_LEFT_OUT, u64::from(left_out > 0 && left_out == neighbours.len()));
        if let Answer::Pair(pair) = &outcome.answer {
            self.pair(workings, &asked.question, &ends, pair);
        }
        let before = before.ask(&asked.question, &asked.buffers());
        assert_rest_same(&asked.question, left_out, outcome, &before);
        if left_out > 0
            && let Some(thing) = changed(&asked.question, outcome, &before)
        {
            self.met(thing, 1);
        }
    }

    /// What the walks of a pair and its first hop met.
    fn pair(&mut self, workings: &Workings, question: &Question, ends: &LinkEnd, pair: &Pair) {
        let target = match question {
            Question::PrefixRepair { prefix, .. } => workings.to_prefix(*prefix),
            _ => workings.to_router(ends.e),
        };
        let (n, y) = (pair.first_hop, pair.endpoint);
        let first_leg = may_cross(workings, workings.to_router(y), n);
        let cost = |from, to| cost(workings, from, to);
        let only_to_s = cost(n, ends.s) == Some(MAINTENANCE);
        self.met(thing::FIRST_LEG, u64::from(first_leg));
        self.met(thing::SECOND_LEG, u64::from(may_cross(workings, target, y)));
        self.met(thing::DROPS_PAIR, u64::from(costs_most(workings, ends)));
        self.met(thing::ONLY_TO_S, u64::from(only_to_s));
        self.met(thing::JUST_BELOW, u64::from(cost(ends.s, n) == Some(MAINTENANCE - 1)));
    }
}

/// The hops from S to its neighbours other than E.
fn neighbours<'a>(workings: &'a Workings, ends: &LinkEnd) -> impl Iterator<Item = &'a Hop> {
    workings.hops.leaving(ends.s).iter().filter(|hop| hop.to != ends.e)
}

fn cost(workings: &Workings, from: usize, to: usize) -> Option<u32> {
    workings.hops.leaving(from).iter().find(|hop| hop.to == to).map(|hop| hop.cost)
}

/// Whether the link that drops is under maintenance from S.
fn costs_most(workings: &Workings, ends: &LinkEnd) -> bool {
    cost(workings, ends.s, ends.e) == Some(MAINTENANCE)
}

/// Whether some walk from x goes over a link under maintenance.
fn may_cross(workings: &Workings, walks: &Walks, x: usize) -> bool {
    let mut hops = workings.routers().flat_map(|router| workings.hops.leaving(router));
    hops.any(|hop| hop.cost == MAINTENANCE && walks.takes(x, hop.number))
}

/// Where no first hop is left out nothing changes, P and Q never do, and extended
/// P loses members only.
fn assert_rest_same(question: &Question, left_out: usize, now: &Outcome, before: &Outcome) {
    let extended = matches!(question, Question::Space { space: Space::ExtendedP, .. });
    let space = matches!(question, Question::Space { .. });
    if left_out == 0 || (space && !extended) {
        assert_eq!(now, before, "{question:?}");
    }
    if let (Answer::Set(now), Answer::Set(before)) = (&now.answer, &before.answer) {
        assert_eq!(now & before, *now, "{question:?}");
    }
}

/// How an answer differs from the one before, where it may do so.
fn changed(question: &Question, now: &Outcome, before: &Outcome) -> Option<&'static str> {
    let link = matches!(question, Question::LinkRepair { .. });
    let fourteen = |of_link, of_prefix| if link { of_link } else { of_prefix };
    match (&now.answer, &before.answer) {
        (Answer::Set(now), Answer::Set(before)) => (now != before).then_some(thing::SMALLER),
        (Answer::Refused { .. }, Answer::Pair(_)) => {
            Some(fourteen(thing::LINK_14, thing::PREFIX_14))
        }
        (Answer::Refused { .. }, Answer::Count(_)) => Some(thing::ROUTE_14),
        (Answer::Pair(now), Answer::Pair(before)) if now == before => Some(thing::SAME),
        (Answer::Pair(_), Answer::Pair(_)) => {
            Some(fourteen(thing::LINK_OTHER, thing::PREFIX_OTHER))
        }
        (Answer::Count(_), Answer::Count(_)) => (now != before).then_some(thing::ROUTE_OTHER),
        _ => None,
    }
}
