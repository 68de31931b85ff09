//! What a run met of ranks. Each answer by another arrangement is held against
//! that by ascending ranks, so that a run shows what the ranks change, and that
//! they do not change who gets a repair.

use crate::compare::Asked;
use crate::coverage::Coverage;
use oracle::answer::{Answer, Opened, Outcome, Question};
use oracle::ranks::{ASCENDING, Decision, arrangement_of, deciding, decisions};

/// Things that a run meets where the ranks do not ascend.
pub mod thing {
    pub const LINK_OTHER: &str = "ranks: link repair: another pair than by ascending ranks";
    pub const PREFIX_OTHER: &str = "ranks: prefix repair: another pair than by ascending ranks";
    pub const ROUTE_OTHER: &str = "ranks: route: another than by ascending ranks";
    pub const LINK_SAME: &str = "ranks: link repair: the same pair as by ascending ranks";
    pub const PREFIX_SAME: &str = "ranks: prefix repair: the same pair as by ascending ranks";
    pub const ROUTE_SAME: &str = "ranks: route: the same as by ascending ranks";
    pub const LINK_14: &str = "ranks: link repair: 14 as by ascending ranks";
    pub const PREFIX_14: &str = "ranks: prefix repair: 14 as by ascending ranks";
    pub const ROUTE_14: &str = "ranks: route: 14 as by ascending ranks";
    pub const UNTOUCHED: &str = "ranks: untouched as by ascending ranks";
    pub const UNREACHABLE: &str = "ranks: unreachable as by ascending ranks";
    pub const LINK_15: &str = "ranks: link repair: 15";
    pub const PREFIX_15: &str = "ranks: prefix repair: 15";
    pub const ROUTE_15: &str = "ranks: route: 15";
    pub const FILE_FIRST: &str = "ranks: wrong ones, and the file is refused";
    pub const BEFORE_15: [&str; 3] = [
        "ranks: wrong ones, and the work area or the table is too short: 10",
        "ranks: wrong ones, and the table is not the file's: 18",
        "ranks: wrong ones, and the route buffer is too short: 11",
    ];
    pub const AFTER_15: [&str; 4] = [
        "ranks: 15 where 12 would come next",
        "ranks: 15 where 13 would come next",
        "ranks: 15 where 14 would come next",
        "ranks: 15 where there would be an answer",
    ];
}

/// Those of an arrangement that does not ascend: what it changes, and what it
/// leaves as it is.
pub const ANSWERED: [&str; 11] = [
    thing::LINK_OTHER,
    thing::PREFIX_OTHER,
    thing::ROUTE_OTHER,
    thing::LINK_SAME,
    thing::PREFIX_SAME,
    thing::ROUTE_SAME,
    thing::LINK_14,
    thing::PREFIX_14,
    thing::ROUTE_14,
    thing::UNTOUCHED,
    thing::UNREACHABLE,
];

/// All of them, and of links and of prefixes each class before each other one, and each
/// class as the first of two by each rank but the last.
pub fn things() -> Vec<String> {
    let mut things = vec![thing::LINK_15, thing::PREFIX_15, thing::ROUTE_15, thing::FILE_FIRST];
    things.extend(ANSWERED);
    things.extend(thing::BEFORE_15.iter().chain(&thing::AFTER_15));
    let decided = every_decision().flat_map(|(call, decided)| parts_of(call, decided));
    things.into_iter().map(str::to_string).chain(decided).collect()
}

/// Every decision between two classes of neighbouring ranks: each two classes in both
/// orders, by each rank but the last. A link's classes are 4 to 7.
pub fn all_decisions() -> Vec<String> {
    every_decision().map(|(call, decided)| decision(call, decided)).collect()
}

fn every_decision() -> impl Iterator<Item = (&'static str, Decision)> {
    let of_links = decisions(4..8).into_iter().map(|decided| ("link repair", decided));
    let of_prefixes = decisions(0..8).into_iter().map(|decided| ("prefix repair", decided));
    of_links.chain(of_prefixes)
}

fn decision(call: &str, Decision { first, next, rank }: Decision) -> String {
    format!("ranks: {call}: class {first} at rank {rank} before class {next}")
}

fn parts_of(call: &str, Decision { first, next, rank }: Decision) -> [String; 2] {
    [
        format!("ranks: {call}: class {first} before class {next}"),
        format!("ranks: {call}: class {first} first by rank {rank}"),
    ]
}

impl Coverage {
    /// Counts one call that takes ranks, as the oracle answers it.
    pub fn ranks(&mut self, opened: &Opened, asked: &Asked, outcome: &Outcome) {
        if asked.question.ranks().is_none() {
            return;
        }
        let ascending = asked.question.clone().with_ranks(&ASCENDING);
        let Some(ranks) = arrangement_of(&asked.question) else {
            let passed = || opened.ask(&ascending, &asked.buffers()).answer;
            self.met(wrong(&outcome.answer, passed), 1);
            if let Answer::Refused { number: 15, .. } = outcome.answer {
                let of_call = [thing::LINK_15, thing::PREFIX_15, thing::ROUTE_15];
                self.met(by_call(&asked.question, of_call), 1);
            }
            return;
        };
        if let Answer::Pair(pair) = &outcome.answer
            && let Some(decided) = deciding(opened, &asked.question, &asked.buffers(), pair)
        {
            self.decided(&asked.question, decided);
        }
        let turned_away = matches!(outcome.answer, Answer::Refused { number, .. } if number != 14);
        if ranks != ASCENDING && !turned_away {
            let ascending = opened.ask(&ascending, &asked.buffers());
            self.met(changed(&asked.question, outcome, &ascending), 1);
        }
    }

    fn decided(&mut self, question: &Question, decided: Decision) {
        let call = by_call(question, ["link repair", "prefix repair", "route"]);
        self.met(&decision(call, decided), 1);
        parts_of(call, decided).iter().for_each(|part| self.met(part, 1));
    }
}

/// The one of three things that belongs to a question's call.
pub(crate) fn by_call(
    question: &Question,
    [link, prefix, route]: [&'static str; 3],
) -> &'static str {
    match question {
        Question::LinkRepair { .. } => link,
        Question::PrefixRepair { .. } => prefix,
        _ => route,
    }
}

/// Which row refuses a question with wrong ranks, and for 15 what the question
/// gets with sound ones.
fn wrong(answer: &Answer, with_sound_ranks: impl Fn() -> Answer) -> &'static str {
    let number = |answer: &Answer| match answer {
        Answer::Refused { number, .. } => *number,
        _ => 0,
    };
    let [work_area, table, route_buffer] = thing::BEFORE_15;
    let [link, prefix, no_pair, answered] = thing::AFTER_15;
    match (number(answer), number(&with_sound_ranks())) {
        (1..=9, _) => thing::FILE_FIRST,
        (10, _) => work_area,
        (18, _) => table,
        (11, _) => route_buffer,
        (_, 12) => link,
        (_, 13) => prefix,
        (_, 14) => no_pair,
        _ => answered,
    }
}

/// How an answer differs from that by ascending ranks. Another pair and another
/// route are all that the ranks may change.
fn changed(question: &Question, now: &Outcome, ascending: &Outcome) -> &'static str {
    assert_eq!(now.left.work, ascending.left.work, "{question:?}");
    let same = now == ascending;
    match (&now.answer, &ascending.answer) {
        (Answer::Pair(_), Answer::Pair(_)) | (Answer::Count(_), Answer::Count(_)) => {
            let other = [thing::LINK_OTHER, thing::PREFIX_OTHER, thing::ROUTE_OTHER];
            let alike = [thing::LINK_SAME, thing::PREFIX_SAME, thing::ROUTE_SAME];
            by_call(question, if same { alike } else { other })
        }
        (answer, before) => {
            assert_eq!(answer, before, "{question:?}");
            match answer {
                Answer::Untouched => thing::UNTOUCHED,
                Answer::Unreachable => thing::UNREACHABLE,
                _ => by_call(question, [thing::LINK_14, thing::PREFIX_14, thing::ROUTE_14]),
            }
        }
    }
}
