//! Ranks: with each repair question a member lends a table that maps each of
//! the eight classes to its rank. The rank is the first key of the order of
//! pairs; the answer still tells the class. Row 15 turns a table away that does
//! not hold the numbers 0 to 7 once each.

mod decision;
mod tables;

pub use decision::{Decision, deciding, deciding_tables, decisions, exchanged};
pub use tables::{WRONG, arrangements, random_table, random_tables, wrong_tables};

use crate::answer::Question;
use crate::fault::{Context, Fault, Limit};
use crate::row::{Cause, Refusal, first_cause};

/// How many classes there are, and so how many ranks.
pub const CLASSES: usize = 8;

/// A table that row 15 lets pass.
pub type Arrangement = [u8; CLASSES];

/// Each class has its own number as its rank. The plan uses this table.
pub const ASCENDING: Arrangement = [0, 1, 2, 3, 4, 5, 6, 7];

/// The highest class comes first.
pub const DESCENDING: Arrangement = [7, 6, 5, 4, 3, 2, 1, 0];

/// The arrangement of a question, if its ranks are one.
pub fn arrangement_of(question: &Question) -> Option<Arrangement> {
    let table = Arrangement::try_from(question.ranks()?).ok()?;
    is_arrangement(&table).then_some(table)
}

fn is_arrangement(table: &[u8]) -> bool {
    let mut sorted = table.to_vec();
    sorted.sort_unstable();
    sorted == ASCENDING
}

/// Row 15: the table is no arrangement.
pub fn row(ctx: &Context, table: &[u8]) -> Option<Refusal> {
    let classes = classes_of(ctx, table);
    // A planner that takes a longer table reads its first ranks.
    let judged = if ctx.has(Fault::RanksJudgedToFour) { CLASSES / 2 } else { classes };
    let ranks: Vec<u8> = table.iter().take(judged).map(|rank| as_judged(ctx, *rank)).collect();
    let over = |rank: &u8| usize::from(*rank) > ctx.most(Limit::Rank, classes - 1);
    let causes = [
        (Cause::RanksShort, table.len() < ctx.least(Limit::LeastRanks, classes)),
        (Cause::RanksLong, table.len() > ctx.most(Limit::MostRanks, classes)),
        (Cause::RankOver, ranks.iter().any(over)),
        (Cause::RankTwice, (1..ranks.len()).any(|place| ranks[..place].contains(&ranks[place]))),
    ];
    let cause = first_cause(ctx, &causes)?;
    let sum = ranks.iter().fold(0, |sum: u8, rank| sum.wrapping_add(*rank));
    if ctx.has(Fault::RanksJudgedBySum) && table.len() == CLASSES && sum == 28 {
        return None;
    }
    let value = if ctx.has(Fault::FifteenReturnsEight) { CLASSES } else { 0 };
    Some(Refusal::new(cause, value))
}

/// How many ranks row 15 asks for: eight, but for a planner that takes four as it
/// was before there was node protection.
fn classes_of(ctx: &Context, table: &[u8]) -> usize {
    let half = CLASSES / 2;
    let as_before = ctx.has(Fault::FourRanksTaken) && table.len() == half;
    if as_before || ctx.has(Fault::FourRanksOnly) { half } else { CLASSES }
}

/// A rank as row 15 looks at it: whole, unless it is looked up in a set of bits
/// that a large rank goes round.
fn as_judged(ctx: &Context, rank: u8) -> u8 {
    if ctx.has(Fault::RanksInSetOf8) {
        rank % 8
    } else if ctx.has(Fault::RanksInSetOf32) {
        rank % 32
    } else if ctx.has(Fault::RanksInSetOf64) {
        rank % 64
    } else {
        rank
    }
}

/// The rank of a class.
pub fn of_class(ctx: &Context, table: &[u8], class: u32) -> u32 {
    let last = u32::from(u8::MAX);
    // Only with a fault is a table too short to have the rank.
    let rank = |class: u32| table.get(class as usize).map_or(last, |rank| u32::from(*rank));
    if ctx.has(Fault::ClassBeforeRank) {
        class
    } else if ctx.has(Fault::ClassOfRank) {
        let place = table.iter().position(|rank| u32::from(*rank) == class);
        place.map_or(last, |place| place as u32)
    } else if ctx.has(Fault::HighestRankFirst) {
        last - rank(class)
    } else {
        rank(looked_up(ctx, class))
    }
}

/// The class whose rank is looked up: the pair's own, unless with a fault.
fn looked_up(ctx: &Context, class: u32) -> u32 {
    if ctx.has(Fault::RankOfNextClass) {
        (class + 1) % CLASSES as u32
    } else if ctx.has(Fault::RankOfTurnedClass) {
        class / 4 * 4 + class % 2 * 2 + class % 4 / 2
    } else if ctx.has(Fault::RankOfOtherHalf) {
        class ^ 4
    } else if ctx.has(Fault::RankOfClassModulo4) {
        class % 4
    } else {
        class
    }
}
