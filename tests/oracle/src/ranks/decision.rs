//! Decisions: where the ranks, and not the other keys, make the answer.

use super::{Arrangement, CLASSES, arrangement_of};
use crate::answer::{Answer, Buffers, Opened, Question};
use crate::repair::Pair;
use std::collections::BTreeSet;
use std::ops::Range;

/// Of two classes with neighbouring ranks, the first comes first.
#[derive(Clone, Copy, Debug, PartialEq, Eq, PartialOrd, Ord)]
pub struct Decision {
    /// The class of the answer.
    pub first: u32,
    /// The class that has the next rank.
    pub next: u32,
    /// The rank of the first.
    pub rank: u8,
}

/// Every decision between two of these classes: each order, with each rank but the
/// last.
pub fn decisions(classes: Range<u32>) -> Vec<Decision> {
    let pairs = ordered_pairs(&classes.collect());
    let ranks = 0..CLASSES as u8 - 1;
    let of_pair = |(first, next)| ranks.clone().map(move |rank| Decision { first, next, rank });
    pairs.into_iter().flat_map(of_pair).collect()
}

/// The arrangement in which the classes of two neighbouring ranks, this one and
/// the next, change places.
pub fn exchanged(arrangement: &Arrangement, rank: u8) -> Arrangement {
    arrangement.map(|own| match own {
        own if own == rank => rank + 1,
        own if own == rank + 1 => rank,
        own => own,
    })
}

/// What the question's arrangement decides, if it decides the answer, the pair: with
/// the class of the pair and the class of the next rank exchanged there is another
/// answer. No other exchange of neighbouring ranks can change the answer, for classes
/// before that of the pair have no pair.
pub fn deciding(
    opened: &Opened,
    question: &Question,
    lent: &Buffers,
    pair: &Pair,
) -> Option<Decision> {
    let arrangement = arrangement_of(question)?;
    let rank = arrangement[pair.class as usize];
    let next = arrangement.iter().position(|other| *other == rank + 1)? as u32;
    let other = question.clone().with_ranks(&exchanged(&arrangement, rank));
    let another = opened.ask(&other, lent).answer != Answer::Pair(*pair);
    another.then_some(Decision { first: pair.class, next, rank })
}

/// Arrangements that decide a question in every way there is, where the pairs that
/// serve are of these classes: for each two of them, each order, and each rank that
/// can decide between them, one table. As many classes without a pair come before
/// the two as the rank says.
pub fn deciding_tables(served: &BTreeSet<u32>) -> Vec<Arrangement> {
    let without: Vec<u32> = (0..CLASSES as u32).filter(|class| !served.contains(class)).collect();
    let mut tables = Vec::new();
    for (first, next) in ordered_pairs(served) {
        let others = served.iter().copied().filter(|class| ![first, next].contains(class));
        let others: Vec<u32> = others.collect();
        for rank in 0..=without.len() {
            let order = [&without[..rank], &[first, next], &others, &without[rank..]].concat();
            tables.push(of_order(&order));
        }
    }
    tables
}

/// Each two different classes, in both orders.
fn ordered_pairs(classes: &BTreeSet<u32>) -> Vec<(u32, u32)> {
    let with_first =
        |first: &u32| classes.iter().map(move |next| (*first, *next)).collect::<Vec<_>>();
    classes.iter().flat_map(with_first).filter(|(first, next)| first != next).collect()
}

/// The arrangement by which the classes come in this order.
fn of_order(order: &[u32]) -> Arrangement {
    let mut table = [0; CLASSES];
    for (rank, class) in (0..).zip(order) {
        table[*class as usize] = rank;
    }
    table
}
