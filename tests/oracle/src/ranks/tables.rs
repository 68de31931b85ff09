//! Tables of ranks: arrangements, all and random ones, and tables that are none.

use super::{ASCENDING, Arrangement, CLASSES, DESCENDING, is_arrangement};
use crate::random::Random;

/// Wrong tables, each for one way to take a table that is no arrangement: none, the
/// four of before there was node protection, one rank too few, one too many, a rank
/// over 7, a rank twice, the four twice, four ranks twice with the right sum, and
/// ranks of which some lower bits are sound.
pub const WRONG: [&[u8]; 12] = [
    &[],
    &[0, 1, 2, 3],
    &[0, 1, 2, 3, 4, 5, 6],
    &[0, 1, 2, 3, 4, 5, 6, 7, 0],
    &[0, 1, 2, 3, 4, 5, 6, 8],
    &[0, 1, 2, 3, 4, 5, 6, 6],
    &[0, 1, 2, 3, 0, 1, 2, 3],
    &[7, 0, 7, 0, 7, 0, 7, 0],
    &[8, 1, 2, 3, 4, 5, 6, 7],
    &[32, 1, 2, 3, 4, 5, 6, 7],
    &[64, 1, 2, 3, 4, 5, 6, 7],
    &[0, 1, 2, 3, 4, 5, 6, 255],
];

/// All 40,320 arrangements of the numbers 0 to 7, ascending.
pub fn arrangements() -> Vec<Arrangement> {
    let orders = orders_of(CLASSES as u8).into_iter();
    orders.map(|order| order.try_into().expect("eight ranks")).collect()
}

/// All orders of the numbers below a bound, ascending.
fn orders_of(bound: u8) -> Vec<Vec<u8>> {
    let longer = |begun: &Vec<u8>| {
        let left = (0..bound).filter(|rank| !begun.contains(rank));
        left.map(|rank| [&begun[..], &[rank]].concat()).collect::<Vec<_>>()
    };
    (0..bound).fold(vec![Vec::new()], |begun, _| begun.iter().flat_map(longer).collect())
}

/// An arrangement, each as likely as any other.
pub fn random_table(random: &mut Random) -> Arrangement {
    let mut table = ASCENDING;
    random.shuffle(&mut table);
    table
}

/// So many random arrangements, the same for the same seed.
pub fn random_tables(count: usize, seed: u64) -> Vec<Arrangement> {
    let mut random = Random::new(seed);
    (0..count).map(|_| random_table(&mut random)).collect()
}

/// Very many wrong tables: those of `WRONG`; of other lengths; arrangements in which
/// one rank is replaced by another, by one that is too large, or by one with the same
/// lower bits; and random ones.
pub fn wrong_tables() -> Vec<Vec<u8>> {
    let mut tables: Vec<Vec<u8>> = WRONG.map(<[u8]>::to_vec).to_vec();
    tables.extend(of_other_lengths());
    let sound = [vec![ASCENDING, DESCENDING], random_tables(18, 1)].concat();
    tables.extend(sound.iter().flat_map(one_replaced));
    tables.extend(random_bytes());
    tables.retain(|table| !is_arrangement(table));
    tables
}

/// Tables that would be arrangements were there another number of classes: all of
/// four, and some of each other length up to seventeen.
fn of_other_lengths() -> Vec<Vec<u8>> {
    let mut random = Random::new(2);
    let mut tables = orders_of(4);
    for length in (0..=17).filter(|length| *length != CLASSES as u8) {
        let mut table: Vec<u8> = (0..length).collect();
        for _ in 0..8 {
            tables.push(table.clone());
            random.shuffle(&mut table);
        }
    }
    tables
}

/// An arrangement with each of its ranks in turn replaced.
fn one_replaced(table: &Arrangement) -> Vec<Vec<u8>> {
    let with = |place: usize, rank: u8| {
        let mut table = table.to_vec();
        table[place] = rank;
        table
    };
    let at = |place: usize| {
        let own = table[place];
        let too_large = [8, 9, 15, 255].into_iter();
        let lower_bits = [8, 16, 32, 64, 128].into_iter().map(move |more| own + more);
        let ranks = (0..8).filter(move |rank| *rank != own).chain(too_large).chain(lower_bits);
        ranks.map(move |rank| with(place, rank))
    };
    (0..CLASSES).flat_map(at).collect()
}

/// Random tables of eight ranks: any bytes, and ranks from 0 to 7 some of which stand
/// twice.
fn random_bytes() -> Vec<Vec<u8>> {
    let mut random = Random::new(3);
    let any = (0..100).map(|_| random.bytes(CLASSES)).collect::<Vec<_>>();
    let small = |_| random.bytes(CLASSES).iter().map(|byte| byte % 8).collect();
    any.into_iter().chain((0..500).map(small).collect::<Vec<_>>()).collect()
}
