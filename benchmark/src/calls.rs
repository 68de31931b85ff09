//! The calls as they are timed: both sides in turn, with the same inputs. What a
//! call gets and what it gives is hidden from the compiler.

use crate::answer::Network;
use crate::baseline::Baseline;
use crate::plan;
use crate::planner::Planner;
use crate::side::Side;
use crate::timing::{measure, Times};
use planner::ASCENDING_RANKS;
use std::hint::black_box;

/// Samples of each side for a short call, and for a whole plan.
const ROUNDS: usize = 301;
const PLAN_ROUNDS: usize = 31;

/// Bytes of the largest file.
const LARGEST: usize = 13 * 512;

pub fn load(file: &[u8]) -> Times {
    fn call<S: Side>(file: &[u8]) {
        black_box(&S::load(black_box(file)));
    }
    measure(ROUNDS, || call::<Planner>(file), || call::<Baseline>(file))
}

pub fn distances(file: &[u8]) -> Times {
    fn call<S: Side>(file: &[u8], work: &mut [u32]) {
        black_box(S::distances(black_box(file), black_box(work)));
    }
    let (mut one, mut other) = (vec![0; 64 * 64], vec![0; 64 * 64]);
    measure(ROUNDS, || call::<Planner>(file, &mut one), || call::<Baseline>(file, &mut other))
}

pub fn link_repair(file: &[u8], link: usize, end: usize) -> Times {
    fn call<S: Side>(file: &[u8], work: &mut [u32], link: usize, end: usize) {
        let (link, end) = black_box((link, end));
        let ranks = black_box(&ASCENDING_RANKS);
        black_box(S::link_repair(black_box(file), black_box(work), ranks, link, end));
    }
    let (mut one, mut other) = (vec![0; 64 * 64], vec![0; 64 * 64]);
    measure(
        ROUNDS,
        || call::<Planner>(file, &mut one, link, end),
        || call::<Baseline>(file, &mut other, link, end),
    )
}

pub fn prefix_repair(file: &[u8], question: (usize, usize, usize)) -> Times {
    fn call<S: Side>(file: &[u8], work: &mut [u32], question: (usize, usize, usize)) {
        let (link, end, prefix) = black_box(question);
        let ranks = black_box(&ASCENDING_RANKS);
        black_box(S::prefix_repair(black_box(file), black_box(work), ranks, link, end, prefix));
    }
    let (mut one, mut other) = (vec![0; 64 * 64], vec![0; 64 * 64]);
    measure(
        ROUNDS,
        || call::<Planner>(file, &mut one, question),
        || call::<Baseline>(file, &mut other, question),
    )
}

pub fn route(file: &[u8], question: (usize, usize, usize)) -> Times {
    fn call<S: Side>(
        file: &[u8],
        (work, route): &mut (Vec<u32>, [u8; 128]),
        question: (usize, usize, usize),
    ) {
        let (ranks, question, choices) = black_box((&ASCENDING_RANKS, question, &[][..]));
        let (file, work, route) = black_box((file, work, route));
        black_box(S::route(file, work, ranks, question, choices, route));
    }
    let mut one = (vec![0; 64 * 64], [0; 128]);
    let mut other = one.clone();
    measure(
        ROUNDS,
        || call::<Planner>(file, &mut one, question),
        || call::<Baseline>(file, &mut other, question),
    )
}

/// The distances of a file, for the calls that are lent them. Both sides read the
/// same cells.
fn table_of(file: &[u8]) -> Vec<u32> {
    let mut table = vec![0; 64 * 64];
    Baseline::distances(file, &mut table);
    table
}

pub fn link_repair_with(file: &[u8], link: usize, end: usize) -> Times {
    fn call<S: Side>(file: &[u8], table: &[u32], link: usize, end: usize) {
        let (link, end) = black_box((link, end));
        let ranks = black_box(&ASCENDING_RANKS);
        black_box(S::link_repair_with(black_box(file), black_box(table), ranks, link, end));
    }
    let table = table_of(file);
    measure(
        ROUNDS,
        || call::<Planner>(file, &table, link, end),
        || call::<Baseline>(file, &table, link, end),
    )
}

pub fn prefix_repair_with(file: &[u8], question: (usize, usize, usize)) -> Times {
    fn call<S: Side>(file: &[u8], table: &[u32], question: (usize, usize, usize)) {
        let (link, end, prefix) = black_box(question);
        let (file, table, ranks) = black_box((file, table, &ASCENDING_RANKS));
        black_box(S::prefix_repair_with(file, table, ranks, link, end, prefix));
    }
    let table = table_of(file);
    measure(
        ROUNDS,
        || call::<Planner>(file, &table, question),
        || call::<Baseline>(file, &table, question),
    )
}

pub fn route_with(file: &[u8], question: (usize, usize, usize)) -> Times {
    fn call<S: Side>(
        file: &[u8],
        table: &[u32],
        route: &mut [u8; 128],
        question: (usize, usize, usize),
    ) {
        let (ranks, question, choices) = black_box((&ASCENDING_RANKS, question, &[][..]));
        let (file, table, route) = black_box((file, table, route));
        black_box(S::route_with(file, table, ranks, question, choices, route));
    }
    let table = table_of(file);
    let (mut one, mut other) = ([0; 128], [0; 128]);
    measure(
        ROUNDS,
        || call::<Planner>(file, &table, &mut one, question),
        || call::<Baseline>(file, &table, &mut other, question),
    )
}

pub fn plan(file: &[u8]) -> Times {
    fn call<S: Side>(file: &[u8], (work, text): &mut (Vec<u32>, Vec<u8>)) {
        text.clear();
        plan::write::<S>(black_box(file), black_box(work), text);
        black_box(text);
    }
    let mut one = (vec![0; 64 * 64], Vec::with_capacity(1 << 14));
    let mut other = (vec![0; 64 * 64], Vec::with_capacity(1 << 14));
    measure(PLAN_ROUNDS, || call::<Planner>(file, &mut one), || call::<Baseline>(file, &mut other))
}

pub fn write(network: &Network) -> Times {
    fn call<S: Side>(network: &Network, buffer: &mut [u8]) {
        black_box(S::write(black_box(network), black_box(buffer)));
    }
    let (mut one, mut other) = (vec![0; LARGEST], vec![0; LARGEST]);
    measure(ROUNDS, || call::<Planner>(network, &mut one), || call::<Baseline>(network, &mut other))
}

pub fn drill(seed: u32, routers: usize) -> Times {
    fn call<S: Side>(seed: u32, routers: usize, buffer: &mut [u8]) {
        let (seed, routers) = black_box((seed, routers));
        black_box(S::drill(seed, routers, black_box(buffer)));
    }
    let (mut one, mut other) = (vec![0; LARGEST], vec![0; LARGEST]);
    measure(
        ROUNDS,
        || call::<Planner>(seed, routers, &mut one),
        || call::<Baseline>(seed, routers, &mut other),
    )
}
