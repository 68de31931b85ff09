//! Runs of LSAs at random: a network of some size, with anything in the fields that say
//! nothing of it.

use super::extra::{self, Extra};
use super::fletcher;
use super::layout::*;
use super::lsa::{Lsa, RouterLink};
use crate::random::Random;
use std::collections::BTreeSet;

/// The run of some LSAs, each with the right checksum.
pub fn run(lsas: &[Lsa]) -> Vec<u8> {
    lsas.iter().flat_map(Lsa::bytes).collect()
}

/// The LSAs of a random network, in any order: so many routers, links that both sides
/// describe, and prefixes, each with one to eight attachments.
pub fn network(routers: usize, links: usize, prefixes: usize, random: &mut Random) -> Vec<Lsa> {
    let ids = different(routers, random);
    let mut lsas: Vec<Lsa> = ids.iter().map(|id| Lsa::of(*id, Vec::new())).collect();
    let mut pairs: Vec<(usize, usize)> =
        (0..routers).flat_map(|b| (0..b).map(move |a| (a, b))).collect();
    random.shuffle(&mut pairs);
    for (a, b) in pairs.into_iter().take(links) {
        for (from, to) in [(a, b), (b, a)] {
            let (data, metric) = (random.any() as u32, link_metric(random));
            lsas[from].links.push(RouterLink::point_to_point(ids[to], data, metric));
        }
    }
    for network in different(prefixes, random) {
        let mask = mask(random);
        let most = ATTACHED_MOST.min(routers);
        let count = if random.one_in(3) { random.between(1, most) } else { 1 };
        for router in some_of(routers, count, random) {
            let metric = stub_metric(random);
            lsas[router].links.push(RouterLink::stub(network, mask, metric));
        }
    }
    lsas.iter_mut().for_each(|lsa| random.shuffle(&mut lsa.links));
    random.shuffle(&mut lsas);
    lsas
}

const ATTACHED_MOST: usize = 8;

/// So many different numbers of 32 bits: near each other, or anywhere.
fn different(count: usize, random: &mut Random) -> Vec<u32> {
    let near = random.one_in(2);
    let (base, room) = (random.any() as u32, 300 + 2 * count as u32);
    let mut numbers = BTreeSet::new();
    while numbers.len() < count {
        let any = random.any() as u32;
        let far = random.pick(&[0, any, any, any, any, u32::MAX]);
        numbers.insert(if near { base.wrapping_add(any % room) } else { far });
    }
    let mut numbers: Vec<u32> = numbers.into_iter().collect();
    random.shuffle(&mut numbers);
    numbers
}

/// So many of the numbers below a bound.
fn some_of(bound: usize, count: usize, random: &mut Random) -> Vec<usize> {
    let mut numbers: Vec<usize> = (0..bound).collect();
    random.shuffle(&mut numbers);
    numbers.truncate(count);
    numbers
}

/// The metric of a point-to-point link, 1 to 65,535.
pub fn link_metric(random: &mut Random) -> u16 {
    let any = random.between(1, 65_535) as u16;
    random.pick(&[1, 10, 255, 256, 65_535, any, any])
}

/// The metric of a stub link.
pub fn stub_metric(random: &mut Random) -> u16 {
    let any = random.any() as u16;
    random.pick(&[0, 1, 256, 65_535, any, any])
}

/// The mask of a stub link.
pub fn mask(random: &mut Random) -> u32 {
    let length = random.between(0, 32) as u32;
    let mask = u32::MAX.checked_shl(32 - length).unwrap_or(0);
    // Nothing says that the ones of a mask come first.
    if random.one_in(6) { random.any() as u32 } else { mask }
}

/// Puts anything into the fields that turn nothing away and drop nothing.
pub fn dress(lsas: &mut [Lsa], random: &mut Random) {
    for lsa in lsas {
        let (age, sequence) = (random.any() as u16, random.any() as u32);
        lsa.age = random.pick(&[0, 1, MAX_AGE - 1, MAX_AGE, MAX_AGE + 1, 0x8001, u16::MAX, age]);
        lsa.sequence = random.pick(&[0x8000_0000, 0x8000_0001, 0x7fff_ffff, sequence]);
        lsa.options = random.byte();
        lsa.flags = random.pick(&[0, 1, 2, 3, 4, 0x10, 0xff]);
        lsa.zero = if random.one_in(3) { random.byte() } else { 0 };
        if random.one_in(3) {
            lsa.advertising_router = random.any() as u32;
        }
    }
}

/// The LSAs of a random network with things added and with anything in the other fields.
pub fn mixed(most_routers: usize, random: &mut Random) -> Vec<Lsa> {
    let routers = random.between(1, most_routers);
    let (links, prefixes) = (random.below(2 * routers), random.below(6));
    let mut lsas = network(routers, links, prefixes, random);
    if random.one_in(2) {
        dress(&mut lsas, random);
    }
    for _ in 0..random.below(5) {
        extra::add(random.pick(Extra::ALL), &mut lsas, random);
    }
    lsas
}

/// Changes one LSA so that a byte of its right checksum is 0: the first or the second. 0
/// and 255 are the same modulo 255.
pub fn with_zero_byte(lsa: &Lsa, second: bool) -> Vec<u8> {
    let mut bytes = lsa.bytes();
    let at = CHECKSUM + usize::from(second);
    for sequence in 0..=u16::MAX {
        bytes[SEQUENCE + 2..CHECKSUM].copy_from_slice(&sequence.to_be_bytes());
        fletcher::set_checksum(&mut bytes);
        if bytes[at] == 255 && word(&bytes, CHECKSUM) != u16::MAX {
            bytes[at] = 0;
            break;
        }
    }
    bytes
}
