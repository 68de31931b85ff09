//! Runs of LSAs with buffers, made from a seed: enough of them that every cause and every
//! feature occurs, and that every mistake changes an answer or a buffer somewhere.

use super::cause::Cause;
use super::damage;
use super::extra::{self, Extra};
use super::import::named;
use super::layout::HEADER;
use super::limits;
use super::lsa::{Lsa, RouterLink};
use super::make;
use crate::answer::Outcome;
use crate::fault::Context;
use crate::file::{BLOCK, LARGEST, write};
use crate::random::Random;

/// A run, and the length of the buffer that is lent for its file.
#[derive(Clone, Debug, PartialEq, Eq)]
pub struct Case {
    pub name: String,
    pub run: Vec<u8>,
    pub bytes: usize,
}

impl Case {
    /// A case with its name.
    pub fn new(name: &str, run: Vec<u8>, bytes: usize) -> Case {
        Case { name: name.to_string(), run, bytes }
    }

    /// The buffer that is lent: every byte shows its place.
    pub fn lent(&self) -> Vec<u8> {
        (0..self.bytes).map(|place| 0x80 | (place % 127) as u8).collect()
    }

    /// What the call answers and leaves.
    pub fn outcome(&self, ctx: &Context) -> Outcome {
        super::import(ctx, &self.run, &self.lent())
    }
}

/// All cases of a seed.
pub fn cases(seed: u64) -> Vec<Case> {
    let random = &mut Random::new(seed);
    let mut cases = empty_and_bytes(random);
    cases.extend((0..60).flat_map(|_| every_buffer("mixed", &make::mixed(9, random), random)));
    cases.extend((0..3).flat_map(|_| extras(random)));
    cases.extend(zero_bytes(random));
    cases.extend((0..5).flat_map(|_| single_causes(random)));
    cases.push(several_to_absent_router(random));
    cases.extend((0..60).map(|_| several_causes(random)));
    cases.extend(limits::cases(random));
    cases.extend(causes_beyond_limits(random));
    cases.extend(cuts(random));
    cases
}

/// Runs that are no LSAs at all: nothing, zeros, any bytes.
fn empty_and_bytes(random: &mut Random) -> Vec<Case> {
    let mut cases: Vec<Case> =
        [0, BLOCK - 1, BLOCK, LARGEST].map(|bytes| Case::new("empty", Vec::new(), bytes)).into();
    for length in [1, HEADER - 1, HEADER, 24, 36, 100] {
        cases.push(Case::new("zeros", vec![0; length], LARGEST));
        cases.push(Case::new("any bytes", random.bytes(length), LARGEST));
    }
    cases
}

/// A run with a buffer that is just enough, one byte short or longer, and without one.
pub fn every_buffer(name: &str, lsas: &[Lsa], random: &mut Random) -> Vec<Case> {
    let run = make::run(lsas);
    let file = named(&Context::sound(), &run, 0).map(|named| write(&named.network()).len());
    let length = file.unwrap_or(LARGEST);
    let any = length + random.below(600);
    let lengths = [length, length - 1, length + 1, any, 0];
    lengths.map(|bytes| Case::new(name, run.clone(), bytes)).into()
}

/// Each thing that no LSA is bad for, added to a run of its own.
fn extras(random: &mut Random) -> Vec<Case> {
    let mut cases = Vec::new();
    for each in Extra::ALL {
        let mut lsas = make::network(5, 6, 4, random);
        (0..3).for_each(|_| extra::add(*each, &mut lsas, random));
        cases.push(Case::new(each.words(), make::run(&lsas), LARGEST));
        make::dress(&mut lsas, random);
        cases.push(Case::new("other fields", make::run(&lsas), LARGEST));
    }
    cases
}

/// Checksums with one byte 0.
fn zero_bytes(random: &mut Random) -> Vec<Case> {
    let mut cases = Vec::new();
    for second in [false, true, false, true] {
        let mut pieces: Vec<Vec<u8>> =
            make::network(3, 2, 2, random).iter().map(Lsa::bytes).collect();
        let lone = Lsa::of(random.any() as u32, Vec::new());
        pieces.insert(1, make::with_zero_byte(&lone, second));
        cases.push(Case::new("a checksum with a byte 0", pieces.concat(), LARGEST));
    }
    cases
}

/// Each cause of number 16 in a random LSA, with a buffer that is enough and with one
/// that is not.
fn single_causes(random: &mut Random) -> Vec<Case> {
    let mut cases = Vec::new();
    for cause in Cause::of_number(16) {
        let routers = random.between(2, 6);
        let (links, prefixes) = (random.below(routers + 1), random.below(4));
        let lsas = make::network(routers, links, prefixes, random);
        let place = random.between(usize::from(cause == Cause::RouterNamedBefore), routers - 1);
        let run = damage::run(&lsas, cause, place, random);
        cases.push(Case::new(cause.words(), run.clone(), LARGEST));
        cases.push(Case::new(cause.words(), run, random.below(BLOCK)));
    }
    cases
}

/// Several links to one router, which has no LSA.
fn several_to_absent_router(random: &mut Random) -> Case {
    let mut lsas = make::network(4, 4, 2, random);
    let link = RouterLink::point_to_point(extra::absent(&lsas), 1, 5);
    lsas[2].links.extend([link.clone(), RouterLink { metric: 6, ..link }]);
    Case::new("several links to a router without an LSA", make::run(&lsas), LARGEST)
}

/// Two bad LSAs in one run.
fn several_causes(random: &mut Random) -> Case {
    let mut causes = Cause::of_number(16);
    random.shuffle(&mut causes);
    let lsas = make::network(3, 3, 2, random);
    let others = make::network(3, 2, 2, random);
    let first = damage::run(&lsas, causes[0], random.between(1, 2), random);
    let second = damage::run(&others, causes[1], random.between(1, 2), random);
    Case::new("two bad LSAs", [first, second].concat(), LARGEST)
}

/// A bad LSA in a run that is outside a limit as well: 16 is looked for first.
fn causes_beyond_limits(random: &mut Random) -> Vec<Case> {
    let mut cases = Vec::new();
    for (routers, links, prefixes) in [(66, 60, 3), (64, 131, 3), (20, 20, 140), (300, 9, 1)] {
        for place in [0, routers / 2, routers - 1] {
            let lsas = make::network(routers, links, prefixes, random);
            let causes = [Cause::OtherType, Cause::FletcherSums, Cause::ToItself];
            let run = damage::run(&lsas, random.pick(&causes), place, random);
            cases.push(Case::new("a bad LSA in a run outside a limit", run, LARGEST));
        }
    }
    cases
}

/// A run cut at every byte, and with bytes after its end.
fn cuts(random: &mut Random) -> Vec<Case> {
    let run = make::run(&make::network(3, 3, 2, random));
    let cut = |length: usize| Case::new("cut", run[..length].to_vec(), LARGEST);
    let mut cases: Vec<Case> = (0..run.len()).map(cut).collect();
    for count in [1, 2, 10, HEADER - 1, HEADER, 24, 40] {
        for bytes in [vec![0; count], vec![255; count], random.bytes(count)] {
            cases.push(Case::new("bytes after the end", [run.clone(), bytes].concat(), LARGEST));
        }
    }
    cases
}
