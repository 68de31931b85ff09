//! Random networks of every family, in several sizes, each repeatable from its
//! seed.

use oracle::generate::{self, Family};
use oracle::network::Network;
use oracle::random::Random;

/// A network with the name by which it can be made again.
pub struct Named {
    pub name: String,
    pub network: Network,
}

/// Bounds, both included, within which the counts of a network are drawn.
#[derive(Clone, Copy, Debug)]
pub struct Size {
    pub name: &'static str,
    pub routers: (usize, usize),
    pub prefixes: (usize, usize),
}

/// So small that very many can be asked about whole.
pub const SMALL: Size = Size { name: "small", routers: (1, 9), prefixes: (0, 4) };
/// Networks as they are used.
pub const MIDDLE: Size = Size { name: "middle", routers: (10, 32), prefixes: (0, 10) };
/// As many routers as possible, or nearly.
pub const WIDE: Size = Size { name: "wide", routers: (56, 64), prefixes: (1, 3) };

/// One network of each family for each seed.
pub fn of_families(size: Size, seeds: std::ops::Range<u64>) -> Vec<Named> {
    let of_seed = |seed| Family::ALL.iter().map(move |family| of_family(*family, size, seed));
    seeds.flat_map(of_seed).collect()
}

/// The network of a family, a size and a seed.
pub fn of_family(family: Family, size: Size, seed: u64) -> Named {
    // Neighbouring seeds of one family, and families of one seed, are apart.
    let random = &mut Random::new(seed << 8 | family as u64);
    let routers = random.between(size.routers.0, size.routers.1);
    let prefixes = random.between(size.prefixes.0, size.prefixes.1);
    let network = generate::of_counts(family, routers, prefixes, random);
    Named { name: format!("{} {family:?}, seed {seed}", size.name), network }
}

/// Networks with the least and the most of routers, links and prefixes, in
/// mixtures: routers, links, prefixes.
const EXTREMES: [(usize, usize, usize); 10] = [
    (1, 0, 0),
    (1, 0, 128),
    (2, 1, 128),
    (5, 0, 3),
    (5, 10, 128),
    (17, 128, 4),
    (64, 0, 2),
    (64, 63, 1),
    (64, 85, 15),
    (64, 128, 0),
];

/// One network of each extreme, from a seed.
pub fn of_extremes(seed: u64) -> Vec<Named> {
    EXTREMES.map(|counts| of_counts(counts, seed)).into()
}

/// A network of the largest size in every way.
pub fn largest(seed: u64) -> Named {
    of_counts((64, 128, 128), seed)
}

fn of_counts((routers, links, prefixes): (usize, usize, usize), seed: u64) -> Named {
    let random = &mut Random::new(seed);
    let network = generate::sized(routers, links, prefixes, random);
    let name = format!("{routers} routers, {links} links, {prefixes} prefixes, seed {seed}");
    Named { name, network }
}
