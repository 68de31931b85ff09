//! Random networks by family, repeatable from a seed. Every network is one
//! that the reader accepts.

use crate::file::{ATTACHMENTS, MOST_LINKS, MOST_PREFIXES, MOST_ROUTERS};
use crate::network::{Attachment, Link, Network, Prefix};
use crate::random::Random;

listed! {
    /// How a random network is made.
    pub enum Family {
        Sparse: "about as many links as routers, anywhere",
        Dense: "many links for each router",
        Ring: "a ring",
        RingWithChords: "a ring and some more links",
        Line: "routers in a row",
        Grid: "a square of rows and columns",
        Tree: "a tree",
        Star: "one router joined to all others",
        Disconnected: "two parts that no link joins",
        Ties: "many links, all of cost 1",
        Asymmetric: "costs that differ by direction",
        HighCost: "costs at or just below 65,535",
        Anything: "any number of links up to the most, any costs",
        Maintenance: "many costs of 65,535 and 65,534, in one direction and in both",
        AttachedAnywhere: "prefixes at up to eight routers, most of them dear",
        AttachedNeighbours: "prefixes at the neighbours of a router, most of them dear",
        AttachedEnds: "prefixes at the ends of a link, dear or not, and elsewhere",
    }
}

impl Family {
    /// The families in which prefixes have many dear attachments.
    pub const ATTACHED: [Family; 3] =
        [Family::AttachedAnywhere, Family::AttachedNeighbours, Family::AttachedEnds];

    /// The families whose links these have.
    const ATTACHED_SHAPES: [Family; 7] = [
        Family::Sparse,
        Family::RingWithChords,
        Family::Grid,
        Family::Tree,
        Family::Ring,
        Family::Ties,
        Family::Disconnected,
    ];

    fn attached(self) -> bool {
        Family::ATTACHED.contains(&self)
    }
}

/// From which numbers costs are drawn.
#[derive(Clone, Copy, Debug)]
enum Costs {
    /// The same cost both ways.
    Same(usize, usize),
    /// Each direction drawn by itself.
    Apart(usize, usize),
    /// The same, and then about every other link at 65,535 or 65,534 in one
    /// direction or in both.
    Maintenance(usize, usize),
}

/// A random network of a family with at most so many routers and with 0 to 4
/// prefixes, so few that every question about it can be asked.
pub fn network(family: Family, most_routers: usize, random: &mut Random) -> Network {
    let routers = random.between(1, most_routers.min(MOST_ROUTERS));
    let mut network = linked(family, routers, random);
    let prefixes = random.below(5);
    attach(&mut network, family, prefixes, random);
    network
}

/// A random network of a family with exactly so many routers and prefixes, for
/// tests that have to meet given sizes.
pub fn of_counts(family: Family, routers: usize, prefixes: usize, random: &mut Random) -> Network {
    let mut network = linked(family, routers, random);
    attach(&mut network, family, prefixes, random);
    network
}

/// The routers and links of a random network.
fn linked(family: Family, routers: usize, random: &mut Random) -> Network {
    let mut pairs = pairs(family, routers, random);
    pairs.truncate(MOST_LINKS);
    let costs = costs(family, random);
    let mut network = Network::of_routers(small(routers));
    network.links = pairs.iter().map(|pair| link(*pair, costs, random)).collect();
    if family == Family::Maintenance {
        for _ in 0..random.between(1, 2) {
            maintain(&mut network, random);
        }
    }
    random.shuffle(&mut network.links);
    network
}

/// Puts most links of one router under maintenance: from it, to it, or both.
fn maintain(network: &mut Network, random: &mut Random) {
    let router = random.below(usize::from(network.routers)) as u8;
    let (leaving, arriving) =
        random.pick(&[(true, false), (true, false), (false, true), (true, true)]);
    for link in network.links.iter_mut().filter(|link| router == link.a || router == link.b) {
        let (forth, back) =
            if router == link.a { (leaving, arriving) } else { (arriving, leaving) };
        let cost = random.pick(&[65_535, 65_535, 65_535, 65_534]);
        let most = !random.one_in(4);
        if forth && most {
            link.forth = cost;
        }
        if back && most {
            link.back = cost;
        }
    }
}

/// Adds the prefixes, then gives the routers other numbers.
fn attach(network: &mut Network, family: Family, prefixes: usize, random: &mut Random) {
    let routers = usize::from(network.routers);
    network.prefixes = (0..prefixes)
        .map(|_| match family.attached() {
            true => dear_prefix(family, network, random),
            false => prefix(family, routers, random),
        })
        .collect();
    renumber(network, random);
}

/// A random network with exactly so many routers, links and prefixes. There
/// have to be enough pairs of routers for the links.
pub fn sized(routers: usize, links: usize, prefixes: usize, random: &mut Random) -> Network {
    let pairs = some_pairs(routers, links, random);
    let costs = costs(Family::Anything, random);
    let mut network = Network::of_routers(small(routers));
    network.links = pairs.iter().map(|pair| link(*pair, costs, random)).collect();
    let family = random.pick(&[Family::Ties, Family::Anything, Family::HighCost]);
    network.prefixes = (0..prefixes).map(|_| prefix(family, routers, random)).collect();
    network
}

/// A random network of the largest size: 64 routers, 128 links, 128 prefixes.
pub fn largest(random: &mut Random) -> Network {
    sized(MOST_ROUTERS, MOST_LINKS, MOST_PREFIXES, random)
}

/// The pairs of routers that the links of a family join.
fn pairs(family: Family, routers: usize, random: &mut Random) -> Vec<(usize, usize)> {
    let line = |from: usize, to: usize| (from + 1..to).map(|r| (r - 1, r));
    match family {
        Family::Sparse | Family::Asymmetric | Family::HighCost => {
            some_pairs(routers, random.between(routers / 2, routers + 2), random)
        }
        Family::Dense | Family::Ties => {
            some_pairs(routers, random.between(2 * routers, 4 * routers), random)
        }
        Family::Ring => ring(routers),
        Family::RingWithChords => {
            let chords = some_pairs(routers, random.between(1, routers), random);
            without_repeats(ring(routers).into_iter().chain(chords))
        }
        Family::Line => line(0, routers).collect(),
        Family::Grid => {
            let columns = random.between(2, 8);
            let right = (1..routers).filter(|r| r % columns != 0).map(|r| (r - 1, r));
            let down = (columns..routers).map(|r| (r - columns, r));
            right.chain(down).collect()
        }
        Family::Tree => (1..routers).map(|r| (random.below(r), r)).collect(),
        Family::Star => (1..routers).map(|r| (0, r)).collect(),
        Family::Disconnected => {
            let middle = random.between(1, routers.max(2) - 1);
            let mut pairs = some_pairs(routers, 2 * routers, random);
            pairs.extend(line(0, middle));
            pairs.extend(line(middle, routers));
            pairs.retain(|(a, b)| (*a < middle) == (*b < middle));
            without_repeats(pairs.into_iter())
        }
        Family::Anything => some_pairs(routers, random.between(0, MOST_LINKS), random),
        Family::Maintenance => {
            let shapes = [Family::Sparse, Family::Dense, Family::RingWithChords, Family::Grid];
            pairs(random.pick(&shapes), routers, random)
        }
        Family::AttachedAnywhere | Family::AttachedNeighbours | Family::AttachedEnds => {
            pairs(random.pick(&Family::ATTACHED_SHAPES), routers, random)
        }
    }
}

fn ring(routers: usize) -> Vec<(usize, usize)> {
    without_repeats((0..routers).map(|r| (r, (r + 1) % routers)))
}

/// At most so many pairs of different routers, none twice.
fn some_pairs(routers: usize, count: usize, random: &mut Random) -> Vec<(usize, usize)> {
    let mut pairs: Vec<(usize, usize)> =
        (0..routers).flat_map(|b| (0..b).map(move |a| (a, b))).collect();
    random.shuffle(&mut pairs);
    pairs.truncate(count);
    pairs
}

/// The pairs without loops and without those that an earlier one repeats.
fn without_repeats(pairs: impl Iterator<Item = (usize, usize)>) -> Vec<(usize, usize)> {
    let mut kept: Vec<(usize, usize)> = Vec::new();
    for (a, b) in pairs {
        if a != b && !kept.contains(&(a, b)) && !kept.contains(&(b, a)) {
            kept.push((a, b));
        }
    }
    kept
}

fn costs(family: Family, random: &mut Random) -> Costs {
    match family {
        Family::Ties => Costs::Same(1, 1),
        Family::Asymmetric => random.pick(&[Costs::Apart(1, 4), Costs::Apart(1, 65_535)]),
        Family::HighCost => random.pick(&[
            Costs::Same(65_535, 65_535),
            Costs::Same(65_534, 65_534),
            Costs::Apart(65_533, 65_535),
        ]),
        Family::Maintenance => {
            random.pick(&[Costs::Maintenance(1, 3), Costs::Maintenance(65_533, 65_535)])
        }
        // Small costs, so that many sums are equal.
        family if family.attached() => {
            random.pick(&[Costs::Same(1, 1), Costs::Same(1, 3), Costs::Apart(1, 3)])
        }
        _ => random.pick(&[
            Costs::Same(1, 1),
            Costs::Same(1, 3),
            Costs::Same(1, 10),
            Costs::Apart(1, 3),
            Costs::Apart(1, 65_535),
        ]),
    }
}

/// A link over a pair, with either router as a.
fn link((mut a, mut b): (usize, usize), costs: Costs, random: &mut Random) -> Link {
    if random.one_in(2) {
        (a, b) = (b, a);
    }
    let (forth, back) = match costs {
        Costs::Same(least, most) => {
            let cost = random.between(least, most);
            (cost, cost)
        }
        Costs::Apart(least, most) => (random.between(least, most), random.between(least, most)),
        Costs::Maintenance(least, most) => {
            let (forth, back) = (random.between(least, most), random.between(least, most));
            let high = random.pick(&[65_535, 65_534]);
            match random.below(8) {
                0 => (high, back),
                1 => (forth, high),
                2 => (high, high),
                3 => (65_535, 65_534),
                _ => (forth, back),
            }
        }
    };
    Link { a: small(a), b: small(b), forth: small(forth), back: small(back) }
}

/// A prefix with 1 to 8 attachments, often one or two.
fn prefix(family: Family, routers: usize, random: &mut Random) -> Prefix {
    let most = routers.min(ATTACHMENTS);
    let count =
        if random.one_in(2) { random.between(1, most.min(2)) } else { random.between(1, most) };
    let highest = match family {
        Family::HighCost => random.pick(&[0, 65_535]),
        Family::Ties => random.pick(&[0, 1, 2]),
        _ => random.pick(&[0, 1, 3, 10, 65_535]),
    };
    let least = if family == Family::HighCost { highest } else { 0 };
    let mut order: Vec<usize> = (0..routers).collect();
    random.shuffle(&mut order);
    let attachments = order[..count].iter().map(|router| Attachment {
        router: small(*router),
        cost: small(random.between(least, highest)),
    });
    Prefix { attachments: attachments.collect() }
}

/// A prefix with many dear attachments: at the routers that the family speaks of
/// and at some others, one of them cheap.
fn dear_prefix(family: Family, network: &Network, random: &mut Random) -> Prefix {
    let routers = usize::from(network.routers);
    let mut order: Vec<usize> = (0..routers).collect();
    random.shuffle(&mut order);
    let mut first = match family {
        Family::AttachedNeighbours => neighbours(network, order[0]),
        Family::AttachedEnds if !network.links.is_empty() => {
            let link = random.pick(&network.links);
            let ends = [usize::from(link.a), usize::from(link.b)];
            random.pick(&[&ends[..], &ends[..1], &ends[1..]]).to_vec()
        }
        _ => Vec::new(),
    };
    random.shuffle(&mut first);
    let others = if random.one_in(3) { ATTACHMENTS } else { 2 };
    let others = random.below(others + 1).max(usize::from(first.is_empty()));
    order.retain(|router| !first.contains(router));
    let attached = first.iter().chain(order.iter().take(others)).take(ATTACHMENTS);
    let mut attachments: Vec<Attachment> = attached
        .map(|router| Attachment { router: small(*router), cost: dear_cost(random) })
        .collect();
    random.shuffle(&mut attachments);
    attachments[0].cost = small(random.below(3));
    random.shuffle(&mut attachments);
    Prefix { attachments }
}

/// The cost of an attachment: about that of some links, far dearer, or anything.
fn dear_cost(random: &mut Random) -> u16 {
    let few = random.between(0, 8);
    let any = random.between(0, 65_535);
    small(random.pick(&[few, few, 100, 65_534, 65_535, any]))
}

/// The routers that links join to one.
fn neighbours(network: &Network, router: usize) -> Vec<usize> {
    let other = |link: &Link| match (usize::from(link.a), usize::from(link.b)) {
        (a, b) if a == router => Some(b),
        (a, b) if b == router => Some(a),
        _ => None,
    };
    network.links.iter().filter_map(other).collect()
}

/// Gives the routers other numbers, so that numbers and places do not agree.
fn renumber(network: &mut Network, random: &mut Random) {
    let mut numbers: Vec<u8> = (0..network.routers).collect();
    random.shuffle(&mut numbers);
    let new = |router: u8| numbers[usize::from(router)];
    for link in &mut network.links {
        (link.a, link.b) = (new(link.a), new(link.b));
    }
    for attachment in network.prefixes.iter_mut().flat_map(|prefix| &mut prefix.attachments) {
        attachment.router = new(attachment.router);
    }
}

/// A number that is known to fit its field.
fn small<Field: TryFrom<usize>>(number: usize) -> Field {
    Field::try_from(number).unwrap_or_else(|_| panic!("{number} does not fit its field"))
}
