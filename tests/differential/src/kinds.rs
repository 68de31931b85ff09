//! Tables to ask second calls with, by what they are made as: the file's distances,
//! numbers that are not the file's, and too few of them.

use oracle::distance::UNREACHABLE;
use oracle::generate;
use oracle::network::{Link, Network};
use oracle::random::Random;
use oracle::table::{self, made_from, one_cell_off};

/// What a table is made as.
#[derive(Clone, Copy, Debug, PartialEq, Eq)]
pub enum Kind {
    Distances,
    GarbageAfter,
    MuchLonger,
    SameDistances,
    OneMore,
    OneLess,
    ByDestination,
    CostChanged,
    LinkMissing,
    OtherNetwork,
    OneRouterMore,
    Zeros,
    Unreachable,
    OnlyDiagonal,
    OneMoreToRouter0,
    LargeCell,
    AtRandom,
    OneShort,
    Empty,
    ShortAndOther,
}

impl Kind {
    /// The kinds that hold the file's distances.
    pub const RIGHT: [Kind; 4] =
        [Kind::Distances, Kind::GarbageAfter, Kind::MuchLonger, Kind::SameDistances];

    /// The causes of a table that is not the file's. On some networks such a table has the
    /// right numbers all the same, as by destination where costs are equal both ways.
    pub const OTHER: [Kind; 13] = [
        Kind::OneMore,
        Kind::OneLess,
        Kind::ByDestination,
        Kind::CostChanged,
        Kind::LinkMissing,
        Kind::OtherNetwork,
        Kind::OneRouterMore,
        Kind::Zeros,
        Kind::Unreachable,
        Kind::OnlyDiagonal,
        Kind::OneMoreToRouter0,
        Kind::LargeCell,
        Kind::AtRandom,
    ];

    /// The kinds that have fewer than N x N cells.
    pub const SHORT: [Kind; 3] = [Kind::OneShort, Kind::Empty, Kind::ShortAndOther];

    /// The kind in plain words.
    pub fn words(self) -> &'static str {
        match self {
            Kind::Distances => "the distances and no cell more",
            Kind::GarbageAfter => "garbage after the distances",
            Kind::MuchLonger => "thousands of cells after the distances",
            Kind::SameDistances => "of another file with the same distances",
            Kind::OneMore => "one cell one more",
            Kind::OneLess => "one cell one less",
            Kind::ByDestination => "row = destination",
            Kind::CostChanged => "of the network with one cost changed",
            Kind::LinkMissing => "of the network without one of its links",
            Kind::OtherNetwork => "of another network",
            Kind::OneRouterMore => "of the network with one router more",
            Kind::Zeros => "zeros",
            Kind::Unreachable => "unreachable everywhere",
            Kind::OnlyDiagonal => "unreachable but on the diagonal",
            Kind::OneMoreToRouter0 => "one more to router 0 from everywhere",
            Kind::LargeCell => "a number at the top of 32 bits",
            Kind::AtRandom => "some cells at random",
            Kind::OneShort => "one cell short",
            Kind::Empty => "empty",
            Kind::ShortAndOther => "too short, and not the file's",
        }
    }
}

/// The cells of a table, and what it is made as.
pub type Made = (Kind, Vec<u32>);

/// The tables of a network that hold its distances.
pub fn right(network: &Network, random: &mut Random) -> Vec<Made> {
    let right = table::right(network);
    let garbage = |cells: usize, random: &mut Random| -> Vec<u32> {
        (0..cells).map(|_| random.any() as u32).collect()
    };
    let (few, many) = (random.between(1, 5), random.between(4096, 6000));
    let after = [&right[..], &garbage(few, random)].concat();
    let longer = [&right[..], &garbage(many, random)].concat();
    let mut made = vec![
        (Kind::Distances, right.clone()),
        (Kind::GarbageAfter, after),
        (Kind::MuchLonger, longer),
    ];
    if let Some(with_link) = with_dear_link(network, &right) {
        made.push((Kind::SameDistances, table::right(&with_link)));
    }
    made
}

/// The network with one more link that is too dear to be used, if two routers without a
/// link are near enough both ways: the least dear path between them is another.
fn with_dear_link(network: &Network, right: &[u32]) -> Option<Network> {
    let routers = network.routers;
    let near =
        |a: u8, b: u8| right[usize::from(a) * usize::from(routers) + usize::from(b)] < 65_535;
    let joined = |a: u8, b: u8| {
        network.links.iter().any(|link| (link.a, link.b) == (a, b) || (link.a, link.b) == (b, a))
    };
    let mut pairs = (0..routers).flat_map(|b| (0..b).map(move |a| (a, b)));
    let (a, b) = pairs.find(|(a, b)| near(*a, *b) && near(*b, *a) && !joined(*a, *b))?;
    Some(network.clone().link(a, b, 65_535, 65_535))
}

/// A table of each kind that is not the file's, as far as the network has it.
pub fn other(network: &Network, random: &mut Random) -> Vec<Made> {
    let right = table::right(network);
    let mut made = of_other_networks(network, random);
    for table in made_from(network.routers, &right) {
        let kind = match table.name.as_str() {
            "row = destination" => Kind::ByDestination,
            "zeros" => Kind::Zeros,
            "unreachable" => Kind::Unreachable,
            "unreachable but for the diagonal" => Kind::OnlyDiagonal,
            "one more to router 0" => Kind::OneMoreToRouter0,
            "cell 1 unreachable" | "cell 1 just below" => Kind::LargeCell,
            _ => continue,
        };
        made.push((kind, table.cells));
    }
    made.push((Kind::AtRandom, table::changed(network, random)));
    made
}

/// The distances of networks that are not the file's, most of them nearly.
fn of_other_networks(network: &Network, random: &mut Random) -> Vec<Made> {
    let routers = usize::from(network.routers);
    let links = random.below(4 * routers).min(128);
    let strange = generate::sized(routers, links, 0, random);
    let mut more = network.clone();
    more.routers += 1;
    let mut networks = vec![(Kind::OtherNetwork, strange), (Kind::OneRouterMore, more)];
    if !network.links.is_empty() {
        let link = random.below(network.links.len());
        let mut missing = network.clone();
        missing.links.remove(link);
        networks.push((Kind::LinkMissing, missing));
        networks.extend((0..3).map(|_| (Kind::CostChanged, with_changed_cost(network, random))));
    }
    networks.into_iter().map(|(kind, other)| (kind, table::right(&other))).collect()
}

/// The network with one of its costs raised or lowered.
fn with_changed_cost(network: &Network, random: &mut Random) -> Network {
    let mut other = network.clone();
    let number = random.below(network.links.len());
    let Link { forth, back, .. } = &mut other.links[number];
    let cost = if random.one_in(2) { forth } else { back };
    let near = [cost.saturating_add(1), cost.saturating_sub(1).max(1)];
    *cost = random.pick(&[near[0], near[1], 1, u16::MAX]);
    other
}

/// The distances with one cell one more or one less: each cell of a small network, and
/// some of a larger one.
pub fn one_off(network: &Network, random: &mut Random) -> Vec<Made> {
    const EVERY_CELL: u8 = 9;
    const SOME: usize = 24;
    if network.routers <= EVERY_CELL {
        let named = one_cell_off(network).into_iter();
        return named.map(|table| (if_up(table.name.ends_with("up")), table.cells)).collect();
    }
    let right = table::right(network);
    let off = |random: &mut Random| {
        let (place, up) = (random.below(right.len()), random.one_in(2));
        let mut cells = right.clone();
        let cell = cells[place];
        // The unreachable distance has no number above it, and 0 none below.
        let up = cell == 0 || up && cell != UNREACHABLE;
        cells[place] = if up { cell + 1 } else { cell - 1 };
        (if_up(up), cells)
    };
    (0..SOME).map(|_| off(random)).collect()
}

fn if_up(up: bool) -> Kind {
    if up { Kind::OneMore } else { Kind::OneLess }
}

/// Tables of fewer than N x N cells.
pub fn short(network: &Network) -> Vec<Made> {
    let right = table::right(network);
    let but_one = right.len() - 1;
    let mut made = vec![(Kind::OneShort, right[..but_one].to_vec()), (Kind::Empty, Vec::new())];
    // Of one router there are no cells that could be others.
    if but_one > 0 {
        made.push((Kind::ShortAndOther, vec![7; but_one]));
    }
    made
}
