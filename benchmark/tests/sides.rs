//! The networks of the benchmark: they have the size that they should have,
//! and both sides answer alike about them.

use benchmark::answer::{ACCEPTED, PAIR};
use benchmark::baseline::Baseline;
use benchmark::compare::compare;
use benchmark::networks;
use benchmark::planner::Planner;
use benchmark::side::Side;
use benchmark::tables::compare_tables;
use benchmark::written::{compare_drills, compare_written};
use oracle::generate::{self, Family};
use oracle::network::Network;
use oracle::random::Random;
use planner::ASCENDING_RANKS;

#[test]
fn the_networks_have_their_sizes() {
    let sizes = [(13, 128), (13, 112), (13, 128)];
    for (network, (blocks, links)) in networks::all().iter().zip(sizes) {
        let loaded = Baseline::load(&network.file);
        assert_eq!(loaded.kind, ACCEPTED, "{}", network.name);
        assert_eq!(network.file.len(), 512 * blocks, "{}", network.name);
        assert_eq!((loaded.routers, loaded.links, loaded.prefixes), (64, links, 128));
    }
    let one = Baseline::load(&networks::one_block());
    assert_eq!((one.kind, one.routers, one.links, one.prefixes), (ACCEPTED, 1, 0, 0));
}

/// In the ring a pass in file order gets one more router right each time.
#[test]
fn the_ring_is_numbered_against_the_relaxation() {
    let file = networks::ring_with_chords();
    let network = Baseline::load(&file);
    let mut work = vec![0; 64 * 64];
    Baseline::distances(&file, &mut work);
    for start in 0..64 {
        let mut row = [u64::from(u32::MAX); 64];
        row[start] = 0;
        let mut passes = 0;
        while row.iter().zip(&work[64 * start..]).any(|(cell, least)| *cell != u64::from(*least)) {
            for k in 0..network.links {
                let (a, b) = (usize::from(network.from[k]), usize::from(network.to[k]));
                row[b] = row[b].min(row[a] + u64::from(network.out[k]));
                row[a] = row[a].min(row[b] + u64::from(network.back[k]));
            }
            passes += 1;
        }
        assert!(passes > 60, "from router {start}: {passes} passes");
    }
}

/// Most questions about each network have a pair, so that what is timed is a
/// search to its end.
#[test]
fn most_links_have_a_repair() {
    for network in networks::all() {
        let links = Baseline::load(&network.file).links;
        let mut work = vec![0; 64 * 64];
        let mut pair = |link, end| {
            let answer =
                Baseline::link_repair(&network.file, &mut work, &ASCENDING_RANKS, link, end);
            answer.kind == PAIR
        };
        let pairs = (0..links).map(|link| [0, 1].map(|end| usize::from(pair(link, end))));
        let pairs: usize = pairs.flatten().sum();
        assert!(pairs > links, "{}: {pairs} of {}", network.name, 2 * links);
    }
}

/// The command compares every prefix. Every 21st is enough here, and has all
/// numbers of attachments but one: these go round by eights.
#[test]
fn both_sides_agree() {
    for network in networks::all() {
        let asked = compare::<Planner, Baseline>(&network.file, 21);
        assert!(asked.is_ok(), "{}: {asked:?}", network.name);
    }
    assert!(compare::<Planner, Baseline>(&networks::one_block(), 1).is_ok());
}

/// A line of 64 routers with the largest cost: its ends have the largest distance that
/// there is.
fn longest() -> Network {
    let pairs = (1..64).map(|router| (router - 1, router));
    let line = pairs.fold(Network::of_routers(64), |line, (a, b)| line.link(a, b, 65_535, 65_535));
    line.prefix(&[(63, 9)])
}

/// Small distances beside a large cost, whose lower bits may be those of a small one.
fn dear(cost: u16) -> Network {
    let line = Network::of_routers(3).link(0, 1, 1, 1).link(1, 2, 1, 1);
    line.link(0, 2, cost, cost).prefix(&[(2, 9)])
}

/// Tables, on small networks of every family and with large costs, on some of 64 routers
/// with large distances and with none, and on those of the benchmark. Where there are
/// many cells, every 41st is changed.
#[test]
fn both_sides_judge_tables_alike() {
    let random = &mut Random::new(28);
    let costs = [1 << 14, 1 << 14 | 1, 1 << 15, 1 << 15 | 1, 3 << 14 | 1, 65_535];
    let mut asked: Vec<Network> = costs.map(dear).into();
    asked.extend(Family::ALL.iter().map(|family| generate::network(*family, 12, random)));
    asked.push(longest());
    for family in [Family::HighCost, Family::Disconnected, Family::Tree] {
        asked.push(generate::of_counts(family, 64, 3, random));
    }
    let mut files: Vec<Vec<u8>> = asked.iter().map(oracle::file::write).collect();
    files.push(networks::one_block());
    files.extend(networks::all().into_iter().map(|network| network.file));
    for (place, file) in files.iter().enumerate() {
        let every = if Baseline::load(file).routers < 64 { 1 } else { 41 };
        let asked = compare_tables::<Planner, Baseline>(file, every);
        assert!(asked.is_ok(), "file {place}: {asked:?}");
    }
}

/// All that the command compares.
#[test]
fn both_sides_write_the_same_files() {
    for network in networks::all() {
        let asked = compare_written::<Planner, Baseline>(&network.file);
        assert!(asked.is_ok(), "{}: {asked:?}", network.name);
    }
    assert!(compare_written::<Planner, Baseline>(&networks::one_block()).is_ok());
    let asked = compare_drills::<Planner, Baseline>();
    assert!(asked.is_ok(), "{asked:?}");
}
