//! Compares the files that the two sides write, before anything is timed.

use crate::answer::{Network, ACCEPTED};
use crate::side::Side;

/// Bytes after those of a file: they have to stay.
const GUARD: usize = 3;

/// Lengths of a buffer for a file of so many bytes: too short, and enough.
fn lengths(size: usize) -> [usize; 5] {
    [0, size - 512, size - 1, size, size + GUARD]
}

/// A network by value, with what was done to it.
type Spoiled = (String, Network);

/// Has both sides write the network of an accepted file, in buffers of several
/// lengths, and networks that are outside the limits, of which nothing may be
/// written. The answer is how many questions there were, or which one is
/// answered differently.
pub fn compare_written<A: Side, B: Side>(file: &[u8]) -> Result<usize, String> {
    let network = A::load(file);
    if network.kind != ACCEPTED {
        return Err("the file is refused".into());
    }
    let others = unused_marked(&network);
    for length in lengths(file.len()) {
        let wanted = if length < file.len() { &[] } else { file };
        for (cells, network) in [("zero", &network), ("marked", &others)] {
            let name = || format!("file for {length} bytes, unused cells {cells}");
            ask(
                name,
                length,
                wanted,
                |lent| A::write(network, lent),
                |lent| B::write(network, lent),
            )?;
        }
    }
    let spoiled = [counts(&network), links(&network), prefixes(&network)].concat();
    for (name, network) in &spoiled {
        let (a, b) =
            (|lent: &mut [u8]| A::write(network, lent), |lent: &mut [u8]| B::write(network, lent));
        ask(|| format!("file with {name}"), file.len() + GUARD, &[], a, b)?;
    }
    Ok(2 * lengths(file.len()).len() + spoiled.len())
}

/// Has both sides write drills of all sizes and of others, which are no drills.
/// What they write has to be accepted.
pub fn compare_drills<A: Side, B: Side>() -> Result<usize, String> {
    let mut asked = 0;
    for routers in (0..=66).chain([128, 256 + 3, 65_536 + 3, usize::MAX]) {
        for seed in [0, 1, 2, 99, 0x0001_0000, 0x8000_0000, u32::MAX] {
            let mut drill = vec![0; 1024];
            let size = A::drill(seed, routers, &mut drill);
            if (3..=64).contains(&routers) && A::load(&drill[..size]).kind != ACCEPTED {
                return Err(format!("drill {seed} of {routers} routers is refused"));
            }
            for length in lengths(1024) {
                let wanted = if length < 1024 { &[] } else { &drill[..size] };
                let name = || format!("drill {seed} of {routers} routers for {length} bytes");
                let (a, b) = (A::drill, B::drill);
                ask(
                    name,
                    length,
                    wanted,
                    |lent| a(seed, routers, lent),
                    |lent| b(seed, routers, lent),
                )?;
                asked += 1;
            }
        }
    }
    Ok(asked)
}

/// Asks both sides one question, with buffers that show what is written: they
/// have to begin with the wanted bytes, and to be as they were after them.
fn ask(
    name: impl FnOnce() -> String,
    length: usize,
    wanted: &[u8],
    a: impl FnOnce(&mut [u8]) -> usize,
    b: impl FnOnce(&mut [u8]) -> usize,
) -> Result<(), String> {
    let lent: Vec<u8> = (0..length).map(|place| 0x80 | place as u8).collect();
    let (mut one, mut other) = (lent.clone(), lent.clone());
    let (answer, second) = (a(&mut one), b(&mut other));
    if answer != second {
        return Err(format!("{}: {answer} and {second} bytes", name()));
    }
    if let Some(place) = (0..length).find(|place| one[*place] != other[*place]) {
        return Err(format!("{}: byte {place}", name()));
    }
    if answer != wanted.len() || one[..answer] != *wanted || one[answer..] != lent[answer..] {
        return Err(format!("{}: neither side writes what it should", name()));
    }
    Ok(())
}

/// The same network with other numbers where the call does not look.
fn unused_marked(network: &Network) -> Network {
    let mut marked = Network { kind: 9, number: 9, value: 9, ..network.clone() };
    for link in network.links..128 {
        (marked.from[link], marked.to[link]) = (200, 200);
        (marked.out[link], marked.back[link]) = (0, 9);
    }
    for prefix in 0..128 {
        let used =
            if prefix < network.prefixes { usize::from(network.attached[prefix]) } else { 0 };
        marked.at[8 * prefix + used..8 * prefix + 8].fill(200);
        marked.own[8 * prefix + used..8 * prefix + 8].fill(9);
    }
    marked.attached[network.prefixes..].fill(9);
    marked
}

/// Counts that are too large, and no router.
fn counts(network: &Network) -> Vec<Spoiled> {
    let mut spoiled = Vec::new();
    for over in [1, 2, 256, 65_536, 1 << 32, usize::MAX - 128] {
        let with = |name: &str, network| (format!("{over} {name} too many"), network);
        spoiled.push(with("routers", Network { routers: 64 + over, ..network.clone() }));
        spoiled.push(with("links", Network { links: 128 + over, ..network.clone() }));
        spoiled.push(with("prefixes", Network { prefixes: 128 + over, ..network.clone() }));
    }
    spoiled.push(("no router".into(), Network { routers: 0, ..network.clone() }));
    spoiled
}

/// Each link spoiled in each way that rows 6 and 7 name.
fn links(network: &Network) -> Vec<Spoiled> {
    let mut spoiled = Vec::new();
    let mut add = |name: &str, link: usize, spoil: &dyn Fn(&mut Network)| {
        let mut other = network.clone();
        spoil(&mut other);
        spoiled.push((format!("{name} of link {link}"), other));
    };
    for link in 0..network.links {
        add("router a", link, &|other| other.from[link] = other.routers as u8);
        add("router b", link, &|other| other.to[link] = 255);
        add("the same router twice", link, &|other| other.to[link] = other.from[link]);
        add("cost a to b", link, &|other| other.out[link] = 0);
        add("cost b to a", link, &|other| other.back[link] = 0);
        let earlier = link / 2;
        let (a, b) = (network.from[earlier], network.to[earlier]);
        if earlier < link {
            add("pair", link, &|other| (other.from[link], other.to[link]) = (a, b));
            add("turned pair", link, &|other| (other.from[link], other.to[link]) = (b, a));
        }
    }
    spoiled
}

/// Each prefix with a wrong count, and each of its slots and pairs of slots
/// spoiled by rows 8 and 9.
fn prefixes(network: &Network) -> Vec<Spoiled> {
    let mut spoiled = Vec::new();
    let mut add = |name: String, spoil: &dyn Fn(&mut Network)| {
        let mut other = network.clone();
        spoil(&mut other);
        spoiled.push((name, other));
    };
    for prefix in 0..network.prefixes {
        for count in [0, 9, 16, 255] {
            add(format!("{count} attachments of prefix {prefix}"), &|other| {
                other.attached[prefix] = count;
            });
        }
        for slot in 0..usize::from(network.attached[prefix]) {
            let cell = 8 * prefix + slot;
            for router in [network.routers as u8, 128, 255] {
                add(format!("router {router} in slot {slot} of prefix {prefix}"), &|other| {
                    other.at[cell] = router;
                });
            }
            for earlier in 8 * prefix..cell {
                add(format!("slot {slot} of prefix {prefix} as cell {earlier}"), &|other| {
                    other.at[cell] = other.at[earlier];
                });
            }
        }
    }
    spoiled
}
