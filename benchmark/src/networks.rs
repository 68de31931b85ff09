//! The networks that the benchmark asks about, as network files.

/// Routers a and b, the cost a to b, and the cost b to a.
type Link = (u8, u8, u16, u16);

/// The attachments of a prefix, each a router and its cost.
type Prefix = Vec<(u8, u16)>;

/// A network file with a name for the table.
pub struct Named {
    pub name: &'static str,
    pub file: Vec<u8>,
}

/// The three networks of the benchmark, the largest file first.
pub fn all() -> Vec<Named> {
    vec![
        Named { name: "ring with chords", file: ring_with_chords() },
        Named { name: "grid", file: grid() },
        Named { name: "random", file: random() },
    ]
}

/// A file of one block: one router, no link and no prefix.
pub fn one_block() -> Vec<u8> {
    file_of(1, &[], &[])
}

/// The ring with chords of 64 routers: 128 links.
pub fn ring_with_chords() -> Vec<u8> {
    ring_with_chords_of(64)
}

/// So many routers in a ring, at least 5, and a chord from each to the next but
/// one: twice as many links.
///
/// A step up costs 1, a chord up 3, a step down two less than there are routers,
/// 62 of 64, and so the least path goes up, step by step, for as many as 62
/// steps. Links are numbered from the top down. So a method that relaxes the
/// links in file order gets only one more router right in each pass, and every
/// chord first puts a distance that is too large where a step later puts the
/// right one. The step down is the least path between two neighbours, so that
/// most links have a repair. A chord down costs as much as it may without being
/// under maintenance, so that it is a first hop to be tried.
pub fn ring_with_chords_of(routers: u8) -> Vec<u8> {
    let mut links: Vec<Link> = Vec::new();
    for router in (0..routers).rev() {
        links.push((router, (router + 2) % routers, 3, 65_534));
    }
    for router in (0..routers).rev() {
        links.push((router, (router + 1) % routers, 1, u16::from(routers) - 2));
    }
    file_of(routers, &links, &prefixes(routers, &mut Random(1)))
}

/// Eight rows of eight routers, 112 links, all of cost 1.
pub fn grid() -> Vec<u8> {
    let right = (0..64u8).filter(|router| router % 8 < 7).map(|router| (router, router + 1, 1, 1));
    let down = (0..56u8).map(|router| (router, router + 8, 1, 1));
    let links: Vec<Link> = right.chain(down).collect();
    file_of(64, &links, &prefixes(64, &mut Random(2)))
}

/// The random network of 64 routers: 128 links.
pub fn random() -> Vec<u8> {
    random_of(64)
}

/// So many routers, at least 8, and twice as many links, costs from 1 to 1000
/// that differ by direction. Each router but the first is joined to an earlier
/// one, so that all are reached.
pub fn random_of(routers: u8) -> Vec<u8> {
    let source = &mut Random(3);
    let count = u64::from(routers);
    let mut links: Vec<Link> = Vec::new();
    for router in 1..routers {
        let earlier = source.below(u64::from(router)) as u8;
        links.push((earlier, router, source.cost(), source.cost()));
    }
    while links.len() < 2 * usize::from(routers) {
        let (a, b) = (source.below(count) as u8, source.below(count) as u8);
        let joined =
            links.iter().any(|link| (link.0, link.1) == (a, b) || (link.1, link.0) == (a, b));
        if a != b && !joined {
            links.push((a, b, source.cost(), source.cost()));
        }
    }
    file_of(routers, &links, &prefixes(routers, source))
}

/// Two prefixes for each router, with 1 to 8 attachments among the routers.
fn prefixes(routers: u8, source: &mut Random) -> Vec<Prefix> {
    let count = 2 * usize::from(routers);
    (0..count).map(|place| prefix(1 + place % 8, routers, source)).collect()
}

fn prefix(attachments: usize, routers: u8, source: &mut Random) -> Prefix {
    let mut prefix = Prefix::new();
    while prefix.len() < attachments {
        let router = source.below(u64::from(routers)) as u8;
        if prefix.iter().all(|(other, _)| *other != router) {
            prefix.push((router, source.below(4) as u16));
        }
    }
    prefix
}

/// A repeatable source of random numbers (the method splitmix64).
struct Random(u64);

impl Random {
    fn below(&mut self, bound: u64) -> u64 {
        self.0 = self.0.wrapping_add(0x9e37_79b9_7f4a_7c15);
        let mut mixed = self.0;
        mixed = (mixed ^ (mixed >> 30)).wrapping_mul(0xbf58_476d_1ce4_e5b9);
        mixed = (mixed ^ (mixed >> 27)).wrapping_mul(0x94d0_49bb_1331_11eb);
        (mixed ^ (mixed >> 31)) % bound
    }

    fn cost(&mut self) -> u16 {
        1 + self.below(1000) as u16
    }
}

/// The file of a network.
fn file_of(routers: u8, links: &[Link], prefixes: &[Prefix]) -> Vec<u8> {
    let mut file = vec![0; 512];
    file[0] = 1;
    file[4] = routers;
    file[6..8].copy_from_slice(&(links.len() as u16).to_le_bytes());
    file[8..10].copy_from_slice(&(prefixes.len() as u16).to_le_bytes());
    let links: Vec<Vec<u8>> = links.iter().map(link_entry).collect();
    let prefixes: Vec<Vec<u8>> = prefixes.iter().map(|prefix| prefix_entry(prefix)).collect();
    put_blocks(&mut file, 2, &links, 84);
    put_blocks(&mut file, 3, &prefixes, 14);
    for block in file.chunks_exact_mut(512) {
        let words = block[..510].chunks_exact(2).map(|pair| u16::from_le_bytes([pair[0], pair[1]]));
        let check = words.fold(0u16, u16::wrapping_add);
        block[510..].copy_from_slice(&check.to_le_bytes());
    }
    file
}

/// Adds the blocks of one kind, with so many entries to a block.
fn put_blocks(file: &mut Vec<u8>, kind: u8, entries: &[Vec<u8>], most: usize) {
    for part in entries.chunks(most) {
        let number = (file.len() / 512) as u16;
        let mut block = vec![kind, part.len() as u8];
        block.extend(number.to_le_bytes());
        block.extend(part.iter().flatten());
        block.resize(512, 0);
        file.extend(block);
    }
}

fn link_entry(&(a, b, out, back): &Link) -> Vec<u8> {
    let mut entry = vec![a, b];
    entry.extend(out.to_le_bytes());
    entry.extend(back.to_le_bytes());
    entry
}

fn prefix_entry(prefix: &[(u8, u16)]) -> Vec<u8> {
    let mut entry = vec![prefix.len() as u8, 0];
    for (router, cost) in prefix {
        entry.extend([*router, 0]);
        entry.extend(cost.to_le_bytes());
    }
    entry.resize(34, 0);
    entry
}
