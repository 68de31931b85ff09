//! Runs at the limits of number 17, on both sides of each.

use super::corpus::{Case, every_buffer};
use super::extra::{self, Extra};
use super::layout::STUB;
use super::lsa::{MOST_IN_LSA, RouterLink};
use super::make;
use crate::file::LARGEST;
use crate::random::Random;

/// Routers, links and prefixes on both sides of each limit.
const SIZES: [(usize, usize, usize); 19] = [
    (1, 0, 0),
    (63, 70, 5),
    (64, 70, 5),
    (65, 70, 5),
    (300, 70, 5),
    (64, 84, 14),
    (64, 85, 15),
    (64, 127, 3),
    (64, 128, 3),
    (64, 129, 3),
    (20, 150, 3),
    (30, 130, 0),
    (20, 30, 127),
    (20, 30, 128),
    (20, 30, 129),
    (3, 0, 130),
    (9, 8, 200),
    (64, 128, 128),
    (65, 129, 129),
];

/// Networks at the limits, on both sides of each.
pub fn cases(random: &mut Random) -> Vec<Case> {
    let mut cases = Vec::new();
    for (routers, links, prefixes) in SIZES {
        let mut lsas = make::network(routers, links, prefixes, random);
        make::dress(&mut lsas, random);
        let name = format!("{routers} routers, {links} links, {prefixes} prefixes");
        cases.extend(every_buffer(&name, &lsas, random).into_iter().take(2));
    }
    for attachments in [7, 8, 9, 12] {
        let mut lsas = make::network(12, 15, 2, random);
        let stub = RouterLink::stub(random.any() as u32, u32::MAX << 8, 7);
        lsas.iter_mut().take(attachments).for_each(|lsa| lsa.links.push(stub.clone()));
        let name = format!("{attachments} attachments");
        cases.extend(every_buffer(&name, &lsas, random));
    }
    cases.extend(many_dropped(random));
    cases.push(entries_over(random));
    cases.extend([200, 256, 300, MOST_IN_LSA, MOST_IN_LSA].map(|links| long_lsa(links, random)));
    cases
}

/// A router with so many stub links, which are those of three networks.
fn long_lsa(links: usize, random: &mut Random) -> Case {
    let mut lsas = make::network(3, 2, 1, random);
    let stub = |random: &mut Random| {
        let metric = random.between(65_000, 65_535) as u16;
        RouterLink::stub(u32::MAX - random.below(3) as u32, u32::MAX, metric)
    };
    lsas[1].links.resize_with(links, || stub(random));
    Case::new("an LSA with many links", make::run(&lsas), LARGEST)
}

/// Eight routers of one network, one of which names it twice.
fn entries_over(random: &mut Random) -> Case {
    let mut lsas = make::network(9, 9, 0, random);
    let stub = RouterLink::stub(random.any() as u32, u32::MAX << 8, 7);
    lsas.iter_mut().take(8).for_each(|lsa| lsa.links.push(stub.clone()));
    lsas[3].links.push(RouterLink { metric: 6, ..stub });
    Case::new("nine stub links of eight routers", make::run(&lsas), LARGEST)
}

/// 128 links and one-sided ones besides; 128 prefixes and more stub links.
fn many_dropped(random: &mut Random) -> Vec<Case> {
    let mut lsas = make::network(64, 128, 128, random);
    for _ in 0..20 {
        extra::add(Extra::OneSided, &mut lsas, random);
        extra::add(Extra::ToAbsentRouter, &mut lsas, random);
    }
    let stub = lsas.iter().flat_map(|lsa| lsa.links_of(STUB)).next().cloned();
    let mut holders = lsas.iter_mut().filter(|lsa| lsa.links.contains(stub.as_ref().unwrap()));
    let holder = holders.next().expect("a router has the stub link");
    holder.links.extend(stub);
    every_buffer("as many as may be, and dropped ones", &lsas, random)
}
