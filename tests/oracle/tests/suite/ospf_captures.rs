//! LSAs that routing daemons wrote (`tests/ospf`): what is taken in is what the daemons
//! show of their database.

use crate::common::{load, refused};
use crate::ospf_corpus::slow_network;
use oracle::answer::Answer;
use oracle::fault::Context;
use oracle::file::LARGEST;
use oracle::network::Network;
use oracle::ospf::judge::pieces;
use oracle::ospf::layout::{CHECKSUM, POINT_TO_POINT, STUB, TRANSIT, word};
use oracle::ospf::{Cause, Lsa, RouterLink, import, import::refusal};
use oracle::stored;
use std::collections::BTreeMap;
use std::fs;
use std::net::Ipv4Addr;

/// What a daemon shows of one Router-LSA. A link is its type, the other router's ID or the
/// network, the mask of a stub link, and the metric; of a transit link the metric alone.
#[derive(Clone, Debug, Default, PartialEq, Eq)]
struct Shown {
    sequence: u32,
    checksum: u16,
    links: Vec<(u8, u32, u32, u16)>,
}

type View = BTreeMap<u32, Shown>;

const NETWORKS: [&str; 4] = ["square", "stopped", "twins", "broadcast"];

/// The run and the view of a capture.
fn capture(daemon: &str, network: &str) -> (Vec<u8>, View) {
    let path = stored::root().join("tests/ospf/captures").join(format!("{daemon}-{network}"));
    let run = fs::read(path.with_extension("run")).expect("a run");
    let text = fs::read_to_string(path.with_extension("txt")).expect("a text");
    let view = if daemon == "bird" { bird(&text) } else { frr(&text) };
    (run, view)
}

fn address(word: &str) -> u32 {
    word.parse::<Ipv4Addr>().expect("an address").to_bits()
}

fn hex(word: &str) -> u32 {
    u32::from_str_radix(word.trim_start_matches("0x"), 16).expect("a number")
}

fn metric(word: &str) -> u16 {
    word.parse().expect("a metric")
}

/// `show ospf lsadb type 1` has a line for each LSA, and `show ospf state all` a paragraph
/// for each router.
fn bird(text: &str) -> View {
    let mut view = View::new();
    let mut router = None;
    for line in text.lines() {
        let words: Vec<&str> = line.split_whitespace().collect();
        let indented = line.starts_with("\t\t");
        match words.as_slice() {
            ["0001", id, _, sequence, _, checksum] => {
                let shown = view.entry(address(id)).or_default();
                (shown.sequence, shown.checksum) = (hex(sequence), hex(checksum) as u16);
            }
            ["router", id] if !indented => router = Some(address(id)),
            ["network", _] if !indented => router = None,
            [kind, what, "metric", cost] => {
                let shown = router.and_then(|id| view.get_mut(&id)).expect("a router");
                shown.links.push(bird_link(kind, what, metric(cost)));
            }
            _ => {}
        }
    }
    view
}

fn bird_link(kind: &str, what: &str, cost: u16) -> (u8, u32, u32, u16) {
    let (network, length) = what.split_once('/').unwrap_or((what, "32"));
    let length: u32 = length.parse().expect("a length");
    match kind {
        "router" => (POINT_TO_POINT, address(network), 0, cost),
        "stubnet" => (STUB, address(network), u32::MAX << (32 - length), cost),
        _ => (TRANSIT, 0, 0, cost),
    }
}

/// `show ip ospf database router` has a paragraph for each LSA and each link.
fn frr(text: &str) -> View {
    let mut view = View::new();
    let (mut id, mut link) = (0, (0, 0, 0));
    for line in text.lines() {
        let Some((name, value)) = line.trim().split_once(": ") else {
            continue;
        };
        let value = value.trim();
        let shown = view.entry(id).or_default();
        match name {
            "Link State ID" => id = address(value),
            "LS Seq Number" => shown.sequence = hex(value),
            "Checksum" => shown.checksum = hex(value) as u16,
            "Link connected to" => link = (frr_type(value), 0, 0),
            "(Link ID) Neighboring Router ID" | "(Link ID) Net" => link.1 = address(value),
            "(Link Data) Network Mask" => link.2 = address(value),
            "TOS 0 Metric" => shown.links.push((link.0, link.1, link.2, metric(value))),
            _ => {}
        }
    }
    // Lines before the first LSA belong to none.
    view.remove(&0);
    view
}

fn frr_type(value: &str) -> u8 {
    match value {
        "another Router (point-to-point)" => POINT_TO_POINT,
        "Stub Network" => STUB,
        "a Transit Network" => TRANSIT,
        other => panic!("{other}"),
    }
}

/// What the oracle reads in the run, put as the daemon shows it.
fn read(run: &[u8]) -> View {
    let mut view = View::new();
    for piece in pieces(run) {
        let (lsa, filled) = Lsa::read(piece.bytes);
        assert!(filled && lsa.advertising_router == lsa.link_state_id);
        let link = |link: &RouterLink| match link.link_type {
            STUB => (STUB, link.id, link.data, link.metric),
            POINT_TO_POINT => (POINT_TO_POINT, link.id, 0, link.metric),
            other => (other, 0, 0, link.metric),
        };
        let links = lsa.links.iter().map(link).collect();
        let checksum = word(piece.bytes, CHECKSUM);
        view.insert(lsa.link_state_id, Shown { sequence: lsa.sequence, checksum, links });
    }
    view
}

fn sorted(mut view: View) -> View {
    view.values_mut().for_each(|shown| shown.links.sort());
    view
}

/// The LSAs that a view speaks of, with plain values in the other fields.
fn lsas(view: &View) -> Vec<Lsa> {
    let link = |&(link_type, id, data, metric): &(u8, u32, u32, u16)| RouterLink {
        link_type,
        ..RouterLink::stub(id, data, metric)
    };
    let lsa = |(id, shown): (&u32, &Shown)| Lsa::of(*id, shown.links.iter().map(link).collect());
    view.iter().map(lsa).collect()
}

/// Every LSA in the run is the one that the daemon shows: router, sequence number, checksum
/// and links.
#[test]
fn the_runs_hold_what_the_daemons_show() {
    for (daemon, network) in ["bird", "frr"].into_iter().flat_map(|d| NETWORKS.map(|n| (d, n))) {
        let (run, view) = capture(daemon, network);
        let routers = if network == "stopped" { 5 } else { 4 };
        assert_eq!(view.len(), routers, "{daemon} {network}");
        assert_eq!(sorted(read(&run)), sorted(view), "{daemon} {network}");
    }
}

/// The file has the routers, links, metrics and stub networks of the database.
#[test]
fn what_is_taken_in_is_what_the_daemons_show() {
    for (daemon, name) in
        ["bird", "frr"].into_iter().flat_map(|d| ["square", "stopped"].map(|n| (d, n)))
    {
        let (run, view) = capture(daemon, name);
        let outcome = import(&Context::sound(), &run, &[0; LARGEST]);
        let Answer::Written(length) = outcome.answer else {
            panic!("{daemon} {name}: {:?}", outcome.answer);
        };
        let expected = slow_network(&lsas(&view));
        assert_eq!(load(&outcome.left.made[..length]), Answer::Accepted(expected));
    }
}

/// The square as it was set up, by hand. Its routers are 9.255.0.1, 10.0.0.3, 10.0.0.4 and
/// 192.0.2.1. BIRD describes a host route at metric 0, FRR at the interface's cost.
#[test]
fn the_square() {
    for (daemon, host) in [("bird", 0), ("frr", 3)] {
        let mut expected = Network::of_routers(4);
        let links =
            [(0, 1, 7, 65_535), (0, 2, 1, 1000), (1, 2, 54, 55), (1, 3, 300, 20), (2, 3, 10, 10)];
        for (a, b, forth, back) in links {
            expected = expected.link(a, b, forth, back);
        }
        let subnets = [[(2, 10), (3, 10)], [(1, 300), (3, 20)], [(0, 7), (1, 65_535)]];
        let subnets = subnets.into_iter().chain([[(0, 1), (2, 1000)], [(1, 54), (2, 55)]]);
        expected = subnets.fold(expected, |network, subnet| network.prefix(&subnet));
        expected = expected.prefix(&[(0, host)]).prefix(&[(3, 1)]).prefix(&[(0, 65_535)]);
        expected = expected.prefix(&[(1, 6), (2, 5)]);
        let (run, _) = capture(daemon, "square");
        let left = import(&Context::sound(), &run, &[0; LARGEST]).left.made;
        assert_eq!(load(&left[..3 * 512]), Answer::Accepted(expected), "{daemon}");
    }
}

/// The stopped router is there, with its networks, but without its link: its neighbour's
/// LSA does not describe it.
#[test]
fn the_stopped_router() {
    for daemon in ["bird", "frr"] {
        let (run, view) = capture(daemon, "stopped");
        let (stopped, neighbour) = (address("10.0.1.0"), address("9.255.0.1"));
        let leads = |from: u32, to: u32| {
            view[&from].links.iter().any(|link| (link.0, link.1) == (POINT_TO_POINT, to))
        };
        assert!(leads(stopped, neighbour) && !leads(neighbour, stopped));
        let left = import(&Context::sound(), &run, &[0; LARGEST]).left.made;
        let Answer::Accepted(network) = load(&left[..3 * 512]) else {
            panic!("{daemon}: not accepted");
        };
        assert_eq!((network.routers, network.links.len()), (5, 5));
        assert!(network.links.iter().all(|link| link.a != 3 && link.b != 3));
        let of_stopped = |prefix: &&oracle::network::Prefix| {
            prefix.attachments.iter().any(|attachment| attachment.router == 3)
        };
        assert_eq!(network.prefixes.iter().filter(of_stopped).count(), 2);
    }
}

/// Twins and broadcast networks are malformed: 16, and the first LSA of the run that has
/// such a link.
#[test]
fn malformed_for_now() {
    let causes = [("twins", Cause::SeveralToOneRouter), ("broadcast", Cause::LinkOfAnotherType)];
    for (daemon, (network, cause)) in ["bird", "frr"].iter().flat_map(|d| causes.map(|c| (d, c))) {
        let (run, view) = capture(daemon, network);
        let bad = |lsa: &Lsa| {
            let links = &view[&lsa.link_state_id].links;
            let to_router = |link: &(u8, u32, u32, u16)| (link.0, link.1);
            let mut routers: Vec<_> = links.iter().map(to_router).filter(|l| l.0 == 1).collect();
            routers.sort();
            links.iter().any(|link| link.0 == TRANSIT) || routers.windows(2).any(|w| w[0] == w[1])
        };
        let read: Vec<Lsa> = pieces(&run).iter().map(|piece| Lsa::read(piece.bytes).0).collect();
        let place = read.iter().position(bad).expect("a bad LSA");
        let found = refusal(&run, LARGEST).expect("a refusal");
        assert_eq!((found.cause, found.value), (cause, place), "{daemon} {network}");
        let outcome = import(&Context::sound(), &run, &[7; LARGEST]);
        assert_eq!(
            (outcome.answer, outcome.left.made),
            (refused(16, place as u32), vec![7; LARGEST])
        );
    }
}
