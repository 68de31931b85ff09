//! Runs of Router-LSAs put together byte by byte, and what the call import answers and
//! leaves.

use crate::common::{load, refused};
use oracle::answer::Answer;
use oracle::fault::Context;
use oracle::file::write;
use oracle::network::Network;
use oracle::ospf::fletcher::{is_right, set_checksum, sums};
use oracle::ospf::layout::*;
use oracle::ospf::{Cause, Lsa, RouterLink, import, import::refusal};

/// The Router-LSA of 1.1.1.1 without a link. By hand: with 0 for the checksum the bytes
/// after the age add up to 1 + 4 + 4 + 128 + 1 + 24 = 162. With weights 22 down to 1 they
/// are 21 + 74 + 58 + 12 x 128 + 9 + 5 x 24 = 1,818. The checksum's bytes x and y have the
/// weights 8 and 7: 162 + 81 + 12 = 255, and 1,818 + 8 x 81 + 7 x 12 = 2,550 = 10 x 255.
const LONE: [u8; 24] =
    [0, 0, 0, 1, 1, 1, 1, 1, 1, 1, 1, 1, 128, 0, 0, 1, 81, 12, 0, 24, 0, 0, 0, 0];

/// Router 10.0.0.2: a point-to-point link to 10.0.0.1 with metric 20, and the link's
/// subnet as a stub link. The checksum is from a program of its own, which adds up running
/// sums as RFC 905 does.
const SECOND: [u8; 48] = [
    0, 5, 2, 1, 10, 0, 0, 2, 10, 0, 0, 2, 128, 0, 0, 3, 74, 152, 0, 48, 0, 0, 0, 2, //
    10, 0, 0, 1, 10, 1, 0, 2, 1, 0, 0, 20, //
    10, 1, 0, 0, 255, 255, 255, 252, 3, 0, 0, 20,
];

/// Router 10.0.0.1: the other side, with metric 10, and the network 192.168.7.0.
const FIRST: [u8; 60] = [
    1, 44, 2, 1, 10, 0, 0, 1, 10, 0, 0, 1, 128, 0, 0, 7, 87, 28, 0, 60, 1, 0, 0, 3, //
    10, 0, 0, 2, 10, 1, 0, 1, 1, 0, 0, 10, //
    10, 1, 0, 0, 255, 255, 255, 252, 3, 0, 0, 10, //
    192, 168, 7, 0, 255, 255, 255, 0, 3, 0, 0, 0,
];

/// What the call answers with a buffer of so many bytes, and the buffer after it.
fn imported(run: &[u8], bytes: usize) -> (Answer, Vec<u8>) {
    let outcome = import(&Context::sound(), run, &vec![7; bytes]);
    (outcome.answer, outcome.left.made)
}

/// The network of a run that is taken in. The buffer beyond its file is untouched.
fn network(run: &[u8]) -> Network {
    let (answer, mut left) = imported(run, 7000);
    let Answer::Written(length) = answer else {
        panic!("{answer:?}");
    };
    assert!(left[length..].iter().all(|byte| *byte == 7));
    left.truncate(length);
    match load(&left) {
        Answer::Accepted(network) => network,
        other => panic!("{other:?}"),
    }
}

fn answered(run: &[u8]) -> Answer {
    let (answer, left) = imported(run, 7000);
    assert!(left.iter().all(|byte| *byte == 7) || matches!(answer, Answer::Written(_)));
    answer
}

/// The run of some LSAs.
fn run(lsas: &[Lsa]) -> Vec<u8> {
    lsas.iter().flat_map(Lsa::bytes).collect()
}

fn to(id: u32, metric: u16) -> RouterLink {
    RouterLink::point_to_point(id, 0, metric)
}

fn stub(network: u32, mask: u32, metric: u16) -> RouterLink {
    RouterLink::stub(network, mask, metric)
}

#[test]
fn checksums() {
    for lsa in [&LONE[..], &SECOND, &FIRST] {
        assert_eq!(sums(&Context::sound(), lsa), (0, 0));
        let mut anew = lsa.to_vec();
        anew[CHECKSUM..CHECKSUM + 2].fill(99);
        set_checksum(&mut anew);
        assert_eq!(anew, lsa);
        // Every byte counts but those of the age.
        for at in 0..lsa.len() {
            let mut other = lsa.to_vec();
            other[at] ^= 1;
            assert_eq!(is_right(&Context::sound(), &other), at < OPTIONS, "byte {at}");
        }
    }
}

#[test]
fn fields_and_bytes() {
    let (lsa, filled) = Lsa::read(&FIRST);
    assert!(filled);
    let links = vec![
        RouterLink::point_to_point(0x0a00_0002, 0x0a01_0001, 10),
        stub(0x0a01_0000, 0xffff_fffc, 10),
        stub(0xc0a8_0700, 0xffff_ff00, 0),
    ];
    let expected = Lsa { age: 300, sequence: 0x8000_0007, flags: 1, ..Lsa::of(0x0a00_0001, links) };
    assert_eq!(lsa, expected);
    assert_eq!(lsa.bytes(), FIRST);
    assert_eq!(Lsa { age: 0, options: 0, ..Lsa::of(0x0101_0101, Vec::new()) }.bytes(), LONE);
}

/// The file of the two routers byte by byte: head, one link, two prefixes.
#[test]
fn two_routers() {
    for run in [[&FIRST[..], &SECOND].concat(), [&SECOND[..], &FIRST].concat()] {
        let (answer, left) = imported(&run, 1600);
        assert_eq!(answer, Answer::Written(1536));
        let mut file = vec![0; 1536];
        file[..10].copy_from_slice(&[1, 0, 0, 0, 2, 0, 1, 0, 2, 0]);
        file[510] = 6;
        file[512..522].copy_from_slice(&[2, 1, 1, 0, 0, 1, 10, 0, 20, 0]);
        // 258 + 1 + 256 + 10 + 20 = 545.
        file[1022..1024].copy_from_slice(&[33, 2]);
        file[1024..1038].copy_from_slice(&[3, 2, 2, 0, 2, 0, 0, 0, 10, 0, 1, 0, 20, 0]);
        file[1062] = 1;
        // 515 + 2 + 2 + 0 + 10 + 1 + 20 + 1 = 551.
        file[1534..].copy_from_slice(&[39, 2]);
        assert_eq!(left[..1536], file);
        assert_eq!(left[1536..], [7; 64]);
        let expected = Network::of_routers(2).link(0, 1, 10, 20);
        assert_eq!(network(&run), expected.prefix(&[(0, 10), (1, 20)]).prefix(&[(0, 0)]));
    }
}

#[test]
fn buffers() {
    let file = write(&Network::of_routers(1));
    for bytes in 0..=600 {
        let (answer, left) = imported(&LONE, bytes);
        if bytes < 512 {
            assert_eq!((answer, left), (refused(17, 0), vec![7; bytes]));
        } else {
            let expected = [&file, &vec![7; bytes - 512][..]].concat();
            assert_eq!((answer, left), (Answer::Written(512), expected));
        }
    }
}

#[test]
fn no_lsa_and_pieces_of_one() {
    assert_eq!(answered(&[]), refused(17, 0));
    for length in 1..LONE.len() {
        assert_eq!(answered(&LONE[..length]), refused(16, 0));
        assert_eq!(answered(&[&FIRST[..], &LONE[..length]].concat()), refused(16, 1));
    }
    assert_eq!(answered(&[&LONE[..], &[0]].concat()), refused(16, 1));
}

/// A link that one side alone describes is dropped, and so is one to a router that has no
/// LSA.
#[test]
fn one_sided() {
    let lsas = [Lsa::of(9, vec![to(5, 1), to(7, 2)]), Lsa::of(5, vec![to(7, 3)])];
    assert_eq!(network(&run(&lsas)), Network::of_routers(2));
    // Several links to a router that has no LSA are malformed all the same.
    let lsas = [Lsa::of(9, vec![to(7, 1)]), Lsa::of(5, vec![to(7, 2), to(7, 3)])];
    assert_eq!(answered(&run(&lsas)), refused(16, 1));
}

/// Numbers and orders: routers by unsigned Link State ID, links by the lower router and
/// then the higher, prefixes by network and then mask, attachments by router.
#[test]
fn orders() {
    let lsas = [
        Lsa::of(0xf000_0001, vec![to(2, 10), to(0x100, 11), stub(8, 9, 4)]),
        Lsa::of(2, vec![to(0xf000_0001, 12), to(0x100, 13), stub(8, 7, 5), stub(7, 1 << 31, 6)]),
        Lsa::of(0x100, vec![to(2, 14), to(0xf000_0001, 15), stub(8, 9, 3), stub(8, 7, 9)]),
    ];
    let expected = Network::of_routers(3).link(0, 1, 13, 14).link(0, 2, 12, 10).link(1, 2, 15, 11);
    let expected = expected.prefix(&[(0, 6)]).prefix(&[(0, 5), (1, 9)]);
    assert_eq!(network(&run(&lsas)), expected.prefix(&[(1, 3), (2, 4)]));
}

#[test]
fn stub_links() {
    // The lower metric of one router stays, in whichever order; 0 is a metric.
    let twice = |first, last| vec![stub(8, 9, first), stub(8, 9, last)];
    for (first, last) in [(3, 5), (5, 3), (3, 3)] {
        let lsas = [Lsa::of(1, twice(first, last))];
        assert_eq!(network(&run(&lsas)), Network::of_routers(1).prefix(&[(0, 3)]));
    }
    let zero = [Lsa::of(1, twice(0, 65_535))];
    assert_eq!(network(&run(&zero)), Network::of_routers(1).prefix(&[(0, 0)]));
    // The network is not masked, and another mask is another prefix.
    let raw =
        [Lsa::of(1, vec![stub(0x0b00_0001, 0xff00_0000, 1), stub(0x0b00_0000, 0xff00_0000, 2)])];
    assert_eq!(network(&run(&raw)), Network::of_routers(1).prefix(&[(0, 2)]).prefix(&[(0, 1)]));
}

/// The fields that say nothing of the network: any value of them, with a right checksum.
#[test]
fn other_fields_turn_nothing_away() {
    let expected = network(&[&FIRST[..], &SECOND].concat());
    for at in [0, 1, 2, 8, 9, 10, 11, 12, 13, 14, 15, 20, 21] {
        for value in 0..=255 {
            let mut first = FIRST;
            first[at] = value;
            set_checksum(&mut first);
            assert_eq!(network(&[&first[..], &SECOND].concat()), expected, "byte {at} is {value}");
        }
    }
}

/// A checksum may have one byte 0, in the place of 255; both bytes 0 are wrong, though the
/// sums are 0.
#[test]
fn zeros_in_the_checksum() {
    let mut lsa = LONE;
    let mut met = [0; 3];
    for sequence in 0..=u16::MAX {
        lsa[14..16].copy_from_slice(&sequence.to_be_bytes());
        set_checksum(&mut lsa);
        let [x, y] = [lsa[16], lsa[17]];
        assert!(x > 0 && y > 0);
        for (kind, bytes) in [[0, y], [x, 0], [0, 0]].into_iter().enumerate() {
            let mut other = lsa;
            other[16..18].copy_from_slice(&bytes);
            if is_right(&Context::sound(), &other) {
                let taken = bytes != [0, 0];
                assert_eq!(matches!(answered(&other), Answer::Written(512)), taken);
                met[kind] += 1;
            }
        }
    }
    assert!(met.iter().all(|count| *count > 0), "{met:?}");
}

/// Each cause that is worked by hand, and its value: the first bad LSA counted from 0.
#[test]
fn sixteen_by_hand() {
    let of = |links: Vec<RouterLink>| Lsa::of(5, links);
    let typed = |link_type| RouterLink { link_type, ..to(7, 1) };
    let tos = RouterLink { tos: vec![[0; 4]], ..stub(8, 9, 1) };
    let other = Lsa { ls_type: 2, ..of(Vec::new()) };
    let mut long = of(Vec::new()).bytes();
    long.extend([0; 12]);
    long[19] = 36;
    set_checksum(&mut long);
    let bad: [(Cause, Vec<u8>); 9] = [
        (Cause::LengthNotFilled, long),
        (Cause::OtherType, other.bytes()),
        (Cause::TosMetric, of(vec![tos]).bytes()),
        (Cause::LinkOfAnotherType, of(vec![typed(2)]).bytes()),
        (Cause::LinkOfAnotherType, of(vec![typed(4)]).bytes()),
        (Cause::MetricZero, of(vec![to(7, 0)]).bytes()),
        (Cause::ToItself, of(vec![to(5, 1)]).bytes()),
        (Cause::SeveralToOneRouter, of(vec![to(7, 1), stub(7, 7, 7), to(7, 2)]).bytes()),
        (Cause::RouterNamedBefore, Lsa { sequence: 9, ..Lsa::read(&LONE).0 }.bytes()),
    ];
    for (cause, bytes) in bad {
        let run = [&LONE[..], &FIRST, &bytes, &SECOND, &bytes].concat();
        let found = refusal(&run, 7000).expect("a refusal");
        assert_eq!((found.cause, found.value), (cause, 2));
        assert_eq!(answered(&run), refused(16, 2));
    }
}

/// A line of routers, each linked to the next; with one bad LSA more it is 16, whatever
/// the limits say.
#[test]
fn sixteen_comes_before_seventeen() {
    let line = |routers: u32| {
        let links = |id: u32| [id.wrapping_sub(1), id + 1].map(|other| to(other, 1)).to_vec();
        run(&(1000..1000 + routers).map(|id| Lsa::of(id, links(id))).collect::<Vec<_>>())
    };
    assert!(matches!(answered(&line(64)), Answer::Written(1024)));
    assert_eq!(answered(&line(65)), refused(17, 0));
    let bad = Lsa::of(1, vec![to(1, 1)]).bytes();
    assert_eq!(answered(&[line(65), bad.clone()].concat()), refused(16, 65));
    assert_eq!(answered(&[line(300), bad.clone()].concat()), refused(16, 300));
    assert_eq!(imported(&bad, 0).0, refused(16, 0));
}

/// The value counts as many LSAs as there are.
#[test]
fn a_bad_lsa_after_many() {
    let mut many: Vec<u8> = (1..=70_000).flat_map(|id| Lsa::of(id, Vec::new()).bytes()).collect();
    assert_eq!(answered(&many), refused(17, 0));
    many.push(0);
    assert_eq!(answered(&many), refused(16, 70_000));
}
