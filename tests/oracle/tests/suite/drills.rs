//! Drills: draws and costs worked by hand, every drill as a ring, and what the
//! call returns and leaves.

use crate::common::load;
use oracle::answer::{Answer, drill};
use oracle::drill::{Draws, network};
use oracle::fault::{Context, Fault, Limit};
use oracle::file::write;
use oracle::network::{Link, Network};
use oracle::random::Random;
use oracle::write_questions::{DRILL, NO_DRILL};

fn drilled(seed: u32, routers: u64) -> Network {
    network(&Context::sound(), seed, routers).expect("a drill")
}

fn ring_3(costs: [(u16, u16); 3]) -> Network {
    let links = costs.into_iter().enumerate().map(|(link, (forth, back))| {
        let a = link as u8;
        Link { a, b: (a + 1) % 3, forth, back }
    });
    Network { routers: 3, links: links.collect(), prefixes: Vec::new() }
}

/// The values of seed 0, as "Numerical Recipes" prints them for this generator.
#[test]
fn the_values_that_are_in_print() {
    let printed = [
        0x3c6e_f35f,
        0x4750_2932,
        0xd1cc_f6e9,
        0xaaf9_5334,
        0x6252_e503,
        0x9f2e_c686,
        0x57fe_6c2d,
        0xa3d9_5fa8,
        0x81fd_bee7,
        0x94f0_af1a,
        0xcbf6_33b1,
    ];
    let ctx = Context::sound();
    let mut draws = Draws::of(&ctx, 0);
    for value in printed {
        assert_eq!(draws.draw(), value >> 16);
        assert_eq!(draws.value, value);
    }
}

/// Each draw by hand: 1,664,525 times the value plus 1,013,904,223, the largest
/// multiple of 4,294,967,296 in it, and the rest; its upper 16 bits.
#[test]
fn draws_worked_by_hand() {
    let worked: [(u32, [(u64, u64, u64, u64); 3]); 3] = [
        (
            0,
            [
                (1_013_904_223, 0, 1_013_904_223, 15_470),
                (1_687_669_940_693_298, 392_941, 1_196_435_762, 18_256),
                (1_991_498_250_647_273, 463_681, 3_519_870_697, 53_708),
            ],
        ),
        (
            1,
            [
                (1_015_568_748, 0, 1_015_568_748, 15_496),
                (1_690_440_584_168_923, 393_586, 1_586_005_467, 24_200),
                (2_639_946_763_862_398, 614_660, 2_165_703_038, 33_046),
            ],
        ),
        (
            4_294_967_295,
            [
                (7_149_081_450_614_098, 1_664_525, 1_012_239_698, 15_445),
                (1_684_899_297_217_673, 392_296, 806_866_057, 12_311),
                (1_343_049_737_432_148, 312_703, 579_071_060, 8_835),
            ],
        ),
    ];
    let ctx = Context::sound();
    for (seed, rows) in worked {
        let mut draws = Draws::of(&ctx, seed);
        for (sum, times, rest, upper) in rows {
            assert_eq!(1_664_525 * draws.value + 1_013_904_223, sum);
            assert_eq!(times * 4_294_967_296 + rest, sum);
            assert_eq!((draws.draw(), draws.value), (upper, rest));
        }
    }
}

#[test]
fn drills_of_three_routers() {
    assert_eq!(drilled(0, 3), ring_3([(71, 57), (9, 70), (71, 51)]));
    // The draw 24,200 is 0 modulo 100: the least cost.
    assert_eq!(drilled(1, 3), ring_3([(97, 1), (47, 96), (13, 17)]));
    assert_eq!(drilled(4_294_967_295, 3), ring_3([(46, 12), (36, 44), (30, 85)]));
}

#[test]
fn the_bytes_of_a_drill() {
    let file = drill(&Context::sound(), 1, 3, &[9; DRILL]).left.made;
    let mut expected = vec![0; 1024];
    expected[..8].copy_from_slice(&[1, 0, 0, 0, 3, 0, 3, 0]);
    expected[510] = 7;
    expected[512..534]
        .copy_from_slice(&[2, 3, 1, 0, 0, 1, 97, 0, 1, 0, 1, 2, 47, 0, 96, 0, 2, 0, 13, 0, 17, 0]);
    // 770 + 1 + (256 + 97 + 1) + (513 + 47 + 96) + (2 + 13 + 17) = 1,813.
    expected[1022..].copy_from_slice(&[21, 7]);
    assert_eq!(file, expected);
}

/// The costs of a seed by sums of 32 bits that wrap round.
fn wrapping_costs(mut value: u32) -> impl Iterator<Item = u16> {
    std::iter::repeat_with(move || {
        value = value.wrapping_mul(1_664_525).wrapping_add(1_013_904_223);
        1 + (value >> 16) as u16 % 100
    })
}

#[test]
fn every_drill_is_a_ring_that_the_reader_accepts() {
    let random = &mut Random::new(81);
    let mut met = [[0; 2]; 101];
    for routers in 3..=64 {
        let seeds =
            [0, 1, 1 << 31, u32::MAX].into_iter().chain((0..20).map(|_| random.any() as u32));
        for seed in seeds {
            let network = drilled(seed, routers);
            assert_eq!(
                (u64::from(network.routers), network.links.len() as u64),
                (routers, routers)
            );
            assert!(network.prefixes.is_empty());
            let mut costs = wrapping_costs(seed);
            for (link, found) in network.links.iter().enumerate() {
                let next = if link + 1 < network.links.len() { link + 1 } else { 0 };
                assert_eq!((usize::from(found.a), usize::from(found.b)), (link, next));
                assert_eq!(Some(found.forth), costs.next());
                assert_eq!(Some(found.back), costs.next());
                met[usize::from(found.forth)][0] += 1;
                met[usize::from(found.back)][1] += 1;
            }
            let file = drill(&Context::sound(), seed, routers, &[0; DRILL]).left.made;
            assert_eq!(file, write(&network));
            assert_eq!(load(&file), Answer::Accepted(network));
        }
    }
    assert_eq!(met[0], [0, 0]);
    assert!(met[1..].iter().flatten().all(|count| *count > 0));
}

/// A sum of the bytes of 1,240 drills, each byte added to 31 times the sum. A
/// second program, written from the same text in Python, had the same sum; it
/// is not kept.
#[test]
fn the_drills_of_another_program() {
    let mut sum = 0u64;
    for routers in 3..=64 {
        for seed in (0..10).chain((0..10).map(|k| u32::MAX - k)) {
            let file = drill(&Context::sound(), seed, routers, &[0; DRILL]).left.made;
            sum = file
                .iter()
                .fold(sum, |sum, byte| sum.wrapping_mul(31).wrapping_add(u64::from(*byte)));
        }
    }
    assert_eq!(sum, 8_242_635_275_812_560_999);
}

#[test]
fn what_the_call_returns_and_leaves() {
    let ctx = Context::sound();
    for (seed, routers) in [(1, 3), (7, 33), (u32::MAX, 64)] {
        let file = write(&drilled(seed, routers));
        assert_eq!(file.len(), DRILL);
        for length in 0..=1100 {
            let lent: Vec<u8> = (0..length).map(|place| place as u8 ^ 0x5a).collect();
            let outcome = drill(&ctx, seed, routers, &lent);
            if length < DRILL {
                assert_eq!((outcome.answer, outcome.left.made), (Answer::Written(0), lent));
            } else {
                let expected = [&file, &lent[DRILL..]].concat();
                assert_eq!((outcome.answer, outcome.left.made), (Answer::Written(DRILL), expected));
            }
        }
        for routers in NO_DRILL {
            let outcome = drill(&ctx, seed, routers, &[7; 2000]);
            assert_eq!((outcome.answer, outcome.left.made), (Answer::Written(0), vec![7; 2000]));
        }
    }
}

/// Each way to make a drill wrongly shows, and each in another way.
#[test]
fn wrong_drills() {
    let asked = |fault: Option<Fault>| {
        let ctx = Context::with(fault.as_slice());
        let mut shown = Vec::new();
        for routers in [2, 3, 4, 64, 65] {
            for seed in [0, 1, u32::MAX] {
                shown.push(drill(&ctx, seed, routers, &[7; 1600]));
            }
        }
        shown
    };
    let faults = [None].into_iter().chain(Fault::OF_DRILLS.map(Some));
    let shown: Vec<_> = faults.map(asked).collect();
    for (place, one) in shown.iter().enumerate() {
        assert!(!shown[..place].contains(one), "{:?}", Fault::OF_DRILLS[place - 1]);
    }
}

/// The reader refuses only the wrong drills with cost 0 or with a wrong number of
/// routers; the others are noticed by nothing but a comparison.
#[test]
fn most_wrong_drills_are_accepted_all_the_same() {
    let refused = |fault: &Fault| {
        let ctx = Context::with(&[*fault]);
        let mut files = (0..3).flat_map(|seed| (2..=65).map(move |routers| (seed, routers)));
        files.any(|(seed, routers)| {
            let network = network(&ctx, seed, routers);
            network.is_some_and(|network| matches!(load(&write(&network)), Answer::Refused { .. }))
        })
    };
    let found: Vec<Fault> = Fault::OF_DRILLS.into_iter().filter(refused).collect();
    let expected = [
        Fault::DrillCostFromZero,
        Fault::LimitLoose(Limit::LeastDrillRouters),
        Fault::LimitLoose(Limit::MostDrillRouters),
    ];
    assert_eq!(found, expected);
}
