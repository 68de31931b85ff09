//! Refusals: each row is met once, by hand, and its words say its number and its value.

use crate::common::ring_4_with_prefix;
use planner::{Refusal, ASCENDING_RANKS, ROUTE_BYTES, WORK_CELLS};

/// Ring 4 with its prefix, with some bytes changed and the checks made right again.
fn changed(changes: &[(usize, u8)]) -> Vec<u8> {
    let mut file = ring_4_with_prefix().to_bytes();
    for (at, value) in changes {
        file[*at] = *value;
    }
    for block in file.chunks_exact_mut(512) {
        let words = block[..510].chunks_exact(2).map(|word| u16::from_le_bytes([word[0], word[1]]));
        let check = words.fold(0, u16::wrapping_add).to_le_bytes();
        block[510..].copy_from_slice(&check);
    }
    file
}

fn load_refused(file: &[u8]) -> (u32, u64) {
    let Refusal { number, value } = planner::load(file).unwrap_err();
    (number, value)
}

#[test]
fn rows_of_the_file() {
    let sound = ring_4_with_prefix().to_bytes();
    assert_eq!(changed(&[]), sound);
    assert_eq!(load_refused(&[]), (1, 0));
    assert_eq!(load_refused(&sound[..1535]), (1, 0));
    assert_eq!(load_refused(&[0; 14 * 512]), (1, 0));
    let mut spoiled = sound.clone();
    spoiled[600] ^= 1;
    assert_eq!(load_refused(&spoiled), (2, 1));
    assert_eq!(load_refused(&changed(&[(4, 65)])), (3, 0));
    assert_eq!(load_refused(&changed(&[(4, 0)])), (3, 0));
    assert_eq!(load_refused(&sound[..1024]), (4, 3));
    assert_eq!(load_refused(&changed(&[(1024 + 509, 1)])), (5, 2));
    assert_eq!(load_refused(&changed(&[(516 + 2 * 6 + 1, 4)])), (6, 2));
    assert_eq!(load_refused(&changed(&[(516 + 6, 1), (516 + 7, 0)])), (7, 1));
    assert_eq!(load_refused(&changed(&[(1028, 9)])), (8, 0));
    assert_eq!(load_refused(&changed(&[(1028 + 6, 1)])), (9, 0));
}

#[test]
fn rows_of_the_question() {
    let file = ring_4_with_prefix().to_bytes();
    let refused = |number, value| Refusal { number, value };
    let mut work = [7; WORK_CELLS];
    let mut route = [7; ROUTE_BYTES];
    assert_eq!(planner::distances(&file, &mut work[..15]), Err(refused(10, 16)));
    assert_eq!(planner::distances(&file, &mut []), Err(refused(10, 16)));
    let (ranks, wrong) = (&ASCENDING_RANKS, &[0, 1, 2, 3, 4, 5, 6, 6]);
    let short = planner::route(&file, &mut work, wrong, 9, 9, 9, &[], &mut route[..7]);
    assert_eq!(short, Err(refused(11, 8)));
    let no_ranks = planner::route(&file, &mut work, wrong, 9, 9, 9, &[], &mut route[..8]);
    assert_eq!(no_ranks, Err(refused(15, 0)));
    assert_eq!(planner::link_repair(&file, &mut work, &[], 4, 0), Err(refused(15, 0)));
    // Four ranks were enough before version 4 of the interface.
    let four = planner::prefix_repair(&file, &mut work, &[0, 1, 2, 3], 0, 0, 1);
    assert_eq!(four, Err(refused(15, 0)));
    assert_eq!(planner::link_repair(&file, &mut work, ranks, 4, 0), Err(refused(12, 4)));
    assert_eq!(planner::p_space(&file, &mut work, 0, 2), Err(refused(12, 4)));
    assert_eq!(planner::prefix_repair(&file, &mut work, ranks, 0, 0, 1), Err(refused(13, 1)));
    // None of these rows changes what was lent.
    assert!(work.iter().all(|cell| *cell == 7));
    assert!(route.iter().all(|byte| *byte == 7));
}

#[test]
fn damaged_in_every_way() {
    let network = oracle::generate::sized(20, 90, 16, &mut oracle::random::Random::new(1));
    for cause in oracle::damage::causes() {
        for place in 0..8 {
            let mut damage = oracle::damage::Damage::to(&network);
            damage.cause(cause, place);
            let file = damage.finish();
            let expected = oracle::answer::load(&oracle::fault::Context::sound(), &file);
            let expected = expected.unwrap_err();
            let found = load_refused(&file);
            assert_eq!(found, (expected.number.into(), expected.value.into()), "{cause:?} {place}");
        }
    }
}

#[test]
fn words_of_every_row() {
    let words = |number| Refusal { number, value: 37 }.to_string();
    let parts = [
        "the file is empty, its length is no multiple of 512, or it is over 6656 bytes",
        "the check of block 37 is wrong",
        "the head is wrong",
        "the links and prefixes need another number of blocks: 37",
        "block 37 is wrong",
        "link 37 is wrong",
        "link 37 joins two routers that an earlier link joins",
        "prefix 37 is wrong",
        "prefix 37 names a router twice",
        "the work area or the table is too short: it needs 37 cells",
        "the route buffer is too short: it needs 37 bytes",
        "there is no such link or end: the number of links is 37",
        "there is no such prefix: the number of prefixes is 37",
        "there is no repair: no pair of first hop and endpoint serves",
        "the ranks are no arrangement: the eight classes have the ranks 0 to 7, each once",
    ];
    let others = [
        (16, "the table of refusals has no such row"),
        (18, "the table is not the file's: its cells are not the distances"),
    ];
    for (number, part) in (1..).zip(parts).chain(others) {
        assert!(words(number).starts_with(&format!("refused {number} 37: {part}")), "{number}");
    }
}
