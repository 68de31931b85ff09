//! Tables of distances: the calls that are lent one, and [`Table`], which fills its own.

use crate::common::{ring, ring_4_with_prefix, stored, texts, with_prefix_at};
use planner::{
    Link, Network, Pair, Played, Refusal, Repair, Table, ASCENDING_RANKS, ROUTE_BYTES, UNREACHABLE,
    WORK_CELLS,
};
use std::thread;

const NOT_THE_FILES: Refusal = Refusal { number: 18, value: 0 };

/// The distances of ring 4, row by row.
const RING_4: [u32; 16] = [0, 1, 2, 1, 1, 0, 1, 2, 2, 1, 0, 1, 1, 2, 1, 0];

/// What the three calls answer about link 0, end 0 and prefix 0, and the route buffer after them.
type Answers =
    (Result<Pair, Refusal>, Result<Repair, Refusal>, Result<Played, Refusal>, [u8; ROUTE_BYTES]);

fn with_table(file: &[u8], table: &[u32], ranks: &[u8], choices: &[u8]) -> Answers {
    let mut route = [255; ROUTE_BYTES];
    let link = planner::link_repair_with(file, table, ranks, 0, 0);
    let prefix = planner::prefix_repair_with(file, table, ranks, 0, 0, 0);
    let played = planner::route_with(file, table, ranks, 0, 0, 0, choices, &mut route);
    (link, prefix, played, route)
}

fn single(file: &[u8], ranks: &[u8], choices: &[u8]) -> Answers {
    let (mut work, mut route) = ([0; WORK_CELLS], [255; ROUTE_BYTES]);
    let link = planner::link_repair(file, &mut work, ranks, 0, 0);
    let prefix = planner::prefix_repair(file, &mut work, ranks, 0, 0, 0);
    let played = planner::route(file, &mut work, ranks, 0, 0, 0, choices, &mut route);
    (link, prefix, played, route)
}

fn of(table: &Table, ranks: &[u8], choices: &[u8]) -> Answers {
    let mut route = [255; ROUTE_BYTES];
    let link = table.link_repair(ranks, 0, 0);
    let prefix = table.prefix_repair(ranks, 0, 0, 0);
    let played = table.route(ranks, 0, 0, 0, choices, &mut route);
    (link, prefix, played, route)
}

/// The three calls refuse alike, and leave the route buffer as it was.
fn refused(refusal: Refusal) -> Answers {
    (Err(refusal), Err(refusal), Err(refusal), [255; ROUTE_BYTES])
}

#[test]
fn ring_4_by_its_distances() {
    let file = ring_4_with_prefix().to_bytes();
    let (link, prefix, played, route) = with_table(&file, &RING_4, &ASCENDING_RANKS, &[]);
    assert_eq!(link, Ok(Pair { first: 3, endpoint: 2, class: 7, cost: 2 }));
    let pair = Pair { first: 3, endpoint: 3, class: 1, cost: 1 };
    assert_eq!(prefix, Ok(Repair::Pair(pair)));
    assert_eq!(played, Ok(Played::Written(3)));
    assert_eq!(route[..4], [0, 3, 2, 255]);
    let longer = [&RING_4[..], &[9; 5000]].concat();
    let answers = with_table(&file, &RING_4, &ASCENDING_RANKS, &[]);
    assert_eq!(with_table(&file, &longer, &ASCENDING_RANKS, &[]), answers);
}

#[test]
fn a_table_that_is_not_the_files() {
    let file = ring_4_with_prefix().to_bytes();
    for place in 0..16 {
        for other in [RING_4[place] + 1, RING_4[place] + 65_536, UNREACHABLE, 7] {
            let mut table = RING_4;
            table[place] = other;
            let answers = with_table(&file, &table, &ASCENDING_RANKS, &[]);
            assert_eq!(answers, refused(NOT_THE_FILES), "{place} {other}");
        }
    }
    for cells in 0..16 {
        let answers = with_table(&file, &RING_4[..cells], &ASCENDING_RANKS, &[]);
        assert_eq!(answers, refused(Refusal { number: 10, value: 16 }), "{cells}");
    }
}

#[test]
fn words_of_row_18() {
    let words =
        "refused 18 0: the table is not the file's: its cells are not the distances between \
                 the routers of the file";
    assert_eq!(NOT_THE_FILES.to_string(), words);
    let words = "refused 10 16: the work area or the table is too short: it needs 16 cells";
    assert_eq!(Refusal { number: 10, value: 16 }.to_string(), words);
}

/// The rows of the table come after those of the file and before those of the question.
#[test]
fn the_order_of_the_rows() {
    let (file, zeros) = (ring_4_with_prefix().to_bytes(), [0; 16]);
    let mut route = [255; 7];
    let asked = |table: &[u32], route: &mut [u8]| {
        planner::route_with(&file, table, &[], 9, 9, 9, &[], route)
    };
    assert_eq!(asked(&zeros[..15], &mut route), Err(Refusal { number: 10, value: 16 }));
    assert_eq!(asked(&zeros, &mut route), Err(NOT_THE_FILES));
    assert_eq!(asked(&RING_4, &mut route), Err(Refusal { number: 11, value: 8 }));
    assert_eq!(asked(&RING_4, &mut [0; 8]), Err(Refusal { number: 15, value: 0 }));
    assert_eq!(route, [255; 7]);
    let wrong = [&file[..], &[0]].concat();
    let answers = with_table(&wrong, &zeros, &[], &[]);
    assert_eq!(answers, refused(Refusal { number: 1, value: 0 }));
}

#[test]
fn a_table_of_another_file() {
    let ring = with_prefix_at(ring(4), &[1, 2]);
    // A link that no path uses leaves the distances as they are, and a cheap one does not.
    let with_link = |cost| {
        let mut network = ring.clone();
        network.add_link(Link { a: 0, b: 2, out: cost, back: cost }).unwrap();
        network.to_bytes()
    };
    let (dear, cheap) = (with_link(65_535), with_link(1));
    let table = Table::of(&dear).unwrap();
    assert_eq!(table.cells()[..16], RING_4);
    let file = ring.to_bytes();
    let answers = single(&file, &ASCENDING_RANKS, &[]);
    assert_eq!(with_table(&file, table.cells(), &ASCENDING_RANKS, &[]), answers);
    let answers = with_table(&cheap, table.cells(), &ASCENDING_RANKS, &[]);
    assert_eq!(answers, refused(NOT_THE_FILES));
}

#[test]
fn the_table_of_a_file() {
    let mut two_parts = Network::new(3).unwrap();
    two_parts.add_link(Link { a: 0, b: 1, out: 2, back: 5 }).unwrap();
    let file = two_parts.to_bytes();
    let table = Table::of(&file).unwrap();
    assert!(std::ptr::eq(table.file(), &file[..]));
    let cells = [0, 2, UNREACHABLE, 5, 0, UNREACHABLE, UNREACHABLE, UNREACHABLE, 0];
    assert_eq!(table.cells()[..9], cells);
    assert_eq!(table.cells()[9..], [0; WORK_CELLS - 9]);
    let mut work = [0; WORK_CELLS];
    assert_eq!(planner::distances(&file, &mut work), Ok(()));
    assert_eq!(table.cells(), work);
    let copy = table.clone();
    assert_eq!((copy.file(), copy.cells()), (table.file(), table.cells()));
    assert_eq!(table.link_repair(&ASCENDING_RANKS, 1, 0), Err(Refusal { number: 12, value: 1 }));
    assert_eq!(table.link_repair(&[], 1, 0), Err(Refusal { number: 15, value: 0 }));
}

/// Of a table of the file the three calls answer as they do with a work area: every link, end and
/// prefix of the stored networks, by some ranks.
#[test]
fn a_table_answers_as_the_single_calls() {
    for name in ["node_eight_classes", "four_classes", "ring_4_prefix", "attached_tunnel"] {
        let file = stored(name);
        let network = planner::load(&file).unwrap();
        let table = Table::of(&file).unwrap();
        for ranks in [ASCENDING_RANKS, [4, 5, 0, 1, 6, 7, 2, 3]] {
            assert_eq!(of(&table, &ranks, &[1, 2, 3]), single(&file, &ranks, &[1, 2, 3]), "{name}");
            for (link, end) in (0..network.links().len()).flat_map(|link| [(link, 0), (link, 1)]) {
                let mut work = [0; WORK_CELLS];
                let pair = planner::link_repair(&file, &mut work, &ranks, link, end);
                assert_eq!(table.link_repair(&ranks, link, end), pair);
                for prefix in 0..network.prefixes().len() {
                    let ours = table.prefix_repair(&ranks, link, end, prefix);
                    let repair =
                        planner::prefix_repair(&file, &mut work, &ranks, link, end, prefix);
                    assert_eq!(ours, repair, "{name} {link} {end} {prefix}");
                }
            }
        }
    }
}

/// What load refuses has no table, and the refusal is the same.
#[test]
fn a_refused_file_has_no_table() {
    let mut refusals = 0;
    for case in texts("tests/cases/reader").into_iter().chain(texts("tests/cases")) {
        let file = crate::common::oracle_file(&case.text).unwrap();
        let table = Table::of(&file).map(|_| ());
        assert_eq!(table, planner::load(&file).map(|_| ()), "{}", case.path.display());
        refusals += usize::from(table.is_err());
    }
    assert!(refusals > 20, "{refusals} refusals");
    assert_eq!(Table::of(&[]).unwrap_err(), Refusal { number: 1, value: 0 });
}

/// A table may be sent to another thread and asked by several at once.
#[test]
fn several_threads_ask_one_table() {
    let file = stored("node_eight_classes");
    let expected = single(&file, &ASCENDING_RANKS, &[7]);
    let table = Table::of(&file).unwrap();
    thread::scope(|scope| {
        for _ in 0..4 {
            scope.spawn(|| {
                for _ in 0..50 {
                    assert_eq!(of(&table, &ASCENDING_RANKS, &[7]), expected);
                }
            });
        }
    });
    let sent = table.clone();
    let asked = thread::scope(|scope| {
        scope.spawn(move || of(&sent, &ASCENDING_RANKS, &[7])).join().expect("it ends")
    });
    assert_eq!(asked, expected);
}

/// Shared slices may overlap in Rust. A table that lies in the file's own memory is answered as a
/// copy of it would be, be it the file's or not.
#[test]
fn a_table_that_shares_memory_with_the_file() {
    let file = ring_4_with_prefix().to_bytes();
    let numbers = file.chunks_exact(4).map(|four| u32::from_le_bytes(four.try_into().unwrap()));
    // The distances, and then the file, which the table reaches into.
    let table: Vec<u32> = RING_4.into_iter().chain(numbers).collect();
    // SAFETY: a number of 32 bits is four bytes, and these may have any value.
    let (_, bytes, _) = unsafe { table.align_to::<u8>() };
    let in_table = &bytes[64..];
    assert_eq!(in_table, file);
    let expected = single(&file, &ASCENDING_RANKS, &[1]);
    for cells in [16, 17, 40, table.len()] {
        let answers = with_table(in_table, &table[..cells], &ASCENDING_RANKS, &[1]);
        assert_eq!(answers, expected, "{cells}");
    }
    for from in [1, 15, 16, 100] {
        let answers = with_table(in_table, &table[from..], &ASCENDING_RANKS, &[1]);
        assert_eq!(answers, refused(NOT_THE_FILES), "{from}");
    }
}

/// The same of ranks and choices that lie in the memory of the table.
#[test]
fn ranks_and_choices_that_share_memory_with_the_table() {
    let file = ring_4_with_prefix().to_bytes();
    let arranged = [0x0706_0504_u32, 0x0302_0100].map(u32::to_le);
    let table = [&RING_4[..], &arranged].concat();
    // SAFETY: a number of 32 bits is four bytes, and these may have any value.
    let (_, bytes, _) = unsafe { table.align_to::<u8>() };
    let (ranks, choices) = (&bytes[64..], &bytes[2..9]);
    assert_eq!(ranks, [4, 5, 6, 7, 0, 1, 2, 3]);
    let expected = single(&file, &[4, 5, 6, 7, 0, 1, 2, 3], choices);
    assert_eq!(with_table(&file, &table, ranks, choices), expected);
    // Choices that reach into the ranks too.
    let expected = single(&file, &[4, 5, 6, 7, 0, 1, 2, 3], bytes);
    assert_eq!(with_table(&file, &table, ranks, bytes), expected);
}
