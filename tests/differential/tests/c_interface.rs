//! The C interface itself: everything that the safe crate keeps to itself is
//! compared too, and buffers of no cells are null pointers, tables among them.

use differential::c_interface::CInterface;
use differential::campaign::{Breadth, Case, run};
use differential::coverage::everything;
use differential::files::{self, NamedFile};
use differential::networks::{self, MIDDLE, SMALL, WIDE};
use oracle::corpus;
use oracle::file::write;
use oracle::ranks::ASCENDING;
use oracle::table;
use oracle::worked::ring_4_with_prefix;
use planner::raw::{self, Answer};
use std::ptr::null;

fn cases() -> Vec<Case> {
    let whole = |named| Case::of_network(named, Breadth::Whole(1));
    let file = |file| Case::of_file(file, Breadth::Limits);
    let named = |(name, bytes)| NamedFile { name, bytes };
    let mut cases: Vec<Case> = files::worked().into_iter().map(file).collect();
    let ranked = |file| Case::of_file(file, Breadth::DecidingRanks);
    cases.extend(files::worked().into_iter().map(ranked));
    cases.extend(networks::of_extremes(4001).into_iter().map(whole));
    cases.extend(networks::of_families(WIDE, 4002..4003).into_iter().map(whole));
    cases.extend(networks::of_families(MIDDLE, 4003..4004).into_iter().map(whole));
    cases.extend(networks::of_families(SMALL, 4004..4024).into_iter().map(whole));
    let tables = |named| Case::of_network(named, Breadth::Tables);
    cases.extend(networks::of_families(SMALL, 4024..4027).into_iter().map(tables));
    cases.extend(files::single_causes(4, 4030).into_iter().map(file));
    cases.extend(files::changed_bytes(100, 4031).into_iter().map(file));
    cases.extend(files::repeated_bytes().into_iter().map(file));
    let edges = corpus::edges().into_iter().map(named);
    cases.extend(edges.map(|file| Case::of_file(file, Breadth::Reading)));
    cases.push(Case::of_writing(71));
    cases
}

#[test]
fn the_c_interface_is_compared_too() {
    let report = run(&CInterface, &cases());
    println!("{}", report.summary());
    report.assert_same();
    report.assert_met(&everything());
}

/// The three second calls about link 0, end 0 and prefix 0 of ring 4, with this table and
/// with 16 bytes for a route.
fn second_calls(table: *const u32, cells: usize) -> [Answer; 3] {
    let (file, mut route) = (write(&ring_4_with_prefix()), [0; 16]);
    let (at, bytes, ranks) = (file.as_ptr(), file.len(), ASCENDING.as_ptr());
    // SAFETY: each pointer but the table's is of a slice with that length, and the table's is
    // of so many cells or, with none, null; so are the choices.
    unsafe {
        [
            raw::planner_link_repair_with(at, bytes, table, cells, ranks, 8, 0, 0),
            raw::planner_prefix_repair_with(at, bytes, table, cells, ranks, 8, 0, 0, 0),
            raw::planner_route_with(
                at,
                bytes,
                table,
                cells,
                ranks,
                8,
                0,
                0,
                0,
                null(),
                0,
                route.as_mut_ptr(),
                16,
            ),
        ]
    }
}

/// Null with length 0 is a table of no cells, as a pointer to some cells with length 0 is.
#[test]
fn a_null_pointer_is_an_empty_table() {
    let ten = Answer { kind: raw::kind::REFUSED, number: 10, value: 16, ..Answer::default() };
    let right = table::right(&ring_4_with_prefix());
    assert_eq!(second_calls(null(), 0), [ten; 3]);
    assert_eq!(second_calls(right.as_ptr(), 0), [ten; 3]);
    assert_eq!(second_calls(right.as_ptr(), 15), [ten; 3]);
}

/// The numbers of the kinds, and 0 in each field of which the kind does not speak.
#[test]
fn raw_answers_of_second_calls() {
    let right = table::right(&ring_4_with_prefix());
    let pair = |endpoint, pair_class, cost| {
        let (kind, first) = (raw::kind::PAIR, 3);
        Answer { kind, first, endpoint, pair_class, cost, ..Answer::default() }
    };
    let played = Answer { kind: raw::kind::PLAYED, value: 3, ..Answer::default() };
    assert_eq!(second_calls(right.as_ptr(), 16), [pair(2, 7, 2), pair(3, 1, 1), played]);
    let mut other = right;
    other[15] = 1;
    let eighteen = Answer { kind: raw::kind::REFUSED, number: 18, ..Answer::default() };
    assert_eq!(second_calls(other.as_ptr(), 16), [eighteen; 3]);
}
