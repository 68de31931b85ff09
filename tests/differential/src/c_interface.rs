//! The library, by way of its C interface as `include/planner.h` declares it
//! and `planner::raw` repeats it.
//! It shows what the safe crate keeps to itself: the 34 bytes that an entry is
//! copied into, the numbers of the kinds, the fields of which a kind does not
//! speak, the cells of a network after the last entry, networks outside the
//! limits, and null pointers for buffers of no cells, a table of none among them.

use crate::call::{Call, ENTRY, Planner, Told};
use crate::plan;
use oracle::answer::Question;
use oracle::columns::Columns;
use oracle::network::Network;
use oracle::ranks::ASCENDING;
use oracle::space::Space;
use planner::raw::{self, Answer};
use std::ptr::{null, null_mut};

/// A call for a space: file, work area, link, end.
type SpaceCall = unsafe extern "C" fn(*const u8, usize, *mut u32, usize, usize, usize) -> Answer;

/// The library behind its C interface.
pub struct CInterface;

impl Planner for CInterface {
    fn ask(&self, call: Call) -> Told {
        if let Some(table) = call.table {
            return second(call, table);
        }
        let Call { file, question, choices, ranks, work, route, entry, made, .. } = call;
        match *question {
            Question::Load => load(file),
            Question::LinkEntry { link } => copied(raw::planner_link_entry, file, link, entry),
            Question::PrefixEntry { prefix } => {
                copied(raw::planner_prefix_entry, file, prefix, entry)
            }
            Question::Distances => told(distances(file, work)),
            Question::Space { space, link, end } => {
                let call: SpaceCall = match space {
                    Space::P => raw::planner_p_space,
                    Space::ExtendedP => raw::planner_extended_p_space,
                    Space::Q => raw::planner_q_space,
                };
                told(space_of(call, file, work, link, end))
            }
            Question::Size { set } => Told::Size(u64::from(raw::planner_size(set))),
            Question::LinkRepair { link, end, .. } => link_repair(file, work, ranks, link, end),
            Question::PrefixRepair { link, end, prefix, .. } => {
                told(prefix_repair(file, work, ranks, (link, end, prefix)))
            }
            Question::Route { link, end, prefix, .. } => {
                told(route_of(file, work, ranks, (link, end, prefix), choices, route))
            }
            Question::Plan => {
                let mut own = [0; 4096];
                let repair = |link, end| link_repair(file, &mut own, &ASCENDING, link, end);
                Told::Text(plan::text(&load(file), repair))
            }
            Question::Drill { seed, routers } => drill(seed, routers, made),
            Question::Write { ref network } => write(&by_value(network, UNSPOKEN), made),
        }
    }
}

/// A second call, which takes a table in the place of the work area.
fn second(call: Call, table: &[u32]) -> Told {
    let Call { file, question, choices, ranks, route, .. } = call;
    told(match *question {
        Question::LinkRepair { link, end, .. } => link_repair_with(file, table, ranks, link, end),
        Question::PrefixRepair { link, end, prefix, .. } => {
            prefix_repair_with(file, table, ranks, (link, end, prefix))
        }
        Question::Route { link, end, prefix, .. } => {
            route_with(file, table, ranks, (link, end, prefix), choices, route)
        }
        _ => unreachable!("repairs and routes alone have a table"),
    })
}

/// The pointer of a buffer: null for one of no cells.
fn of<C>(cells: &[C]) -> *const C {
    if cells.is_empty() { null() } else { cells.as_ptr() }
}

/// The pointer of a buffer to write to: null for one of no cells.
fn to<C>(cells: &mut [C]) -> *mut C {
    if cells.is_empty() { null_mut() } else { cells.as_mut_ptr() }
}

fn place(number: u64) -> usize {
    usize::try_from(number).expect("the tests are for machines of 64 bits")
}

fn load(file: &[u8]) -> Told {
    // SAFETY: the pointer and the length are those of one slice.
    network(&unsafe { raw::planner_load(of(file), file.len()) })
}

type EntryCall = unsafe extern "C" fn(*const u8, usize, usize, *mut u8) -> usize;

fn copied(call: EntryCall, file: &[u8], number: u64, entry: &mut [u8]) -> Told {
    assert_eq!(entry.len(), ENTRY, "an entry has 34 bytes of room");
    // SAFETY: the file's pointer and length are those of one slice, and the
    // entry is another slice with the 34 bytes that the call may write.
    let count = unsafe { call(of(file), file.len(), place(number), entry.as_mut_ptr()) };
    Told::Copied(count as u64)
}

fn distances(file: &[u8], work: &mut [u32]) -> Answer {
    // SAFETY: pointers and lengths are those of two slices apart.
    unsafe { raw::planner_distances(of(file), file.len(), to(work), work.len()) }
}

fn space_of(call: SpaceCall, file: &[u8], work: &mut [u32], link: u64, end: u64) -> Answer {
    let cells = work.len();
    // SAFETY: pointers and lengths are those of two slices apart.
    unsafe { call(of(file), file.len(), to(work), cells, place(link), place(end)) }
}

fn link_repair(file: &[u8], work: &mut [u32], ranks: &[u8], link: u64, end: u64) -> Told {
    // SAFETY: pointers and lengths are those of three slices apart.
    told(unsafe {
        raw::planner_link_repair(
            of(file),
            file.len(),
            to(work),
            work.len(),
            of(ranks),
            ranks.len(),
            place(link),
            place(end),
        )
    })
}

/// A question's link, end and prefix.
type Named = (u64, u64, u64);

fn prefix_repair(
    file: &[u8],
    work: &mut [u32],
    ranks: &[u8],
    (link, end, prefix): Named,
) -> Answer {
    // SAFETY: pointers and lengths are those of three slices apart.
    unsafe {
        raw::planner_prefix_repair(
            of(file),
            file.len(),
            to(work),
            work.len(),
            of(ranks),
            ranks.len(),
            place(link),
            place(end),
            place(prefix),
        )
    }
}

fn route_of(
    file: &[u8],
    work: &mut [u32],
    ranks: &[u8],
    (link, end, prefix): Named,
    choices: &[u8],
    route: &mut [u8],
) -> Answer {
    // SAFETY: pointers and lengths are those of five slices apart.
    unsafe {
        raw::planner_route(
            of(file),
            file.len(),
            to(work),
            work.len(),
            of(ranks),
            ranks.len(),
            place(link),
            place(end),
            place(prefix),
            of(choices),
            choices.len(),
            to(route),
            route.len(),
        )
    }
}

fn link_repair_with(file: &[u8], table: &[u32], ranks: &[u8], link: u64, end: u64) -> Answer {
    // SAFETY: pointers and lengths are those of three slices apart.
    unsafe {
        raw::planner_link_repair_with(
            of(file),
            file.len(),
            of(table),
            table.len(),
            of(ranks),
            ranks.len(),
            place(link),
            place(end),
        )
    }
}

fn prefix_repair_with(
    file: &[u8],
    table: &[u32],
    ranks: &[u8],
    (link, end, prefix): Named,
) -> Answer {
    // SAFETY: pointers and lengths are those of three slices apart.
    unsafe {
        raw::planner_prefix_repair_with(
            of(file),
            file.len(),
            of(table),
            table.len(),
            of(ranks),
            ranks.len(),
            place(link),
            place(end),
            place(prefix),
        )
    }
}

fn route_with(
    file: &[u8],
    table: &[u32],
    ranks: &[u8],
    (link, end, prefix): Named,
    choices: &[u8],
    route: &mut [u8],
) -> Answer {
    // SAFETY: pointers and lengths are those of five slices apart.
    unsafe {
        raw::planner_route_with(
            of(file),
            file.len(),
            of(table),
            table.len(),
            of(ranks),
            ranks.len(),
            place(link),
            place(end),
            place(prefix),
            of(choices),
            choices.len(),
            to(route),
            route.len(),
        )
    }
}

/// What an answer tells. A kind that the header does not name is told as such,
/// and so is an answer with a field that its kind does not speak of.
fn told(answer: Answer) -> Told {
    let Answer { kind, number, value, first, endpoint, pair_class, cost } = answer;
    let pair = [first as u64, endpoint as u64, u64::from(pair_class), u64::from(cost)];
    let odd = || Told::Other(format!("kind {kind}, number {number}, value {value}, {pair:?}"));
    let alone = number == 0 && pair == [0; 4];
    match kind {
        0 if pair == [0; 4] => Told::Refused { number: u64::from(number), value },
        2 if alone && value == 0 => Told::Done,
        3 if alone && value == 0 => Told::Unreachable,
        4 if alone && value == 0 => Told::Untouched,
        5 if alone => Told::Set(value),
        6 if number == 0 && value == 0 => {
            let [first, endpoint, class, cost] = pair;
            Told::Pair { first, endpoint, class, cost }
        }
        7 if alone => Told::Played(value),
        _ => odd(),
    }
}

fn drill(seed: u32, routers: u64, made: &mut [u8]) -> Told {
    // SAFETY: the pointer and the length are those of one slice.
    let count = unsafe { raw::planner_drill(seed, place(routers), to(made), made.len()) };
    Told::Written(count as u64)
}

/// The call that writes a network.
pub fn write(network: &raw::Network, made: &mut [u8]) -> Told {
    // SAFETY: the pointer and the length are those of one slice.
    let count = unsafe { raw::planner_write(network.clone(), to(made), made.len()) };
    Told::Written(count as u64)
}

/// Kind, number and value of a network, which the call that writes it does not
/// look at.
pub type Unspoken = (u32, u32, u64);

/// Such as no load leaves them.
const UNSPOKEN: Unspoken = (0xdead_beef, 77, u64::MAX);

/// A network as it is handed to the call that writes it.
pub fn by_value(columns: &Columns, (kind, number, value): Unspoken) -> raw::Network {
    let Columns { from, to, out, back, attached, at, own, .. } = columns.clone();
    let [routers, links, prefixes] = [columns.routers, columns.links, columns.prefixes].map(place);
    raw::Network {
        kind,
        number,
        value,
        routers,
        links,
        prefixes,
        from,
        to,
        out,
        back,
        attached,
        at,
        own,
    }
}

/// The counts and columns of a network.
fn columns(raw: &raw::Network) -> Columns {
    let raw::Network { from, to, out, back, attached, at, own, .. } = raw.clone();
    let [routers, links, prefixes] =
        [raw.routers, raw.links, raw.prefixes].map(|count| count as u64);
    Columns { routers, links, prefixes, from, to, out, back, attached, at, own }
}

/// What a loaded network tells. Every cell that no entry speaks of is 0.
fn network(raw: &raw::Network) -> Told {
    let refusal = Told::Refused { number: u64::from(raw.number), value: raw.value };
    let columns = columns(raw);
    let network = columns.network();
    let whole = Columns::of(&network) == columns;
    match raw.kind {
        0 if whole && network == Network::default() => refusal,
        1 if whole && (raw.number, raw.value) == (0, 0) => Told::Accepted(network),
        _ => Told::Other(format!("a network of kind {}, {refusal:?}", raw.kind)),
    }
}
