//! The calls of `include/planner.h` as their stack is measured. Each is made through
//! a pointer to its function, and so is an empty function with the same parameters.
//! The difference is what the call itself takes: not its arguments and its result,
//! which lie with the caller, nor the address that it returns to.

use crate::answer::{Answer, Network};
use crate::stack::depth;
use planner::{raw, ASCENDING_RANKS, LARGEST_FILE, WORK_CELLS};
use std::hint::black_box;
use std::mem::{transmute, MaybeUninit};

/// Ranks that row 15 refuses.
const WRONG_RANKS: [u8; 8] = [0; 8];

/// Choices for as many hops as a route may have.
const CHOICES: [u8; 128] = [255; 128];

/// A file, and a table of its distances and one that row 18 refuses. The file may be
/// refused; then both tables are of zeros.
pub struct Case {
    file: Vec<u8>,
    network: Network,
    right: Vec<u32>,
    wrong: Vec<u32>,
}

impl Case {
    pub fn new(file: Vec<u8>) -> Case {
        let mut right = vec![0; WORK_CELLS];
        let (bytes, length) = (file.as_ptr(), file.len());
        let network = unsafe { raw::planner_load(bytes, length) };
        unsafe { raw::planner_distances(bytes, length, right.as_mut_ptr(), right.len()) };
        let mut wrong = right.clone();
        let last = network.routers.pow(2).saturating_sub(1);
        wrong[last] = wrong[last].wrapping_add(1);
        Case { file, network, right, wrong }
    }
}

/// What a call is asked about: a file, each link and end of it, or each prefix too.
#[derive(Clone, Copy, PartialEq, Eq)]
enum About {
    File,
    Link,
    Prefix,
}

/// A question, with what is lent for it. Not every call is given all of it.
#[derive(Clone)]
struct Question<'a> {
    file: &'a [u8],
    network: &'a Network,
    table: &'a [u32],
    ranks: &'a [u8],
    choices: &'a [u8],
    link: usize,
    end: usize,
    prefix: usize,
    /// Cells of the work area, and bytes of the buffer.
    cells: usize,
    bytes: usize,
}

/// Every question about a file that is not refused for what is lent or asked for, and
/// one for each other row. A question is given one prefix in so many.
fn questions(case: &Case, about: About, every: usize) -> Vec<Question<'_>> {
    let Network { links, prefixes, .. } = case.network;
    let first = Question {
        file: &case.file,
        network: &case.network,
        table: &case.right,
        ranks: &ASCENDING_RANKS,
        choices: &CHOICES,
        link: 0,
        end: 0,
        prefix: 0,
        cells: WORK_CELLS,
        bytes: LARGEST_FILE,
    };
    let mut all = vec![
        Question { table: &[], cells: 0, ..first.clone() },
        Question { table: &case.wrong, ..first.clone() },
        Question { bytes: 0, ..first.clone() },
        Question { ranks: &WRONG_RANKS, ..first.clone() },
        Question { link: links, ..first.clone() },
        Question { prefix: prefixes, ..first.clone() },
        Question { choices: &[], ..first.clone() },
    ];
    let links = if about == About::File { 1 } else { links };
    let prefixes = if about == About::Prefix { prefixes } else { 1 };
    for (link, end) in (0..links).flat_map(|link| [(link, 0), (link, 1)]) {
        let each = (0..prefixes).step_by(every);
        all.extend(each.map(|prefix| Question { link, end, prefix, ..first.clone() }));
    }
    all
}

/// The buffers that a call writes into.
struct Room {
    work: Vec<u32>,
    bytes: Vec<u8>,
}

/// A call, by the name of its function.
pub struct Call {
    pub name: &'static str,
    about: About,
    /// Asks a question of the function, or of the empty one in its place.
    ask: fn(bool, &Question, &mut Room),
}

type Bytes = *const u8;
type Buffer = *mut u8;
type Work = *mut u32;
type Table = *const u32;

/// A call: its function, what it is asked about, its parameters and result, and its
/// arguments, which are taken from a question and from the buffers. The result is one
/// that may be left as it was, so that the empty function need not write it.
macro_rules! call {
    ($function:ident, $about:ident, ($($parameter:ty),*) -> $result:ty,
     |$asked:ident, $room:ident| $($argument:expr),*) => {{
        type Function = unsafe extern "C" fn($($parameter),*) -> MaybeUninit<$result>;
        unsafe extern "C" fn empty($(_: $parameter),*) -> MaybeUninit<$result> {
            MaybeUninit::uninit()
        }
        fn ask(without: bool, $asked: &Question, $room: &mut Room) {
            let function: unsafe extern "C" fn($($parameter),*) -> $result = raw::$function;
            // SAFETY: a result that may be left as it was is passed as the result is.
            let function: Function = unsafe { transmute(function) };
            let function = if without { empty as Function } else { function };
            // SAFETY: each pointer is lent with its length, and no two overlap.
            let _ = unsafe { black_box(function)($($argument),*) };
        }
        Call { name: stringify!($function), about: About::$about, ask }
    }};
}

/// The calls in the order of the header.
pub fn all() -> Vec<Call> {
    [file_calls(), space_calls(), repair_calls(), table_calls(), write_calls()]
        .into_iter()
        .flatten()
        .collect()
}

fn file_calls() -> Vec<Call> {
    vec![
        call!(planner_load, File, (Bytes, usize) -> Network,
            |q, _room| q.file.as_ptr(), q.file.len()),
        call!(planner_link_entry, Link, (Bytes, usize, usize, Buffer) -> usize,
            |q, room| q.file.as_ptr(), q.file.len(), q.link, room.bytes.as_mut_ptr()),
        call!(planner_prefix_entry, Prefix, (Bytes, usize, usize, Buffer) -> usize,
            |q, room| q.file.as_ptr(), q.file.len(), q.prefix, room.bytes.as_mut_ptr()),
        call!(planner_distances, File, (Bytes, usize, Work, usize) -> Answer,
            |q, room| q.file.as_ptr(), q.file.len(), room.work.as_mut_ptr(), q.cells),
    ]
}

fn space_calls() -> Vec<Call> {
    macro_rules! space {
        ($function:ident) => {
            call!($function, Link, (Bytes, usize, Work, usize, usize, usize) -> Answer,
                |q, room| q.file.as_ptr(), q.file.len(), room.work.as_mut_ptr(), q.cells,
                q.link, q.end)
        };
    }
    vec![
        space!(planner_p_space),
        space!(planner_extended_p_space),
        space!(planner_q_space),
        call!(planner_size, Link, (u64) -> u32, |q, _room| u64::MAX >> (q.link % 64)),
    ]
}

fn repair_calls() -> Vec<Call> {
    vec![
        call!(planner_link_repair, Link,
            (Bytes, usize, Work, usize, Bytes, usize, usize, usize) -> Answer,
            |q, room| q.file.as_ptr(), q.file.len(), room.work.as_mut_ptr(), q.cells,
            q.ranks.as_ptr(), q.ranks.len(), q.link, q.end),
        call!(planner_prefix_repair, Prefix,
            (Bytes, usize, Work, usize, Bytes, usize, usize, usize, usize) -> Answer,
            |q, room| q.file.as_ptr(), q.file.len(), room.work.as_mut_ptr(), q.cells,
            q.ranks.as_ptr(), q.ranks.len(), q.link, q.end, q.prefix),
        call!(planner_route, Prefix,
            (Bytes, usize, Work, usize, Bytes, usize, usize, usize, usize, Bytes, usize, Buffer,
             usize) -> Answer,
            |q, room| q.file.as_ptr(), q.file.len(), room.work.as_mut_ptr(), q.cells,
            q.ranks.as_ptr(), q.ranks.len(), q.link, q.end, q.prefix,
            q.choices.as_ptr(), q.choices.len(), room.bytes.as_mut_ptr(), q.bytes),
    ]
}

fn table_calls() -> Vec<Call> {
    vec![
        call!(planner_link_repair_with, Link,
            (Bytes, usize, Table, usize, Bytes, usize, usize, usize) -> Answer,
            |q, _room| q.file.as_ptr(), q.file.len(), q.table.as_ptr(), q.table.len(),
            q.ranks.as_ptr(), q.ranks.len(), q.link, q.end),
        call!(planner_prefix_repair_with, Prefix,
            (Bytes, usize, Table, usize, Bytes, usize, usize, usize, usize) -> Answer,
            |q, _room| q.file.as_ptr(), q.file.len(), q.table.as_ptr(), q.table.len(),
            q.ranks.as_ptr(), q.ranks.len(), q.link, q.end, q.prefix),
        call!(planner_route_with, Prefix,
            (Bytes, usize, Table, usize, Bytes, usize, usize, usize, usize, Bytes, usize, Buffer,
             usize) -> Answer,
            |q, room| q.file.as_ptr(), q.file.len(), q.table.as_ptr(), q.table.len(),
            q.ranks.as_ptr(), q.ranks.len(), q.link, q.end, q.prefix,
            q.choices.as_ptr(), q.choices.len(), room.bytes.as_mut_ptr(), q.bytes),
    ]
}

/// A drill has as many routers as the network, from as many seeds as there are links.
fn write_calls() -> Vec<Call> {
    vec![
        call!(planner_write, File, (Network, Buffer, usize) -> usize,
            |q, room| q.network.clone(), room.bytes.as_mut_ptr(), q.bytes),
        call!(planner_drill, Link, (u32, usize, Buffer, usize) -> usize,
            |q, room| q.link as u32, q.network.routers, room.bytes.as_mut_ptr(), q.bytes),
    ]
}

/// Bytes of stack of a call: the most that any question takes. One prefix in so many
/// is asked about.
pub fn bytes(call: &Call, cases: &[Case], every: usize) -> usize {
    let mut room = Room { work: vec![0; WORK_CELLS], bytes: vec![0; LARGEST_FILE] };
    let each = cases.iter().flat_map(|case| questions(case, call.about, every));
    let asked: Vec<Question> = each.collect();
    let mut measured = |without, asked: &[Question]| {
        depth(&mut || {
            for question in asked {
                (call.ask)(black_box(without), question, &mut room);
            }
        })
    };
    // Where a function of the C library is looked for when it is first called, that
    // is no part of the call, and is over after some questions.
    let _ = measured(false, &asked[..asked.len().min(64)]);
    measured(false, &asked) - measured(true, &asked)
}
