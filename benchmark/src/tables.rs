//! Compares what the two sides answer about lent tables, right and wrong, before
//! anything is timed.

use crate::answer::{Answer, Network, Refusal, ACCEPTED, NO_PATH};
use crate::side::Side;
use planner::ASCENDING_RANKS;

/// Cells after the distances, which nothing is said about.
const GUARD: usize = 3;

/// A table, with what was done to it.
type Lent = (String, Vec<u32>);

/// What is asked with a table.
struct Question {
    ranks: Vec<u8>,
    link: usize,
    end: usize,
    prefix: usize,
    /// Bytes of the route buffer.
    bytes: usize,
}

/// One of the three calls.
#[derive(Clone, Copy, Debug)]
enum Call {
    LinkRepair,
    PrefixRepair,
    Route,
}

impl Call {
    const ALL: [Call; 3] = [Call::LinkRepair, Call::PrefixRepair, Call::Route];

    /// The answer of the call with a table, and what it leaves in the route buffer.
    fn with<S: Side>(self, file: &[u8], table: &[u32], asked: &Question) -> (Answer, Vec<u8>) {
        let Question { ranks, link, end, prefix, .. } = asked;
        let mut route = asked.route();
        let question = (*link, *end, *prefix);
        let answer = match self {
            Call::LinkRepair => S::link_repair_with(file, table, ranks, *link, *end),
            Call::PrefixRepair => S::prefix_repair_with(file, table, ranks, *link, *end, *prefix),
            Call::Route => S::route_with(file, table, ranks, question, &[1, 2], &mut route),
        };
        (answer, route)
    }

    /// The same of the call with a work area of its own.
    fn single<S: Side>(self, file: &[u8], asked: &Question) -> (Answer, Vec<u8>) {
        let Question { ranks, link, end, prefix, .. } = asked;
        let (mut work, mut route) = (vec![0; 64 * 64], asked.route());
        let question = (*link, *end, *prefix);
        let answer = match self {
            Call::LinkRepair => S::link_repair(file, &mut work, ranks, *link, *end),
            Call::PrefixRepair => S::prefix_repair(file, &mut work, ranks, *link, *end, *prefix),
            Call::Route => S::route(file, &mut work, ranks, question, &[1, 2], &mut route),
        };
        (answer, route)
    }
}

impl Question {
    fn route(&self) -> Vec<u8> {
        (0..self.bytes).map(|place| 0x80 | place as u8).collect()
    }
}

/// Lends both sides tables of an accepted file: its distances, these with one cell
/// changed, for every so manieth cell and many numbers, with cells missing, and
/// others. The answer is how many questions there were, or which one is answered
/// differently.
pub fn compare_tables<A: Side, B: Side>(file: &[u8], every: usize) -> Result<usize, String> {
    let network = A::load(file);
    if network.kind != ACCEPTED {
        return Err("the file is refused".into());
    }
    let mut right = vec![0; network.routers * network.routers];
    A::distances(file, &mut right);
    let questions = questions(&network);
    let mut asked = 0;
    for lent in whole(&right, network.routers) {
        for (question, call) in questions.iter().flat_map(|one| Call::ALL.map(|call| (one, call))) {
            ask::<A, B>(file, &right, &lent, call, question)?;
            asked += 1;
        }
    }
    let cells = (0..right.len()).step_by(every);
    for (cell, number) in cells.flat_map(|cell| changes(right[cell]).map(|to| (cell, to))) {
        let (call, question) = (Call::ALL[asked % 3], &questions[asked % questions.len()]);
        let mut lent = (format!("cell {cell} is {number}"), right.clone());
        lent.1[cell] = number;
        ask::<A, B>(file, &right, &lent, call, question)?;
        asked += 1;
    }
    Ok(asked)
}

/// Asks both sides one question. They have to answer as the rows say: by row 10 or
/// 18 where the table is too short or wrong, and else as the single call.
fn ask<A: Side, B: Side>(
    file: &[u8],
    right: &[u32],
    (name, table): &Lent,
    call: Call,
    question: &Question,
) -> Result<(), String> {
    let lent = table.clone();
    let (one, other) =
        (call.with::<A>(file, table, question), call.with::<B>(file, table, question));
    let wanted = if table.len() < right.len() {
        (Refusal::new(10, right.len()).into(), question.route())
    } else if table[..right.len()] != *right {
        (Refusal::new(18, 0).into(), question.route())
    } else {
        call.single::<A>(file, question)
    };
    let Question { link, end, prefix, .. } = question;
    let name = || format!("{call:?} of {:?} by a table: {name}", (link, end, prefix));
    if one != other {
        return Err(format!("{}: {:?} and {:?}", name(), one.0, other.0));
    }
    if one != wanted {
        return Err(format!("{}: {:?} and not {:?}", name(), one.0, wanted.0));
    }
    if *table != lent {
        return Err(format!("{}: the table is written", name()));
    }
    Ok(())
}

/// Questions that are answered, and one for each row that is tried after row 18.
fn questions(network: &Network) -> Vec<Question> {
    let Network { routers, links, prefixes, .. } = *network;
    let sound = |number: usize| Question {
        ranks: ASCENDING_RANKS.to_vec(),
        link: number * 37 % links.max(1),
        end: number % 2,
        prefix: number * 53 % prefixes.max(1),
        bytes: 2 * routers + GUARD,
    };
    let mut questions: Vec<Question> = (0..4).map(sound).collect();
    questions.push(Question { bytes: 2 * routers - 1, ..sound(4) });
    questions.push(Question { ranks: vec![0; 8], ..sound(5) });
    questions.push(Question { link: links, ..sound(6) });
    questions.push(Question { prefix: prefixes, ..sound(7) });
    questions
}

/// Tables that differ from the distances as a whole, or only after them, or have
/// fewer cells.
fn whole(right: &[u32], routers: usize) -> Vec<Lent> {
    let cells = right.len();
    let each = |name: &str, number: &dyn Fn(usize) -> u32| {
        (name.to_string(), (0..cells).map(number).collect::<Vec<u32>>())
    };
    let after =
        |name: &str, number: u32| (format!("{name} after"), [right, &[number; GUARD]].concat());
    let off = |cell: usize| u32::from(cell / routers != cell % routers);
    vec![
        ("right".into(), right.to_vec()),
        after("zeros", 0),
        after("no paths", NO_PATH),
        after("garbage", 0xc0de_0001),
        ("empty".into(), vec![]),
        ("one row".into(), right[..routers.min(cells - 1)].to_vec()),
        ("one cell missing".into(), right[..cells - 1].to_vec()),
        each("zeros", &|_| 0),
        each("no paths", &|_| NO_PATH),
        each("no paths but to itself", &|cell| off(cell) * NO_PATH),
        each("garbage", &|cell| 0xc0de_0000 + cell as u32),
        each("transposed", &|cell| right[cell % routers * routers + cell / routers]),
        each("turned by a row", &|cell| right[(cell + routers) % cells]),
        each("one more", &|cell| right[cell].wrapping_add(1)),
        each("one more off the diagonal", &|cell| right[cell].wrapping_add(off(cell))),
        each("doubled", &|cell| right[cell].wrapping_mul(2)),
        each("each in both halves", &|cell| right[cell] << 16 | right[cell] & 0xffff),
    ]
}

/// What a cell is changed into: numbers around it, numbers that have its lower bits,
/// and the ends of the ranges that a check may tell apart.
fn changes(cell: u32) -> [u32; 17] {
    [
        cell.wrapping_add(1),
        cell.wrapping_sub(1),
        cell / 2,
        cell ^ 1 << 14,
        cell ^ 1 << 15,
        cell ^ 1 << 16,
        cell ^ 1 << 24,
        cell ^ 1 << 31,
        0,
        (1 << 14) - 1,
        1 << 14,
        63 * 65_535,
        63 * 65_535 + 1,
        64 * 65_535 + 1,
        1 << 30,
        NO_PATH - 1,
        NO_PATH,
    ]
}
