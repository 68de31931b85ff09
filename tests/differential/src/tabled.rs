//! Second calls by tables of every kind, with single calls beside them, and with tables
//! and numbers at their limits.

use crate::compare::Asked;
use crate::kinds::{self, Kind, Made};
use crate::questions::{choices, enough, link_ends, numbers_about};
use oracle::answer::Question;
use oracle::network::Network;
use oracle::random::Random;
use oracle::ranks::{ASCENDING, Arrangement, WRONG, random_table};
use oracle::table;

/// Every link, end and prefix by tables of the file's distances, and tables that are not
/// the file's or too short, with questions of every kind.
pub fn by_tables(network: &Network, random: &mut Random) -> Vec<Asked> {
    let mut asked = single_and_second(network, random);
    for made in kinds::other(network, random).iter().chain(&kinds::short(network)) {
        asked.extend(with_anything(network, made, random));
    }
    asked.extend(single_with_anything(network, random));
    asked.extend(one_cell_off(network, random));
    asked
}

/// The repairs of every link, end and prefix, and a route for each prefix: the single
/// call and then the second, whose tables are of each right kind by turns. The largest
/// networks have too many of them, so that only the first are asked.
fn single_and_second(network: &Network, random: &mut Random) -> Vec<Asked> {
    const MOST: usize = 400;
    let (cells_of_work, bytes) = enough(network);
    let right = kinds::right(network, random);
    let mut tables = right.iter().cycle();
    let mut asked = Vec::new();
    for question in right_questions(network, random).into_iter().take(MOST) {
        let (kind, cells) = tables.next().expect("the distances at least");
        let bytes = bytes + random.below(3);
        asked.push(Asked::of_file(question.clone(), cells_of_work, bytes));
        asked.push(Asked::by_table(question, *kind, cells, bytes));
    }
    asked
}

/// The repairs of every link, end and prefix, and a route for each prefix, by ascending
/// ranks or by any others.
pub fn right_questions(network: &Network, random: &mut Random) -> Vec<Question> {
    let mut questions = Vec::new();
    for (link, end) in link_ends(network) {
        questions.push(Question::link_repair(link, end).with_ranks(&some_ranks(random)));
        for prefix in 0..network.prefixes.len() as u64 {
            let ranks = some_ranks(random);
            let route = Question::route(link, end, prefix, &choices(network, random));
            questions.push(Question::prefix_repair(link, end, prefix).with_ranks(&ranks));
            questions.push(route.with_ranks(&ranks));
        }
    }
    questions
}

fn some_ranks(random: &mut Random) -> Arrangement {
    if random.one_in(2) { ASCENDING } else { random_table(random) }
}

/// The three calls about anything, each with the bytes of its route buffer. Link, end,
/// prefix, ranks and route buffer are sound, or now and then one of them is not, so that
/// each row comes next somewhere.
fn about_anything(network: &Network, random: &mut Random) -> [(Question, usize); 3] {
    let (_, enough) = enough(network);
    let (links, prefixes) = (network.links.len(), network.prefixes.len());
    let [short, unranked, no_link, no_prefix] = [(); 4].map(|()| random.one_in(6));
    let (link, end) = (random.below(links) as u64, random.below(2) as u64);
    let (link, end) =
        if no_link { random.pick(&[(links as u64, end), (link, 2)]) } else { (link, end) };
    let prefix = if no_prefix { prefixes } else { random.below(prefixes) } as u64;
    let ranks = some_ranks(random);
    let ranks = if unranked { random.pick(&WRONG) } else { &ranks };
    let bytes = if short { enough - 1 } else { enough };
    calls(link, end, prefix, ranks).map(|question| (question, bytes))
}

/// The three calls about anything with one table.
fn with_anything(network: &Network, (kind, cells): &Made, random: &mut Random) -> Vec<Asked> {
    let asked = about_anything(network, random);
    asked.map(|(question, bytes)| Asked::by_table(question, *kind, cells, bytes)).into()
}

/// Single calls about anything: one that is refused by a row after 10 may not fill its
/// work area before, as a first call would.
fn single_with_anything(network: &Network, random: &mut Random) -> Vec<Asked> {
    let (cells, _) = enough(network);
    let asked = (0..8).flat_map(|_| about_anything(network, random));
    asked.map(|(question, bytes)| Asked::of_file(question, cells, bytes)).collect()
}

/// Tables with one cell one off: the three calls by turns, and in the smallest networks
/// all three.
fn one_cell_off(network: &Network, random: &mut Random) -> Vec<Asked> {
    const ALL_THREE: u8 = 4;
    let (_, bytes) = enough(network);
    let link = random.below(network.links.len()) as u64;
    let prefix = random.below(network.prefixes.len()) as u64;
    let calls = calls(link, random.below(2) as u64, prefix, &ASCENDING);
    let mut asked = Vec::new();
    for (number, (kind, cells)) in kinds::one_off(network, random).into_iter().enumerate() {
        let some =
            if network.routers <= ALL_THREE { &calls[..] } else { &calls[number % 3..][..1] };
        let by = |question: &Question| Asked::by_table(question.clone(), kind, &cells, bytes);
        asked.extend(some.iter().map(by));
    }
    asked
}

/// The three calls. A route follows the prefix repair of the same question.
fn calls(link: u64, end: u64, prefix: u64, ranks: &[u8]) -> [Question; 3] {
    let route = Question::route(link, end, prefix, &[1, 2, 3, 4, 5, 6, 7, 8]);
    [Question::link_repair(link, end), Question::prefix_repair(link, end, prefix), route]
        .map(|question| question.with_ranks(ranks))
}

/// Tables of lengths at their limits: none, one short, exact, one more, as many as the
/// largest network needs, and one more than that. Their cells are the file's or not, the
/// other inputs are sound or not.
pub fn lengths_at_limits(network: &Network, random: &mut Random) -> Vec<Asked> {
    let right = table::right(network);
    let cells = right.len();
    let mut asked = Vec::new();
    for length in [0, cells - 1, cells, cells + 1, 4096, 4097] {
        for other in [false, true] {
            let table = of_length(&right, length, other, random);
            asked.extend(in_range_and_out(network, &table, random));
        }
    }
    asked
}

/// The first cells of the right table, or all and some after it; with one of the cells
/// that count changed, if another table is meant.
fn of_length(right: &[u32], length: usize, other: bool, random: &mut Random) -> Vec<u32> {
    let mut cells: Vec<u32> = right.iter().copied().take(length).collect();
    if other && !cells.is_empty() {
        let place = random.below(cells.len());
        cells[place] ^= 1 << random.below(32);
    }
    cells.resize_with(length, || random.any() as u32);
    cells
}

/// The three calls with one table: numbers, ranks and route buffer in range and out.
fn in_range_and_out(network: &Network, table: &[u32], random: &mut Random) -> Vec<Asked> {
    let (_, bytes) = enough(network);
    let (links, prefixes) = (network.links.len() as u64, network.prefixes.len() as u64);
    let (link, prefix) =
        (random.below(links as usize) as u64, random.below(prefixes as usize) as u64);
    let mut asked = Vec::new();
    for (link, prefix) in [(link, prefix), (links, prefix), (link, prefixes)] {
        for ranks in [&ASCENDING[..], random.pick(&WRONG)] {
            let [repair, prefix, route] = calls(link, random.below(2) as u64, prefix, ranks);
            let questions = [(repair, bytes), (prefix, bytes), (route.clone(), bytes)];
            let short = (route, bytes - 1);
            let by =
                |(each, bytes): (Question, usize)| Asked::of_file(each.with_table(table), 0, bytes);
            asked.extend(questions.into_iter().chain([short]).map(by));
        }
    }
    asked
}

/// Some of the mixtures of numbers in range and out of it, with the right table.
pub fn numbers_at_limits(network: &Network, random: &mut Random) -> Vec<Asked> {
    const ONE_IN: usize = 12;
    let (cells, bytes) = (table::right(network), enough(network).1);
    let prefixes = numbers_about(network.prefixes.len());
    let mut asked = Vec::new();
    for link in numbers_about(network.links.len()) {
        for end in [0, 1, 2, 256, 1 << 32, u64::MAX] {
            for prefix in prefixes.iter().filter(|_| random.one_in(ONE_IN)) {
                let calls = calls(link, end, *prefix, &ASCENDING);
                asked.extend(
                    calls.map(|each| Asked::by_table(each, Kind::Distances, &cells, bytes)),
                );
            }
        }
    }
    asked
}
