//! The questions about a file: all there are, those at the limits of numbers
//! and lengths, and those about a file that is refused. And those that write a
//! file. Those by ranks of every kind are in `ranked`.

use crate::compare::Asked;
use crate::ranked::other_ranks;
use oracle::answer::Question;
use oracle::corpus::wrongly_ranked_too;
use oracle::fault::Context;
use oracle::network::Network;
use oracle::random::Random;
use oracle::ranks::ASCENDING;
use oracle::space::Space;
use oracle::workings::Workings;
use oracle::write_questions;

/// Every question with numbers in range, for each prefix question that many
/// routes; the repairs with the ranks ascending, and then once more, with one
/// route, by another arrangement. The plan comes last: it shows again what the
/// link repairs show.
pub fn whole(network: &Network, routes: usize, random: &mut Random) -> Vec<Asked> {
    let mut questions = about_the_file(network, random);
    let workings = Workings::of(&Context::sound(), network.clone());
    for (link, end) in link_ends(network) {
        questions.extend(link_questions(link, end));
        let link_repair = Question::link_repair(link, end);
        let other = other_ranks(&workings, &link_repair, random);
        questions.push(link_repair.with_ranks(&other));
        for prefix in 0..network.prefixes.len() as u64 {
            let prefix_repair = Question::prefix_repair(link, end, prefix);
            let other = other_ranks(&workings, &prefix_repair, random);
            for (ranks, routes) in [(ASCENDING, routes), (other, 1)] {
                questions.push(prefix_repair.clone().with_ranks(&ranks));
                for _ in 0..routes {
                    let choices = choices(network, random);
                    let route = Question::route(link, end, prefix, &choices);
                    questions.push(route.with_ranks(&ranks));
                }
            }
        }
    }
    questions.push(Question::Plan);
    lent(network, questions, random)
}

/// Questions that write a file, drills and networks of every kind.
pub fn writing(random: &mut Random) -> Vec<Asked> {
    let asked = write_questions::questions(random).into_iter();
    asked.map(|(question, length)| Asked::of_buffer(question, length)).collect()
}

/// What the file alone decides: load, distances, sizes, and every entry.
pub fn reading(network: &Network, random: &mut Random) -> Vec<Asked> {
    lent(network, about_the_file(network, random), random)
}

/// Questions with buffers that are just enough or a little longer.
pub(crate) fn lent(network: &Network, questions: Vec<Question>, random: &mut Random) -> Vec<Asked> {
    let (cells, bytes) = enough(network);
    let mut lend =
        |question| Asked::of_file(question, cells + random.below(3), bytes + random.below(3));
    questions.into_iter().map(&mut lend).collect()
}

fn about_the_file(network: &Network, random: &mut Random) -> Vec<Question> {
    let mut questions = vec![Question::Load, Question::Distances];
    let one_bit = 1 << random.below(64);
    let sets = [0, 1, 1 << 63, u64::MAX, one_bit, random.any(), random.any() & random.any()];
    questions.extend(sets.map(|set| Question::Size { set }));
    let links = 0..network.links.len() as u64;
    questions.extend(links.map(|link| Question::LinkEntry { link }));
    let prefixes = 0..network.prefixes.len() as u64;
    questions.extend(prefixes.map(|prefix| Question::PrefixEntry { prefix }));
    questions
}

/// Some choice bytes: often too few for the route, sometimes none.
pub(crate) fn choices(network: &Network, random: &mut Random) -> Vec<u8> {
    let most = 2 * usize::from(network.routers);
    let count = match random.below(4) {
        0 => 0,
        1 => random.below(4),
        _ => random.below(most + 1),
    };
    random.bytes(count)
}

/// Numbers about a count: in range, just out of it, at the largest value, and
/// such that their lower 8, 16 or 32 bits are in range.
pub(crate) fn numbers_about(count: usize) -> Vec<u64> {
    let count = count as u64;
    let mut numbers = vec![0, count.saturating_sub(1), count, count + 1, 256, 1 << 16, 1 << 32];
    numbers.extend([u64::from(u32::MAX), 1 << 63, u64::MAX - 1, u64::MAX]);
    numbers.sort_unstable();
    numbers.dedup();
    numbers
}

/// Every mixture of numbers in range and out of it, with buffers that are
/// enough and with ranks of both kinds, and the entries of such numbers.
pub fn numbers_at_limits(network: &Network, random: &mut Random) -> Vec<Asked> {
    let (cells, bytes) = enough(network);
    let links = numbers_about(network.links.len());
    let prefixes = numbers_about(network.prefixes.len());
    let mut questions: Vec<Question> = Vec::new();
    questions.extend(links.iter().map(|link| Question::LinkEntry { link: *link }));
    questions.extend(prefixes.iter().map(|prefix| Question::PrefixEntry { prefix: *prefix }));
    for link in &links {
        for end in [0, 1, 2, 256, 1 << 32, u64::MAX] {
            questions.extend(link_questions(*link, end));
            for prefix in &prefixes {
                questions.extend(prefix_questions(*link, end, *prefix));
            }
        }
    }
    let questions = wrongly_ranked_too(questions, random).into_iter();
    questions.map(|question| Asked::of_file(question, cells, bytes)).collect()
}

/// Every mixture of buffer lengths: none, one short, exact, and longer; with
/// questions in range and out of it, and with ranks of both kinds.
pub fn lengths_at_limits(network: &Network, random: &mut Random) -> Vec<Asked> {
    let (cells, bytes) = enough(network);
    let (links, prefixes) = (network.links.len(), network.prefixes.len());
    let mut asked = Vec::new();
    for cells in [0, cells - 1, cells, cells + 1, cells + 100] {
        for bytes in [0, bytes - 1, bytes, bytes + 1, bytes + 100] {
            let link = random.below(links) as u64;
            let prefix = random.below(prefixes) as u64;
            let end = random.below(2) as u64;
            let questions = mixed(link, links as u64, end, prefix, prefixes as u64);
            for question in wrongly_ranked_too(questions, random) {
                asked.push(Asked::of_file(question, cells, bytes));
            }
        }
    }
    asked
}

/// Each call, with each number in range and just out of it.
fn mixed(link: u64, links: u64, end: u64, prefix: u64, prefixes: u64) -> Vec<Question> {
    let mut questions = vec![Question::Load, Question::Distances, Question::LinkEntry { link }];
    for (link, end) in [(link, end), (links, end), (link, 2)] {
        questions.extend(link_questions(link, end));
        for prefix in [prefix, prefixes] {
            questions.extend(prefix_questions(link, end, prefix));
        }
    }
    questions
}

/// Each call about a refused file, single and second, with buffers that are enough for
/// any file, with short ones, and with none.
pub fn of_refused(random: &mut Random) -> Vec<Asked> {
    let mut asked = Vec::new();
    for (cells, bytes) in [(4096, 128), (5, 5), (0, 0)] {
        let number = random.pick(&[0, 0, 1, 500, u64::MAX]);
        let mut questions = vec![
            Question::Load,
            Question::LinkEntry { link: number },
            Question::PrefixEntry { prefix: number },
            Question::Distances,
        ];
        questions.extend(link_questions(number, random.below(3) as u64));
        questions.extend(prefix_questions(number, random.below(3) as u64, number));
        let mut questions = wrongly_ranked_too(questions, random);
        // The same put as second calls. Of no file is a distance from a router to itself 7.
        let split = questions.iter().filter(|question| question.ranks().is_some());
        let second = split.map(|question| question.clone().with_table(&vec![7; cells]));
        let second: Vec<Question> = second.collect();
        questions.extend(second);
        asked.extend(questions.into_iter().map(|question| Asked::of_file(question, cells, bytes)));
    }
    asked.push(Asked::of_file(Question::Plan, 0, 0));
    asked
}

pub(crate) fn link_ends(network: &Network) -> impl Iterator<Item = (u64, u64)> {
    (0..network.links.len() as u64).flat_map(|link| [(link, 0), (link, 1)])
}

fn link_questions(link: u64, end: u64) -> Vec<Question> {
    let spaces = Space::ALL.iter().map(|space| Question::Space { space: *space, link, end });
    spaces.chain([Question::link_repair(link, end)]).collect()
}

pub(crate) fn prefix_questions(link: u64, end: u64, prefix: u64) -> [Question; 2] {
    let choices = [1, 2, 3, 4, 5, 6, 7, 8];
    [Question::prefix_repair(link, end, prefix), Question::route(link, end, prefix, &choices)]
}

/// Cells and bytes that are just enough.
pub(crate) fn enough(network: &Network) -> (usize, usize) {
    let routers = usize::from(network.routers);
    (routers * routers, 2 * routers)
}
