//! Questions by ranks of every kind: arrangements that decide, some at random, all, and
//! tables that are none.

use crate::compare::Asked;
use crate::questions::{choices, lent, link_ends, prefix_questions};
use oracle::answer::Question;
use oracle::corpus::some_ranks;
use oracle::fault::Context;
use oracle::network::Network;
use oracle::random::Random;
use oracle::ranks::{
    ASCENDING, Arrangement, DESCENDING, arrangements, deciding_tables, random_table, wrong_tables,
};
use oracle::repair::serving_classes;
use oracle::workings::Workings;

/// Any arrangement, or one that decides the question.
pub(crate) fn other_ranks(
    workings: &Workings,
    question: &Question,
    random: &mut Random,
) -> Arrangement {
    let [_, any, deciding] = some_ranks(workings, question, random);
    random.pick(&[any, deciding])
}

/// Every link, end and prefix: by ascending and descending ranks, by some at random, and
/// by every arrangement that decides the question. One route for each.
pub fn by_deciding_ranks(network: &Network, random: &mut Random) -> Vec<Asked> {
    let workings = Workings::of(&Context::sound(), network.clone());
    let mut questions = Vec::new();
    for question in repairs(network) {
        let mut tables = vec![ASCENDING, DESCENDING, random_table(random), random_table(random)];
        tables.extend(deciding_tables(&serving_classes(&workings, &question)));
        questions.extend(by_tables(network, &question, &tables, random));
    }
    lent(network, questions, random)
}

/// The repairs and routes of link 0, end 0, by so many arrangements at random.
pub fn by_random_ranks(network: &Network, count: usize, random: &mut Random) -> Vec<Asked> {
    let tables: Vec<Arrangement> = (0..count).map(|_| random_table(random)).collect();
    of_first_link(network, &tables, random)
}

/// The same by all arrangements.
pub fn by_all_ranks(network: &Network, random: &mut Random) -> Vec<Asked> {
    of_first_link(network, &arrangements(), random)
}

fn of_first_link(network: &Network, tables: &[Arrangement], random: &mut Random) -> Vec<Asked> {
    let first = |question: &Question| match *question {
        Question::LinkRepair { link, end, .. } | Question::PrefixRepair { link, end, .. } => {
            (link, end) == (0, 0)
        }
        _ => false,
    };
    let asked = repairs(network).into_iter().filter(first);
    let questions = asked.flat_map(|question| by_tables(network, &question, tables, random));
    let questions: Vec<Question> = questions.collect();
    lent(network, questions, random)
}

/// The repair of every link and end, and of every prefix for each.
fn repairs(network: &Network) -> Vec<Question> {
    let mut questions = Vec::new();
    for (link, end) in link_ends(network) {
        questions.push(Question::link_repair(link, end));
        let prefixes = 0..network.prefixes.len() as u64;
        questions.extend(prefixes.map(|prefix| Question::prefix_repair(link, end, prefix)));
    }
    questions
}

/// A repair by some arrangements, that of a prefix with a route for each.
fn by_tables(
    network: &Network,
    question: &Question,
    tables: &[Arrangement],
    random: &mut Random,
) -> Vec<Question> {
    let mut questions = Vec::new();
    for ranks in tables {
        questions.push(question.clone().with_ranks(ranks));
        if let Question::PrefixRepair { link, end, prefix, .. } = *question {
            let route = Question::route(link, end, prefix, &choices(network, random));
            questions.push(route.with_ranks(ranks));
        }
    }
    questions
}

/// Every wrong table, in each call that takes ranks, with buffers that are
/// enough for any file. The link and the prefix may be in range or not.
pub fn every_wrong_table(random: &mut Random) -> Vec<Asked> {
    let mut asked = Vec::new();
    for ranks in wrong_tables() {
        let link = random.pick(&[0, 0, 1, u64::MAX]);
        let prefix = random.pick(&[0, 0, 1, u64::MAX]);
        let mut questions = vec![Question::link_repair(link, 0)];
        questions.extend(prefix_questions(link, 0, prefix));
        let ranked = questions.into_iter().map(|question| question.with_ranks(&ranks));
        asked.extend(ranked.map(|question| Asked::of_file(question, 4096, 128)));
    }
    asked
}
