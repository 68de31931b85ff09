//! Files with questions about them, made from a seed: enough of them that
//! every fault that can be seen changes an answer or a buffer somewhere.

use crate::answer::{Buffers, Opened, Outcome, Question, load};
use crate::damage::{self, Damage};
use crate::fault::Context;
use crate::file::{BLOCK, LARGEST, write};
use crate::generate::{self, Family};
use crate::network::Network;
use crate::random::Random;
use crate::ranks::{ASCENDING, Arrangement, DESCENDING, WRONG, deciding_tables, random_table};
use crate::repair::serving_classes;
use crate::row::Cause;
use crate::space::Space;
use crate::table_questions;
use crate::worked;
use crate::workings::Workings;
use crate::write_questions;

/// A file with the questions about it, each with the buffers lent to it.
pub struct Case {
    pub name: String,
    pub file: Vec<u8>,
    pub questions: Vec<(Question, Buffers)>,
}

impl Case {
    /// A case; the questions follow from the file.
    pub fn new(name: String, file: Vec<u8>, random: &mut Random) -> Case {
        let questions = match load(&Context::sound(), &file) {
            Ok(network) => questions(&network, random),
            Err(_) => questions_of_refused(random),
        };
        Case { name, file, questions }
    }

    /// The outcome of every question.
    pub fn outcomes(&self, ctx: &Context) -> Vec<Outcome> {
        let opened = Opened::new(ctx, &self.file);
        self.questions.iter().map(|(question, lent)| opened.ask(question, lent)).collect()
    }

    /// The first question whose outcome is not the expected one.
    pub fn first_difference(&self, ctx: &Context, expected: &[Outcome]) -> Option<&Question> {
        let opened = Opened::new(ctx, &self.file);
        let mut asked = self.questions.iter().zip(expected);
        let differs =
            asked.find(|((question, lent), expected)| opened.ask(question, lent) != **expected);
        differs.map(|((question, _), _)| question)
    }
}

/// Buffers of these lengths whose contents a call would hardly write: every
/// cell and every byte shows its place.
pub fn marked(cells: usize, bytes: usize) -> Buffers {
    Buffers {
        work: (0..cells).map(|place| 0xc0de_0000 + place as u32).collect(),
        route: (0..bytes).map(|place| 0x80 | (place % 128) as u8).collect(),
        made: Vec::new(),
    }
}

/// All cases of a seed, those that take the least time first.
pub fn cases(seed: u64) -> Vec<Case> {
    let random = &mut Random::new(seed);
    let mut files: Vec<(String, Vec<u8>)> = Vec::new();
    files.extend(worked::all().into_iter().map(|(name, network)| (name.into(), write(&network))));
    files.extend(lengths());
    files.extend(single_causes(random));
    files.extend(causes_of_neighbouring_rows(random));
    files.extend(causes_at_two_places(random));
    files.extend(random_damage(random));
    files.extend(random_networks(random));
    files.extend(edges());
    files.push(("the largest size".into(), write(&generate::largest(random))));
    let of_files = files.into_iter().map(|(name, file)| Case::new(name, file, random));
    [written_files(seed)].into_iter().chain(of_files).collect()
}

/// The questions that look at no file, in one case.
fn written_files(seed: u64) -> Case {
    let lend = |(question, length): (Question, usize)| {
        let made = (0..length).map(|place| 0x80 | (place % 128) as u8).collect();
        (question, Buffers { made, ..Buffers::default() })
    };
    let questions = write_questions::questions(&mut Random::new(seed)).into_iter().map(lend);
    let file = write(&worked::lone_router());
    Case { name: "files that are written".into(), file, questions: questions.collect() }
}

/// Files of zeros of the lengths about row 1's limits.
fn lengths() -> Vec<(String, Vec<u8>)> {
    let lengths = [0, 1, BLOCK - 1, BLOCK, BLOCK + 1, LARGEST, LARGEST + 1, LARGEST + BLOCK];
    lengths.map(|length| (format!("{length} zeros"), vec![0; length])).to_vec()
}

/// Networks at the limits, on both sides of each. The links are all the
/// networks need: nothing but the limit is broken.
pub fn edges() -> Vec<(String, Vec<u8>)> {
    let line = |routers: u8| {
        let pairs = (1..routers).map(|r| (r - 1, r));
        pairs.fold(Network::of_routers(routers), |network, (a, b)| network.link(a, b, 1, 1))
    };
    let with_links = |count: usize| {
        let pairs = (0..64).flat_map(|b| (0..b).map(move |a| (a, b)));
        pairs.take(count).fold(Network::of_routers(64), |network, (a, b)| network.link(a, b, 1, 1))
    };
    let with_prefixes = |mut network: Network, count: usize| {
        for router in 0..count {
            network = network.prefix(&[((router % 64) as u8, 0)]);
        }
        network
    };
    let attached = |count: u8| {
        let slots: Vec<(u8, u16)> = (0..count).map(|router| (router, 5)).collect();
        line(9).prefix(&slots).prefix(&[(0, 0)])
    };
    let of_cost = |cost| line(3).link(0, 2, cost, 1).prefix(&[(2, cost)]);
    let of_cost_back = |cost| line(3).link(0, 2, 1, cost).prefix(&[(1, cost)]);
    let mut files: Vec<(String, Network)> = Vec::new();
    for routers in [0, 1, 2, 63, 64, 65, 255] {
        files.push((format!("a line of {routers} routers"), line(routers)));
    }
    for links in [83, 84, 85, 127, 128, 129, 168, 169] {
        files.push((format!("{links} links"), with_links(links)));
    }
    for prefixes in [13, 14, 15, 127, 128, 129, 140, 141] {
        files.push((format!("{prefixes} prefixes"), with_prefixes(line(64), prefixes)));
    }
    for attachments in [0, 1, 7, 8, 9] {
        files.push((format!("{attachments} attachments"), attached(attachments)));
    }
    for cost in [0, 1, 65_534, 65_535] {
        files.push((format!("cost {cost}"), of_cost(cost)));
        files.push((format!("cost {cost} back"), of_cost_back(cost)));
    }
    files.push(("13 blocks".into(), with_prefixes(with_links(128), 128)));
    files.push(("14 blocks by links".into(), with_prefixes(with_links(169), 128)));
    files.push(("14 blocks by prefixes".into(), with_prefixes(with_links(128), 141)));
    files.into_iter().map(|(name, network)| (name, write(&network))).collect()
}

/// A network that every cause can be given to: several blocks of each kind.
pub fn network_to_damage(random: &mut Random) -> Network {
    let routers = random.between(20, 40);
    let links = random.between(90, 120);
    let prefixes = random.between(16, 40);
    generate::sized(routers, links, prefixes, random)
}

fn single_causes(random: &mut Random) -> Vec<(String, Vec<u8>)> {
    let mut files = Vec::new();
    for cause in damage::causes() {
        for round in 0..4 {
            let mut damage = Damage::to(&network_to_damage(random));
            let place = if round == 0 { 0 } else { random.below(1000) };
            damage.cause(cause, place);
            files.push((format!("damage {cause:?} at {place}"), damage.finish()));
        }
    }
    files
}

fn causes_of_neighbouring_rows(random: &mut Random) -> Vec<(String, Vec<u8>)> {
    let causes = damage::causes();
    let mut files = Vec::new();
    for first in &causes {
        for second in causes.iter().filter(|second| second.row() == first.row() + 1) {
            let mut damage = Damage::to(&network_to_damage(random));
            damage.cause(*first, random.below(1000));
            damage.cause(*second, random.below(1000));
            files.push((format!("damage {first:?} and {second:?}"), damage.finish()));
        }
    }
    files
}

fn causes_at_two_places(random: &mut Random) -> Vec<(String, Vec<u8>)> {
    let mut files = Vec::new();
    let repeatable = |cause: &Cause| [2, 5, 6, 7, 8, 9].contains(&cause.row());
    for cause in damage::causes().into_iter().filter(repeatable) {
        let mut damage = Damage::to(&network_to_damage(random));
        damage.cause(cause, random.below(1000));
        damage.cause(cause, random.below(1000));
        files.push((format!("damage {cause:?} twice"), damage.finish()));
    }
    files
}

fn random_networks(random: &mut Random) -> Vec<(String, Vec<u8>)> {
    let mut files = Vec::new();
    for round in 0..12 {
        for family in Family::ALL {
            let most = if round < 10 { 9 } else { 16 };
            let network = generate::network(*family, most, random);
            files.push((format!("{family:?} {round}"), write(&network)));
        }
    }
    files
}

fn random_damage(random: &mut Random) -> Vec<(String, Vec<u8>)> {
    let mut files = Vec::new();
    for round in 0..40 {
        let network = network_to_damage(random);
        files.push((format!("random damage {round}"), damage::random_file(&network, random)));
        files.push((format!("random blocks {round}"), damage::random_blocks(random)));
        let length = random.pick(&[BLOCK, 2 * BLOCK, 100]);
        files.push((format!("random bytes {round}"), random.bytes(length)));
    }
    files
}

/// The questions about an accepted file: every one that can be asked, up to a
/// number that is enough for a small network; then those about buffers and
/// numbers at their limits; then second calls.
pub fn questions(network: &Network, random: &mut Random) -> Vec<(Question, Buffers)> {
    const MOST: usize = 400;
    let cells = usize::from(network.routers) * usize::from(network.routers);
    let bytes = 2 * usize::from(network.routers);
    let mut valid = valid_questions(network, random);
    if valid.len() > MOST {
        random.shuffle(&mut valid);
        valid.truncate(MOST);
    }
    let mut asked: Vec<(Question, Buffers)> = valid
        .into_iter()
        .map(|question| (question, marked(cells + random.below(3), bytes + random.below(3))))
        .collect();
    asked.extend(questions_at_limits(network, random));
    let second = table_questions::questions(network, &asked);
    asked.extend(second);
    asked
}

/// Every single call about an accepted file with numbers in range. A repair is
/// asked for with the ranks ascending and with two other arrangements, a route
/// with one of these and three strings of choices.
pub fn valid_questions(network: &Network, random: &mut Random) -> Vec<Question> {
    let workings = Workings::of(&Context::sound(), network.clone());
    let (links, prefixes) = (network.links.len() as u64, network.prefixes.len() as u64);
    let mut questions = vec![Question::Load, Question::Plan, Question::Distances];
    questions.extend([0, 1, u64::MAX, random.any()].map(|set| Question::Size { set }));
    questions.extend((0..links).map(|link| Question::LinkEntry { link }));
    questions.extend((0..prefixes).map(|prefix| Question::PrefixEntry { prefix }));
    for (link, end) in (0..links).flat_map(|link| [(link, 0), (link, 1)]) {
        questions.extend(Space::ALL.iter().map(|space| Question::Space {
            space: *space,
            link,
            end,
        }));
        let link_repair = Question::link_repair(link, end);
        let tables = some_ranks(&workings, &link_repair, random);
        questions.extend(tables.map(|ranks| link_repair.clone().with_ranks(&ranks)));
        for prefix in 0..prefixes {
            let prefix_repair = Question::prefix_repair(link, end, prefix);
            let tables = some_ranks(&workings, &prefix_repair, random);
            questions.extend(tables.map(|ranks| prefix_repair.clone().with_ranks(&ranks)));
            let short = random.below(4);
            let long = 2 * usize::from(network.routers);
            for count in [0, short, long] {
                let choices = random.bytes(count);
                let route = Question::route(link, end, prefix, &choices);
                questions.push(route.with_ranks(&random.pick(&tables)));
            }
        }
    }
    questions
}

/// The ranks ascending, any arrangement, and one that decides the question if there is
/// such.
pub fn some_ranks(
    workings: &Workings,
    question: &Question,
    random: &mut Random,
) -> [Arrangement; 3] {
    let mut deciding = deciding_tables(&serving_classes(workings, question));
    deciding.push(random_table(random));
    let decides = random.below(deciding.len().max(2) - 1);
    [ASCENDING, random_table(random), deciding[decides]]
}

/// Questions with buffers, ranks and numbers just inside and just outside.
fn questions_at_limits(network: &Network, random: &mut Random) -> Vec<(Question, Buffers)> {
    let cells = usize::from(network.routers) * usize::from(network.routers);
    let enough = marked(cells, 2 * usize::from(network.routers));
    let mut questions = numbers_at_limits(network, random);
    questions.extend(every_kind_of_ranks(network, random));
    let mut asked: Vec<(Question, Buffers)> =
        questions.into_iter().map(|question| (question, enough.clone())).collect();
    asked.extend(lengths_at_limits(network, random));
    asked
}

/// Every mixture of numbers in range and out of it, with ranks of both kinds.
fn numbers_at_limits(network: &Network, random: &mut Random) -> Vec<Question> {
    let (links, prefixes) = (network.links.len() as u64, network.prefixes.len() as u64);
    let too_large = |count: u64| [count, count.saturating_add(1), u64::MAX];
    let mut questions: Vec<Question> = Vec::new();
    questions.extend(too_large(links).map(|link| Question::LinkEntry { link }));
    questions.extend(too_large(prefixes).map(|prefix| Question::PrefixEntry { prefix }));
    let about = |count: u64| [0, count.saturating_sub(1), count, u64::MAX];
    for link in about(links) {
        for end in [0, 1, 2, u64::MAX] {
            let mixture = any_questions(link, end, &about(prefixes));
            questions.extend(wrongly_ranked_too(mixture, random));
        }
    }
    questions
}

/// Every mixture of buffer lengths, for a question in range and one out, with
/// ranks of both kinds.
fn lengths_at_limits(network: &Network, random: &mut Random) -> Vec<(Question, Buffers)> {
    let (links, prefixes) = (network.links.len(), network.prefixes.len());
    let cells = usize::from(network.routers) * usize::from(network.routers);
    let bytes = 2 * usize::from(network.routers);
    let mut asked = Vec::new();
    for cells in [0, cells - 1, cells, cells + 3] {
        for bytes in [0, bytes - 1, bytes, bytes + 3] {
            let (link, end) = (random.below(links) as u64, random.below(2) as u64);
            let prefix = random.below(prefixes) as u64;
            let mut questions = vec![Question::Distances];
            for link in [link, links as u64] {
                questions.extend(any_questions(link, end, &[prefix, prefixes as u64]));
            }
            let questions = wrongly_ranked_too(questions, random).into_iter();
            asked.extend(questions.map(|question| (question, marked(cells, bytes))));
        }
    }
    asked
}

/// For each call that takes ranks, about link 0, end 0 and prefix 0: arrangements that
/// decide it in every way, some others, and every kind of wrong table.
fn every_kind_of_ranks(network: &Network, random: &mut Random) -> Vec<Question> {
    let workings = Workings::of(&Context::sound(), network.clone());
    let others = [DESCENDING, random_table(random), random_table(random)];
    let questions = any_questions(0, 0, &[0]).into_iter().filter(|each| each.ranks().is_some());
    let ranked = |question: Question| {
        let deciding = deciding_tables(&serving_classes(&workings, &question));
        let sound = deciding.iter().chain(&others).map(|ranks| &ranks[..]);
        let all = sound.chain(WRONG).map(|ranks| question.clone().with_ranks(ranks));
        all.collect::<Vec<Question>>()
    };
    questions.flat_map(ranked).collect()
}

/// The questions as they are, and then those that take ranks with wrong ones.
pub fn wrongly_ranked_too(mut questions: Vec<Question>, random: &mut Random) -> Vec<Question> {
    let takes_ranks = questions.iter().filter(|question| question.ranks().is_some());
    let wrongly = takes_ranks.cloned().map(|question| question.with_ranks(random.pick(&WRONG)));
    let wrongly: Vec<Question> = wrongly.collect();
    questions.extend(wrongly);
    questions
}

/// Each call about a link and an end, the prefix calls with each of some prefixes.
fn any_questions(link: u64, end: u64, prefixes: &[u64]) -> Vec<Question> {
    let about_prefixes = prefixes.iter().flat_map(|prefix| prefix_questions(link, end, *prefix));
    link_questions(link, end).into_iter().chain(about_prefixes).collect()
}

fn link_questions(link: u64, end: u64) -> Vec<Question> {
    let spaces = Space::ALL.iter().map(|space| Question::Space { space: *space, link, end });
    spaces.chain([Question::link_repair(link, end)]).collect()
}

fn prefix_questions(link: u64, end: u64, prefix: u64) -> [Question; 2] {
    let choices = [1, 2, 3, 4, 5, 6, 7, 8];
    [Question::prefix_repair(link, end, prefix), Question::route(link, end, prefix, &choices)]
}

/// One question of each kind, with buffers that are enough and with none.
fn questions_of_refused(random: &mut Random) -> Vec<(Question, Buffers)> {
    let number = random.pick(&[0, 0, 0, 500]);
    let mut questions = vec![
        Question::Load,
        Question::Plan,
        Question::LinkEntry { link: number },
        Question::PrefixEntry { prefix: number },
        Question::Distances,
    ];
    questions.extend(wrongly_ranked_too(any_questions(number, 0, &[number]), random));
    let split = questions.iter().filter(|question| question.ranks().is_some());
    let second: Vec<Question> = split.map(|each| each.clone().with_table(&[0; 4])).collect();
    questions.extend(second);
    let lend = |question: Question| [(question.clone(), marked(5, 5)), (question, marked(0, 0))];
    questions.into_iter().flat_map(lend).collect()
}
