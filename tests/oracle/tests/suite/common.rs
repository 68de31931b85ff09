//! What several tests share.

use oracle::answer::{Answer, Outcome, Question, ask};
use oracle::batch::enough;
use oracle::corpus::{Case, marked};
use oracle::fault::{Context, Fault};
use oracle::file::write;
use oracle::generate::{Family, network};
use oracle::network::Network;
use oracle::random::Random;
use oracle::repair::Pair;
use oracle::space::Space;
use oracle::stored;
use oracle::stored::cases::Cases;

/// The outcome of a question about a network, with buffers that are enough.
pub fn ask_network(network: &Network, question: &Question) -> Outcome {
    let routers = usize::from(network.routers);
    let lent = marked(routers * routers, 2 * routers);
    ask(&Context::sound(), &write(network), question, &lent)
}

/// The answer of a planner with a fault, with buffers that are enough.
pub fn wrongly(fault: Fault, network: &Network, question: &Question) -> Answer {
    ask(&Context::with(&[fault]), &write(network), question, &enough()).answer
}

/// The networks, by name, about which a planner with a fault answers some question
/// otherwise. No other question shows the fault than those that may.
pub fn noticed_by(
    fault: Fault,
    networks: &[(&'static str, Network)],
    may_show: &dyn Fn(&Question) -> bool,
) -> Vec<&'static str> {
    let ctx = Context::with(&[fault]);
    let shows = |(name, network): &&(&'static str, Network)| {
        let case = Case::new(name.to_string(), write(network), &mut Random::new(1));
        let sound = case.outcomes(&Context::sound());
        let asked = case.questions.iter().zip(sound).zip(case.outcomes(&ctx));
        let differing = asked.filter(|((_, sound), wrong)| sound != wrong);
        let questions: Vec<&Question> = differing.map(|(((question, _), _), _)| question).collect();
        let other = questions.iter().find(|question| !may_show(question));
        assert!(other.is_none(), "{name}: {}: {other:?}", fault.name());
        !questions.is_empty()
    };
    let by: Vec<&str> = networks.iter().filter(shows).map(|(name, _)| *name).collect();
    println!("{} is noticed by {by:?}", fault.name());
    by
}

/// The answer of the load call.
pub fn load(file: &[u8]) -> Answer {
    ask(&Context::sound(), file, &Question::Load, &marked(0, 0)).answer
}

/// The answers to the three space questions: P, extended P, Q.
pub fn spaces(network: &Network, link: u64, end: u64) -> [Answer; 3] {
    [Space::P, Space::ExtendedP, Space::Q]
        .map(|space| ask_network(network, &Question::Space { space, link, end }).answer)
}

pub fn link_repair(network: &Network, link: u64, end: u64) -> Answer {
    ask_network(network, &Question::link_repair(link, end)).answer
}

pub fn prefix_repair(network: &Network, link: u64, end: u64, prefix: u64) -> Answer {
    ask_network(network, &Question::prefix_repair(link, end, prefix)).answer
}

/// The routers that a route call writes.
pub fn route(network: &Network, link: u64, end: u64, prefix: u64, choices: &[u8]) -> Vec<u8> {
    let outcome = ask_network(network, &Question::route(link, end, prefix, choices));
    let Answer::Count(count) = outcome.answer else {
        panic!("no route but {:?}", outcome.answer);
    };
    outcome.left.route[..count].to_vec()
}

/// A set of routers as an answer.
pub fn set(routers: &[u32]) -> Answer {
    Answer::Set(routers.iter().map(|r| 1u64 << r).sum())
}

/// A pair as an answer.
pub fn pair(first_hop: usize, endpoint: usize, class: u32, tunnel_cost: u32) -> Answer {
    Answer::Pair(Pair { first_hop, endpoint, class, tunnel_cost })
}

/// A refusal as an answer.
pub fn refused(number: u8, value: u32) -> Answer {
    Answer::Refused { number, value }
}

/// Random networks of every family with at most so many routers.
pub fn random_networks(rounds: usize, most_routers: usize, seed: u64) -> Vec<Network> {
    let mut random = Random::new(seed);
    let families = (0..rounds).flat_map(|_| Family::ALL);
    families.map(|family| network(*family, most_routers, &mut random)).collect()
}

/// Random networks of every family, and four times as many with dear attachments.
pub fn dearly_attached(rounds: usize, most_routers: usize, seed: u64) -> Vec<Network> {
    let mut random = Random::new(seed);
    let mut networks = random_networks(rounds, most_routers, seed);
    for _ in 0..4 * rounds {
        let attached = Family::ATTACHED.iter();
        networks.extend(attached.map(|family| network(*family, most_routers, &mut random)));
    }
    networks
}

/// Every link and end of a network.
pub fn link_ends(network: &Network) -> impl Iterator<Item = (u64, u64)> {
    (0..network.links.len() as u64).flat_map(|link| [(link, 0), (link, 1)])
}

/// The stored texts of the repository.
pub fn stored_cases() -> Cases {
    Cases::read(&stored::root()).expect("the stored texts are good")
}

/// The accepted file that the stored text of a name makes.
pub fn stored_file<'a>(cases: &'a Cases, name: &str) -> &'a [u8] {
    let case = cases.networks.iter().find(|case| case.name == name);
    &case.unwrap_or_else(|| panic!("there is no text {name}")).file
}
