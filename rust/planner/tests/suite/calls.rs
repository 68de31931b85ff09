//! Every call against the oracle, with all that it leaves in the lent buffers: the stored cases,
//! the hand-worked networks, the edges of the limits, random networks and damaged files.

use oracle::answer::{Answer, Buffers, Question};
use oracle::columns::Columns;
use oracle::corpus::{self, Case};
use oracle::fault::Context;
use oracle::network as theirs;
use oracle::random::Random;
use oracle::repair::Pair as TheirPair;
use oracle::space::Space;
use oracle::stored::cases::Cases;
use planner::{Network, Pair, Played, Refusal, Repair, Set};

fn refused(refusal: Refusal) -> Answer {
    let Refusal { number, value } = refusal;
    Answer::Refused { number: number.try_into().unwrap(), value: value.try_into().unwrap() }
}

/// The network as the oracle writes it.
fn accepted(network: Network) -> Answer {
    let mut same = theirs::Network::of_routers(network.routers().try_into().unwrap());
    for link in network.links() {
        same = same.link(link.a, link.b, link.out, link.back);
    }
    for prefix in network.prefixes() {
        let attachments = prefix.attachments().iter();
        let attachments: Vec<(u8, u16)> = attachments.map(|at| (at.router, at.cost)).collect();
        same = same.prefix(&attachments);
    }
    Answer::Accepted(same)
}

fn pair(pair: Pair) -> Answer {
    Answer::Pair(TheirPair {
        first_hop: pair.first.into(),
        endpoint: pair.endpoint.into(),
        class: pair.class.into(),
        tunnel_cost: pair.cost,
    })
}

fn repair(repair: Repair) -> Answer {
    match repair {
        Repair::Unreachable => Answer::Unreachable,
        Repair::Untouched => Answer::Untouched,
        Repair::Pair(found) => pair(found),
    }
}

fn played(played: Played) -> Answer {
    match played {
        Played::Unreachable => Answer::Unreachable,
        Played::Untouched => Answer::Untouched,
        Played::Written(count) => Answer::Count(count),
    }
}

/// The bytes of an entry. The oracle tells their place as well, which is left out here.
fn part<const BYTES: usize>(entry: Option<[u8; BYTES]>) -> Answer {
    Answer::Part { offset: 0, bytes: entry.map_or(Vec::new(), |bytes| bytes.to_vec()) }
}

/// A network by value as the crate has it, or none where it is outside the limits: the crate makes
/// no such network.
fn ours(columns: &Columns) -> Option<Network> {
    let text = oracle::text::of_network(&columns.network());
    planner::text::parse(&text).ok().filter(|_| columns.in_room())
}

fn number(number: u64) -> usize {
    number.try_into().unwrap()
}

/// The planner's answer to a second call, which has a table in place of the work area.
fn second(
    file: &[u8],
    table: &[u32],
    question: &Question,
    route: &mut [u8],
) -> Result<Answer, Refusal> {
    match *question {
        Question::LinkRepair { ref ranks, link, end, .. } => {
            planner::link_repair_with(file, table, ranks, number(link), number(end)).map(pair)
        }
        Question::PrefixRepair { ref ranks, link, end, prefix, .. } => {
            let (link, end, prefix) = (number(link), number(end), number(prefix));
            planner::prefix_repair_with(file, table, ranks, link, end, prefix).map(repair)
        }
        Question::Route { ref ranks, link, end, prefix, ref choices, .. } => {
            let (link, end, prefix) = (number(link), number(end), number(prefix));
            planner::route_with(file, table, ranks, link, end, prefix, choices, route).map(played)
        }
        _ => panic!("repairs and routes alone have a table"),
    }
}

/// The planner's answer to a question, or none where it has no such call.
fn asked(file: &[u8], question: &Question, lent: &mut Buffers) -> Option<Answer> {
    if let Some(table) = question.table() {
        let answer = second(file, table, question, &mut lent.route);
        return Some(answer.unwrap_or_else(refused));
    }
    let work = &mut lent.work;
    let answer = match *question {
        Question::Load => planner::load(file).map(accepted),
        Question::LinkEntry { link } => Ok(part(planner::link_entry(file, number(link)))),
        Question::PrefixEntry { prefix } => Ok(part(planner::prefix_entry(file, number(prefix)))),
        Question::Distances => planner::distances(file, work).map(|()| Answer::Done),
        Question::Space { space, link, end } => {
            let call = match space {
                Space::P => planner::p_space,
                Space::ExtendedP => planner::extended_p_space,
                Space::Q => planner::q_space,
            };
            call(file, work, number(link), number(end)).map(|set| Answer::Set(set.0))
        }
        Question::Size { set } => Ok(Answer::Size(Set(set).size())),
        Question::LinkRepair { ref ranks, link, end, .. } => {
            planner::link_repair(file, work, ranks, number(link), number(end)).map(pair)
        }
        Question::PrefixRepair { ref ranks, link, end, prefix, .. } => {
            let (link, end, prefix) = (number(link), number(end), number(prefix));
            planner::prefix_repair(file, work, ranks, link, end, prefix).map(repair)
        }
        Question::Route { ref ranks, link, end, prefix, ref choices, .. } => {
            let (link, end, prefix) = (number(link), number(end), number(prefix));
            let route = &mut lent.route;
            planner::route(file, work, ranks, link, end, prefix, choices, route).map(played)
        }
        Question::Drill { seed, routers } => {
            Ok(Answer::Written(planner::drill(seed, number(routers), &mut lent.made)))
        }
        Question::Write { ref network } => {
            let count = planner::write(&ours(network)?, &mut lent.made);
            Ok(Answer::Written(count))
        }
        Question::Plan => return None,
    };
    Some(answer.unwrap_or_else(refused))
}

/// Asks every question of a case and compares. Gives the number of questions.
fn compare(case: &Case) -> usize {
    let mut count = 0;
    for ((question, lent), mut expected) in
        case.questions.iter().zip(case.outcomes(&Context::sound()))
    {
        let mut left = lent.clone();
        let Some(answer) = asked(&case.file, question, &mut left) else {
            continue;
        };
        if let Answer::Part { offset, .. } = &mut expected.answer {
            *offset = 0;
        }
        assert_eq!(answer, expected.answer, "{}: {question:?}", case.name);
        assert_eq!(left, expected.left, "{}: {question:?}", case.name);
        count += 1;
    }
    count
}

#[test]
fn stored_cases() {
    let cases = Cases::read(&oracle::stored::root()).expect("the texts of the repository");
    let random = &mut Random::new(1);
    let mut count = 0;
    for case in cases.networks.into_iter().chain(cases.reader).chain(cases.examples) {
        count += compare(&Case::new(case.name, case.file, random));
    }
    assert!(count > 10_000, "{count} questions");
}

#[test]
fn worked_random_and_damaged_networks() {
    let count: usize = corpus::cases(2).iter().map(compare).sum();
    assert!(count > 10_000, "{count} questions");
}
