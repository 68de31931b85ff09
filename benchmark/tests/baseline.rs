//! The baseline against the oracle: the same answers, and the same contents of
//! every lent buffer after each call.

use benchmark::answer::{self, Answer, Network, Space};
use benchmark::baseline::Baseline;
use benchmark::plan;
use benchmark::side::Side;
use oracle::answer::{Answer as Expected, Buffers, Opened, Outcome, Question};
use oracle::corpus;
use oracle::fault::Context;
use oracle::generate::{self, Family};
use oracle::network::Network as OracleNetwork;
use oracle::random::Random;
use oracle::row::Cause;
use oracle::table;
use std::collections::BTreeSet;

/// A number of a question: one that does not fit counts as the largest.
fn number(number: &u64) -> usize {
    usize::try_from(*number).unwrap_or(usize::MAX)
}

/// The baseline's answer as the oracle tells it.
fn told(answer: Answer) -> Expected {
    match answer.kind {
        answer::REFUSED => {
            Expected::Refused { number: answer.number as u8, value: answer.value as u32 }
        }
        answer::DONE => Expected::Done,
        answer::UNREACHABLE => Expected::Unreachable,
        answer::UNTOUCHED => Expected::Untouched,
        answer::SET => Expected::Set(answer.value),
        answer::PAIR => Expected::Pair(oracle::repair::Pair {
            first_hop: answer.first,
            endpoint: answer.endpoint,
            class: answer.pair_class,
            tunnel_cost: answer.cost,
        }),
        answer::PLAYED => Expected::Count(answer.value as usize),
        kind => panic!("kind {kind}"),
    }
}

/// The network that the oracle loaded, laid out as the baseline does.
fn laid_out(network: &OracleNetwork) -> Network {
    let mut laid = Network {
        routers: usize::from(network.routers),
        links: network.links.len(),
        prefixes: network.prefixes.len(),
        ..answer::BLANK
    };
    for (k, link) in network.links.iter().enumerate() {
        (laid.from[k], laid.to[k]) = (link.a, link.b);
        (laid.out[k], laid.back[k]) = (link.forth, link.back);
    }
    for (p, prefix) in network.prefixes.iter().enumerate() {
        laid.attached[p] = prefix.attachments.len() as u8;
        for (s, attachment) in prefix.attachments.iter().enumerate() {
            laid.at[8 * p + s] = attachment.router;
            laid.own[8 * p + s] = attachment.cost;
        }
    }
    laid
}

/// Compares the network of a file, or its refusal.
fn load_agrees(file: &[u8], expected: &Expected) -> bool {
    let loaded = Baseline::load(file);
    match expected {
        Expected::Accepted(network) => loaded == laid_out(network),
        Expected::Refused { number, value } => {
            let (number, value) = (u32::from(*number), u64::from(*value));
            loaded == Network { kind: answer::REFUSED, number, value, ..answer::BLANK }
        }
        _ => false,
    }
}

/// The baseline's text of a plan.
fn plan_agrees(file: &[u8], expected: &Expected) -> bool {
    let mut text = Vec::new();
    plan::write::<Baseline>(file, &mut [0; 64 * 64], &mut text);
    matches!(expected, Expected::Text(expected) if expected.as_bytes() == text)
}

/// Whether the baseline gives the same outcome. It has no calls for entries and
/// for the size of a set, which the benchmark does not time; `written.rs` has the
/// files that are written.
fn agrees(file: &[u8], question: &Question, lent: &Buffers, expected: &Outcome) -> bool {
    let mut left = lent.clone();
    let work = &mut left.work;
    let answer = match question {
        Question::Load => return load_agrees(file, &expected.answer),
        Question::Plan => return plan_agrees(file, &expected.answer),
        Question::LinkEntry { .. } | Question::PrefixEntry { .. } | Question::Size { .. } => {
            return true;
        }
        Question::Drill { .. } | Question::Write { .. } => return true,
        Question::Distances => Baseline::distances(file, work),
        Question::Space { space, link, end } => {
            let space = match space {
                oracle::space::Space::P => Space::P,
                oracle::space::Space::ExtendedP => Space::ExtendedP,
                oracle::space::Space::Q => Space::Q,
            };
            Baseline::space(space, file, work, number(link), number(end))
        }
        Question::LinkRepair { .. } | Question::PrefixRepair { .. } | Question::Route { .. } => {
            match question.table() {
                Some(table) => second_call(file, table, question, &mut left.route),
                None => single_call(file, question, &mut left),
            }
        }
    };
    told(answer) == expected.answer && left == expected.left
}

/// A repair or a route of the baseline, with a work area.
fn single_call(file: &[u8], question: &Question, left: &mut Buffers) -> Answer {
    let work = &mut left.work;
    match question {
        Question::LinkRepair { ranks, link, end, .. } => {
            Baseline::link_repair(file, work, ranks, number(link), number(end))
        }
        Question::PrefixRepair { ranks, link, end, prefix, .. } => {
            Baseline::prefix_repair(file, work, ranks, number(link), number(end), number(prefix))
        }
        Question::Route { ranks, link, end, prefix, choices, .. } => {
            let asked = (number(link), number(end), number(prefix));
            Baseline::route(file, work, ranks, asked, choices, &mut left.route)
        }
        _ => panic!("{question:?} is neither"),
    }
}

/// The same with a table.
fn second_call(file: &[u8], table: &[u32], question: &Question, route: &mut [u8]) -> Answer {
    match question {
        Question::LinkRepair { ranks, link, end, .. } => {
            Baseline::link_repair_with(file, table, ranks, number(link), number(end))
        }
        Question::PrefixRepair { ranks, link, end, prefix, .. } => {
            let (link, end, prefix) = (number(link), number(end), number(prefix));
            Baseline::prefix_repair_with(file, table, ranks, link, end, prefix)
        }
        Question::Route { ranks, link, end, prefix, choices, .. } => {
            let asked = (number(link), number(end), number(prefix));
            Baseline::route_with(file, table, ranks, asked, choices, route)
        }
        _ => panic!("{question:?} is neither"),
    }
}

/// The files of the oracle's own corpus: every cause of every row at several
/// places, causes of two rows at once, random bytes, limits, small networks.
/// All of their questions are asked, with buffers of all lengths.
#[test]
fn the_corpus_has_the_same_outcomes() {
    let sound = Context::sound();
    let mut rows = BTreeSet::new();
    for case in corpus::cases(20_260_101) {
        let opened = Opened::new(&sound, &case.file);
        for (question, lent) in &case.questions {
            let expected = opened.ask(question, lent);
            if let Expected::Refused { number, .. } = expected.answer {
                rows.insert(number);
            }
            assert!(
                agrees(&case.file, question, lent, &expected),
                "{}: {question:?}: {:?}",
                case.name,
                expected.answer
            );
        }
    }
    let all: BTreeSet<u8> = Cause::ALL.iter().map(|cause| cause.row()).collect();
    assert_eq!(rows, all, "every row has refused something");
}

/// Random networks of every family, all questions of each.
#[test]
fn random_networks_have_the_same_outcomes() {
    let sound = Context::sound();
    let random = &mut Random::new(7);
    for round in 0..16 {
        for family in Family::ALL {
            let network = generate::network(*family, if round < 13 { 10 } else { 24 }, random);
            let file = oracle::file::write(&network);
            let routers = usize::from(network.routers);
            let lent = corpus::marked(routers * routers + 1, 2 * routers + 1);
            let opened = Opened::new(&sound, &file);
            for question in corpus::valid_questions(&network, random) {
                let expected = opened.ask(&question, &lent);
                assert!(agrees(&file, &question, &lent, &expected), "{family:?}: {question:?}");
            }
        }
    }
}

/// Tables of every kind, in each call that takes one, on random networks of every family.
/// The last are the right ones with cells replaced at random.
#[test]
fn tables_have_the_same_outcomes() {
    let sound = Context::sound();
    let random = &mut Random::new(27);
    for (most, family) in
        [4, 12, 64].iter().flat_map(|most| Family::ALL.iter().map(move |f| (*most, *f)))
    {
        let network = generate::network(family, most, random);
        let file = oracle::file::write(&network);
        let opened = Opened::new(&sound, &file);
        let lent = corpus::marked(3, 2 * usize::from(network.routers));
        let mut tables: Vec<_> = table::tables(&network).into_iter().map(|one| one.cells).collect();
        if most < 64 {
            tables.extend(table::one_cell_off(&network).into_iter().map(|one| one.cells));
        }
        tables.extend((0..20).map(|_| table::changed(&network, random)));
        for (cells, question) in tables.iter().flat_map(|one| calls().map(|call| (one, call))) {
            let question = question.with_table(cells);
            let expected = opened.ask(&question, &lent);
            assert!(agrees(&file, &question, &lent, &expected), "{family:?}: {question:?}");
        }
    }
}

/// The three calls that take ranks, about link 0, end 0 and prefix 0.
fn calls() -> [Question; 3] {
    [Question::link_repair(0, 0), Question::prefix_repair(0, 0, 0), Question::route(0, 0, 0, &[])]
}

/// Every arrangement where each class has a pair, and 1,000 on each other network made by
/// hand.
#[test]
fn arrangements_have_the_same_outcomes() {
    let sound = Context::sound();
    for (name, network) in oracle::worked::all() {
        let tables = match name {
            "node, eight classes" | "four classes" => oracle::ranks::arrangements(),
            _ => oracle::ranks::random_tables(1000, 9),
        };
        let file = oracle::file::write(&network);
        let opened = Opened::new(&sound, &file);
        let lent = corpus::marked(4096, 128);
        for (ranks, question) in tables.iter().flat_map(|ranks| calls().map(|call| (ranks, call))) {
            let question = question.with_ranks(ranks);
            let expected = opened.ask(&question, &lent);
            assert!(agrees(&file, &question, &lent, &expected), "{name}: {question:?}");
        }
    }
}

/// Every wrong table, in each call that takes ranks.
#[test]
fn wrong_ranks_have_the_same_outcomes() {
    let (sound, file) = (Context::sound(), oracle::file::write(&oracle::worked::four_classes()));
    let opened = Opened::new(&sound, &file);
    let lent = corpus::marked(17, 9);
    for ranks in oracle::ranks::wrong_tables() {
        for question in calls() {
            let question = question.with_ranks(&ranks);
            let expected = opened.ask(&question, &lent);
            assert_eq!(expected.answer, Expected::Refused { number: 15, value: 0 });
            assert!(agrees(&file, &question, &lent, &expected), "{question:?}");
        }
    }
}
