//! Many files with their questions, asked of both sides by several threads.

use crate::call::{Planner, Told};
use crate::compare::{Asked, Compared, Heard, compare};
use crate::coverage::Coverage;
use crate::files::NamedFile;
use crate::legs::{Pairs, walk_told};
use crate::networks::Named;
use crate::questions;
use crate::ranked;
use crate::routes::{Asking, Rules, follow_heard};
use crate::tabled;
use crate::threads::each;
use oracle::answer::{Opened, Question, load};
use oracle::fault::{Context, Fault};
use oracle::file::write;
use oracle::network::Network;
use oracle::random::Random;
use oracle::text;

/// Which questions are asked about an accepted file.
#[derive(Clone, Copy, Debug)]
pub enum Breadth {
    /// Every link, end and prefix, with so many routes for each.
    Whole(usize),
    /// Numbers and lengths at their limits.
    Limits,
    /// What the file alone decides.
    Reading,
    /// Every link, end and prefix by every arrangement of ranks that decides.
    DecidingRanks,
    /// Link 0, end 0 by so many arrangements of ranks at random.
    RandomRanks(usize),
    /// Link 0, end 0 by all arrangements of ranks.
    AllRanks,
    /// Every wrong table of ranks.
    WrongRanks,
    /// Second calls by tables of every kind.
    Tables,
    /// Questions that write a file; the one of the case gives their seed alone.
    Writing,
}

/// A file and what is asked about it. Both follow from seeds.
pub struct Case {
    pub name: String,
    pub file: Vec<u8>,
    breadth: Breadth,
    seed: u64,
}

impl Case {
    /// The case of a file. The seed of its questions follows from its bytes, so
    /// that a case is the same whatever cases stand before it.
    pub fn of_file(file: NamedFile, breadth: Breadth) -> Case {
        let seed = seed_of(&file.bytes);
        Case { name: file.name, file: file.bytes, breadth, seed }
    }

    /// The case of a network.
    pub fn of_network(named: Named, breadth: Breadth) -> Case {
        let bytes = write(&named.network);
        Case::of_file(NamedFile { name: named.name, bytes }, breadth)
    }

    /// A case of questions that write files, from a seed.
    pub fn of_writing(seed: u8) -> Case {
        let file = NamedFile { name: format!("writing, seed {seed}"), bytes: vec![seed] };
        Case::of_file(file, Breadth::Writing)
    }

    /// The network, if the file is accepted.
    pub fn network(&self) -> Option<Network> {
        load(&Context::sound(), &self.file).ok()
    }

    /// The questions: the same each time.
    pub fn asked(&self) -> Vec<Asked> {
        let random = &mut Random::new(self.seed);
        match (self.network(), self.breadth) {
            (_, Breadth::WrongRanks) => ranked::every_wrong_table(random),
            (_, Breadth::Writing) => questions::writing(random),
            (None, _) => questions::of_refused(random),
            (Some(network), Breadth::Whole(routes)) => questions::whole(&network, routes, random),
            (Some(network), Breadth::Reading) => questions::reading(&network, random),
            (Some(network), Breadth::Limits) => {
                let mut asked = questions::numbers_at_limits(&network, random);
                asked.extend(questions::lengths_at_limits(&network, random));
                asked.extend(tabled::numbers_at_limits(&network, random));
                asked.extend(tabled::lengths_at_limits(&network, random));
                asked
            }
            (Some(network), Breadth::Tables) => tabled::by_tables(&network, random),
            (Some(network), Breadth::DecidingRanks) => ranked::by_deciding_ranks(&network, random),
            (Some(network), Breadth::RandomRanks(count)) => {
                ranked::by_random_ranks(&network, count, random)
            }
            (Some(network), Breadth::AllRanks) => ranked::by_all_ranks(&network, random),
        }
    }

    /// The file for a report: the text of its network, or its bytes.
    fn shown(&self) -> String {
        match self.network() {
            Some(network) => text::of_network(&network),
            None => format!("{:?}", self.file),
        }
    }
}

/// The seed that follows from the bytes of a file.
pub(crate) fn seed_of(bytes: &[u8]) -> u64 {
    bytes.iter().fold(0, |seed: u64, byte| seed * 31 % 1_000_003 + u64::from(*byte))
}

/// What a run found.
#[derive(Debug, Default)]
pub struct Report {
    pub files: u64,
    pub calls: u64,
    /// Routes that were followed hop by hop.
    pub routes: u64,
    pub hops: u64,
    /// Pairs of which every walk of both legs was followed.
    pub pairs: Pairs,
    pub coverage: Coverage,
    /// Each difference in words, with the file and the question.
    pub differences: Vec<String>,
}

impl Report {
    fn add(&mut self, other: Report) {
        self.files += other.files;
        self.calls += other.calls;
        self.routes += other.routes;
        self.hops += other.hops;
        self.pairs.add(&other.pairs);
        self.coverage.add(&other.coverage);
        self.differences.extend(other.differences);
    }

    /// Fails if there is a difference, and shows the first.
    pub fn assert_same(&self) {
        let count = self.differences.len();
        assert!(count == 0, "{count} cases differ; the first:\n{}", self.differences[0]);
    }

    /// Fails if something of these was not met.
    pub fn assert_met(&self, things: &[String]) {
        let missing = self.coverage.missing(things);
        assert!(missing.is_empty(), "the run did not meet: {missing:?}");
    }

    /// The numbers of the run in one line.
    pub fn summary(&self) -> String {
        let Report { files, calls, routes, hops, .. } = self;
        format!("{files} files, {calls} calls compared, {routes} routes of {hops} hops followed")
    }
}

/// Compares every call of every case. Each case is the work of one thread and
/// stops at its first difference.
pub fn run(planner: &dyn Planner, cases: &[Case]) -> Report {
    let mut whole = Report::default();
    for report in each(cases, |case| run_case(planner, case)) {
        whole.add(report);
    }
    whole
}

fn run_case(planner: &dyn Planner, case: &Case) -> Report {
    let ctx = Context::sound();
    let [all_in_use, passed, no_four] =
        [Fault::NOTHING_LEFT_OUT, Fault::AttachedPassed, Fault::NodeNotLookedAt]
            .map(|as_before| Context::with(&[as_before]));
    let opened = Opened::new(&ctx, &case.file);
    let before_maintenance = Opened::new(&all_in_use, &case.file);
    let before_attached = Opened::new(&passed, &case.file);
    let before_node = Opened::new(&no_four, &case.file);
    let network = case.network().unwrap_or_default();
    let rules = Rules::of(&network);
    let mut report = Report { files: 1, ..Report::default() };
    let mut pairs = LastPair::default();
    for asked in case.asked() {
        let compared = compare(planner, &opened, &case.file, &asked);
        report.calls += 1;
        report.coverage.call(&opened, &asked, &compared.expected);
        report.coverage.maintenance(&opened, &before_maintenance, &asked, &compared.expected);
        report.coverage.attached(&opened, &before_attached, &asked, &compared.expected);
        report.coverage.ranks(&opened, &asked, &compared.expected);
        report.coverage.node(&opened, &before_node, &asked, &compared.expected);
        report.coverage.tables(&opened, &asked, &compared.expected);
        pairs.remember(&asked.question, &compared.heard.told);
        let wrong = match &compared.difference {
            Some(difference) => Some(difference.clone()),
            None => wrong_route(&rules, &mut report, &pairs, &asked, &compared).or_else(|| {
                let told = &compared.heard.told;
                walk_told(&rules, &asked.question, told, &mut report.pairs).err()
            }),
        };
        if let Some(wrong) = wrong {
            let shown = case.shown();
            report.differences.push(format!("{}: {asked:?}: {wrong}\n{shown}", case.name));
            break;
        }
    }
    report
}

/// The pair that the planner told last. A route follows the prefix repair of
/// the same question, so that its pair is known. A second call has the pair of the
/// single call.
#[derive(Default)]
struct LastPair {
    question: Option<Question>,
    pair: (usize, usize),
}

impl LastPair {
    fn remember(&mut self, question: &Question, told: &Told) {
        if let (Question::PrefixRepair { .. }, Told::Pair { first, endpoint, .. }) =
            (question, told)
        {
            self.question = Some(question.clone().single());
            self.pair = (*first as usize, *endpoint as usize);
        }
    }
}

/// What is wrong with a played route, if one was played and a rule is broken.
fn wrong_route(
    rules: &Rules,
    report: &mut Report,
    pairs: &LastPair,
    asked: &Asked,
    compared: &Compared,
) -> Option<String> {
    let Heard { told: Told::Played(count), .. } = compared.heard else {
        return None;
    };
    let Question::Route { ranks, link, end, prefix, choices, .. } = &asked.question else {
        return Some("a question that is no route was played".to_string());
    };
    let repair = Question::prefix_repair(*link, *end, *prefix).with_ranks(ranks);
    if pairs.question != Some(repair) {
        return Some("a route was played where no pair was told".to_string());
    }
    let (pair, link, prefix) = (pairs.pair, *link as usize, *prefix as usize);
    let asking = Asking { link, end: *end, prefix, pair, choices };
    match follow_heard(rules, &asking, &compared.heard, count) {
        Ok(met) => {
            report.routes += 1;
            report.hops += met.hops as u64;
            report.coverage.route(&met);
            None
        }
        Err(broken) => Some(format!("the route breaks a rule: {broken}")),
    }
}
