//! Packets for one prefix over links of which some have failed: each router sends them on
//! by usual steps and by neighbour repairs that are downstream, in any mixture. No packet
//! visits a router twice, and none has N hops.
//!
//! Which sends there are is found three times: by the oracle; by the rules of document 01
//! written out once more; and, as far as its answers go, by asking a planner.

use crate::call::{Planner, Told};
use crate::campaign::seed_of;
use crate::compare::{Asked, Heard, ask};
use crate::coverage::Coverage;
use crate::legs::Target;
use crate::networks::Named;
use crate::questions::{choices, link_ends};
use crate::routes::{Rules, attached};
use oracle::answer::Question;
use oracle::failures::{End, Sending, Sends, Trail, Way, over_first_hop};
use oracle::fault::Context;
use oracle::file::write;
use oracle::network::Prefix;
use oracle::random::Random;
use oracle::ranks::random_table;
use oracle::repair::asked_about;
use oracle::text;
use oracle::workings::Workings;
use std::collections::BTreeSet;

/// Things that packets meet.
pub mod thing {
    pub const DELIVERED: &str = "packet: delivered";
    pub const DROPPED: &str = "packet: dropped";
    pub const STEPS_ALONE: &str = "packet: usual steps alone, at least one";
    pub const STEP_AND_REPAIR: &str = "packet: a usual step and a repair";
    pub const CLASS_0: &str = "packet: a repair of class 0";
    pub const CLASS_4: &str = "packet: a repair of class 4";
    pub const TWO_REPAIRS: &str = "packet: two repairs or more";
    pub const TWO_OF_FAILED: &str = "packet: two repairs or more of links that have failed";
    pub const OF_FAILED: &str = "packet: a repair of a link that has failed";
    pub const TO_FAR: &str = "packet: a repair of class 4, and later a visit to its far router";
    pub const PASSED_BY: &str = "packet: past a failed link, over which it might have been sent";
    pub const NONE_FAILED: &str = "packet: no link has failed";
    pub const HALF_FAILED: &str = "packet: half of the links or more have failed";

    /// All of them.
    pub const ALL: [&str; 13] = [
        DELIVERED,
        DROPPED,
        STEPS_ALONE,
        STEP_AND_REPAIR,
        CLASS_0,
        CLASS_4,
        TWO_REPAIRS,
        TWO_OF_FAILED,
        OF_FAILED,
        TO_FAR,
        PASSED_BY,
        NONE_FAILED,
        HALF_FAILED,
    ];
}

/// What a run found.
#[derive(Debug, Default)]
pub struct Report {
    /// Questions put to a planner.
    pub calls: u64,
    /// Routes that it played by a neighbour repair that is downstream.
    pub routes: u64,
    /// Sends that follow from its answers, each counted once.
    pub answers: u64,
    pub packets: u64,
    pub hops: u64,
    /// The hops of the longest trail.
    pub longest: usize,
    pub coverage: Coverage,
    /// What is wrong, each in words with the network.
    pub wrong: Vec<String>,
}

impl Report {
    /// Adds those of another part of a run.
    pub fn add(&mut self, other: Report) {
        self.calls += other.calls;
        self.routes += other.routes;
        self.answers += other.answers;
        self.packets += other.packets;
        self.hops += other.hops;
        self.longest = self.longest.max(other.longest);
        self.coverage.add(&other.coverage);
        self.wrong.extend(other.wrong);
    }

    /// The numbers of the run in one line.
    pub fn summary(&self) -> String {
        let Report { calls, routes, answers, packets, hops, longest, .. } = self;
        format!(
            "{packets} packets of {hops} hops, {longest} at most; {calls} calls, \
             {answers} sends of their answers, {routes} routes"
        )
    }

    /// Counts one packet, and notes what is wrong with it.
    fn packet(&mut self, named: &Named, prefix: u64, trail: &Trail, failed: &[bool]) {
        self.packets += 1;
        self.hops += trail.sends.len() as u64;
        self.longest = self.longest.max(trail.sends.len());
        for thing in met(named, trail, failed) {
            self.coverage.met(thing, 1);
        }
        if let Err(wrong) = keeps_the_promise(named, trail, failed) {
            let failed: Vec<usize> = (0..failed.len()).filter(|link| failed[*link]).collect();
            let sent = format!("{:?}, by {:?}", trail.routers(), ways(trail));
            let what = format!("{wrong}: {sent}; failed links {failed:?}");
            self.wrong.push(in_words(named, prefix, &what));
        }
    }
}

/// Something that is wrong, with the network and the prefix.
fn in_words(named: &Named, prefix: u64, what: &str) -> String {
    format!("{}: prefix {prefix}: {what}\n{}", named.name, text::of_network(&named.network))
}

fn ways(trail: &Trail) -> Vec<Way> {
    trail.sends.iter().map(|sending| sending.way).collect()
}

/// The promise: no router twice, and fewer than N hops. And that the trail is one: each
/// hop leaves where the one before came to, over a link that has not failed.
fn keeps_the_promise(named: &Named, trail: &Trail, failed: &[bool]) -> Result<(), String> {
    let routers = trail.routers();
    let different: BTreeSet<&usize> = routers.iter().collect();
    let hops = trail.sends.iter().map(|sending| sending.hop);
    if trail.end == End::Twice || different.len() < routers.len() {
        return Err("a packet visits a router twice".to_string());
    }
    if routers.len() > usize::from(named.network.routers) {
        return Err("a packet has N hops or more".to_string());
    }
    if hops.zip(&routers).any(|(hop, from)| hop.from != *from || failed[hop.link()]) {
        return Err("a packet goes where it cannot".to_string());
    }
    Ok(())
}

/// What one packet met.
fn met(named: &Named, trail: &Trail, failed: &[bool]) -> Vec<&'static str> {
    let repairs = trail.repairs();
    let steps = trail.sends.len() - repairs.len();
    let of_class = |class| repairs.iter().any(|repair| repair.1 == class);
    let of_failed = trail.sends.iter().filter(|sending| repairs_failed(named, sending, failed));
    let of_failed = of_failed.count();
    let failures = failed.iter().filter(|failed| **failed).count();
    let things = [
        (thing::DELIVERED, trail.end == End::Delivered),
        (thing::DROPPED, trail.end == End::Dropped),
        (thing::STEPS_ALONE, steps > 0 && repairs.is_empty()),
        (thing::STEP_AND_REPAIR, steps > 0 && !repairs.is_empty()),
        (thing::CLASS_0, of_class(0)),
        (thing::CLASS_4, of_class(4)),
        (thing::TWO_REPAIRS, repairs.len() > 1),
        (thing::TWO_OF_FAILED, of_failed > 1),
        (thing::OF_FAILED, of_failed > 0),
        (thing::TO_FAR, comes_to_far(trail)),
        (thing::PASSED_BY, trail.passed_by > 0),
        (thing::NONE_FAILED, failures == 0),
        (thing::HALF_FAILED, failures > 0 && 2 * failures >= failed.len()),
    ];
    things.into_iter().filter(|(_, met)| *met).map(|(thing, _)| thing).collect()
}

/// Whether a send is the repair of a link that has failed.
fn repairs_failed(named: &Named, sending: &Sending, failed: &[bool]) -> bool {
    let Way::Repair { far, .. } = sending.way else {
        return false;
    };
    let ends = [sending.hop.from, far];
    let joins = |a: u8, b: u8| ends == [a, b].map(usize::from) || ends == [b, a].map(usize::from);
    let mut links = named.network.links.iter().zip(failed);
    links.any(|(link, failed)| *failed && joins(link.a, link.b))
}

/// Whether a packet visits the far router of a repair of class 4 after it.
fn comes_to_far(trail: &Trail) -> bool {
    let repaired = |place: usize| match trail.sends[place].way {
        Way::Repair { far, class: 4 } => {
            trail.sends[place..].iter().any(|sending| sending.hop.to == far)
        }
        _ => false,
    };
    (0..trail.sends.len()).any(repaired)
}

/// Sends packets for a prefix, each from any router that sends something on, and over links
/// of which any set has failed: none, few, many or all.
fn send_packets(
    (named, prefix): (&Named, u64),
    sends: &Sends,
    packets: usize,
    random: &mut Random,
    report: &mut Report,
) {
    let routers = 0..usize::from(named.network.routers);
    let starts: Vec<usize> = routers.filter(|x| !sends.at(*x).is_empty()).collect();
    let packets = if starts.is_empty() { 0 } else { packets };
    let links = named.network.links.len();
    for _ in 0..packets {
        let most = random.below(links + 1);
        let mut failed: Vec<bool> = vec![false; links];
        failed[..random.below(most + 1)].fill(true);
        random.shuffle(&mut failed);
        let trail = sends.trail(random.pick(&starts), &failed, random);
        report.packet(named, prefix, &trail, &failed);
    }
}

/// So many packets for each prefix of a network by all sends that the oracle finds. They
/// are those of the rules, unless the oracle has a fault, and lead no packet round.
pub fn by_oracle(ctx: &Context, named: &Named, packets: usize) -> Report {
    let workings = Workings::of(ctx, named.network.clone());
    let rules = Rules::of(&named.network);
    let random = &mut Random::new(seed_of(&write(&named.network)));
    let mut report = Report::default();
    for (prefix, number) in named.network.prefixes.iter().zip(0..) {
        let sends = Sends::of(&workings, number);
        if told(&sends) != rules.sends(prefix) {
            report.wrong.push(in_words(named, number, "the rules have other sends"));
        }
        if !sends.endless().is_empty() {
            report.wrong.push(in_words(named, number, "some sends lead round"));
        }
        send_packets((named, number), &sends, packets, random, &mut report);
    }
    report
}

/// Sends as routers and ways.
fn told(sends: &Sends) -> BTreeSet<(usize, usize, Way)> {
    sends.all().map(|sending| (sending.hop.from, sending.hop.to, sending.way)).collect()
}

impl Rules<'_> {
    /// Every send for a prefix: from where, to where, and by what.
    fn sends(&self, prefix: &Prefix) -> BTreeSet<(usize, usize, Way)> {
        let mut sends = BTreeSet::new();
        for s in (0..self.routers()).filter(|s| !attached(prefix, *s)) {
            let steps = self.next_routers(s, |z| self.to_prefix(z, prefix));
            sends.extend(steps.into_iter().map(|z| (s, z, Way::Step)));
            for far in self.neighbours(s) {
                let repairs = self.downstream(prefix, (s, far)).into_iter();
                let way = |class| Way::Repair { far, class };
                sends.extend(repairs.map(|(n, class)| (s, n, way(class))));
            }
        }
        sends
    }

    /// The neighbour repairs that are downstream, for one link and end: the first hop and
    /// the class. Every walk from it arrives and misses the link; it is nearer than S.
    fn downstream(&self, prefix: &Prefix, (s, e): (usize, usize)) -> Vec<(usize, u32)> {
        let nearer = |n: &usize| self.to_prefix(*n, prefix) < self.to_prefix(s, prefix);
        let first_hops = self.first_hops(s, e).into_iter().filter(nearer);
        let serving = first_hops.filter_map(|n| {
            let visits = self.both_legs((n, n), Target::Prefix(prefix), (s, e)).ok()?;
            Some((n, if visits { 4 } else { 0 }))
        });
        serving.collect()
    }
}

/// How much is asked of a planner and sent by its answers.
#[derive(Clone, Debug)]
pub struct Asking {
    /// The oracle that its answers are held against.
    pub ctx: Context,
    /// The classes of the neighbour repairs that routers send by.
    pub classes: Vec<u32>,
    /// Tables of ranks for each link, end and prefix.
    pub tables: usize,
    /// Packets for each prefix.
    pub packets: usize,
}

/// So many packets for each prefix of a network by usual steps and by what a planner
/// answers to the prefix repair question of every link and end, with several tables of
/// ranks. Every answer that routers send by is one of the oracle's sends, and so is every
/// hop of the route that the planner plays by it.
pub fn by_planner(planner: &dyn Planner, named: &Named, asking: &Asking) -> Report {
    let workings = Workings::of(&asking.ctx, named.network.clone());
    let file = write(&named.network);
    let random = &mut Random::new(seed_of(&file));
    let answers = Answers { planner, named, workings, file };
    let mut report = Report::default();
    for prefix in 0..named.network.prefixes.len() as u64 {
        let sends = answers.sends(prefix, asking, random, &mut report);
        send_packets((named, prefix), &sends, asking.packets, random, &mut report);
    }
    report
}

/// A planner that is asked about one network.
struct Answers<'a> {
    planner: &'a dyn Planner,
    named: &'a Named,
    workings: Workings,
    file: Vec<u8>,
}

impl Answers<'_> {
    fn ask(&self, question: Question, report: &mut Report) -> Heard {
        report.calls += 1;
        let routers = usize::from(self.named.network.routers);
        ask(self.planner, &self.file, &Asked::of_file(question, routers * routers, 2 * routers))
    }

    /// The usual steps, and the sends that follow from the answers.
    fn sends(
        &self,
        prefix: u64,
        asking: &Asking,
        random: &mut Random,
        report: &mut Report,
    ) -> Sends {
        let all = Sends::of(&self.workings, prefix);
        let mut sends = Sends::of_steps(&self.workings, prefix);
        let steps = sends.all().count();
        let tables = (0..asking.tables).flat_map(|_| link_ends(&self.named.network));
        for (link, end) in tables {
            let question = Question::prefix_repair(link, end, prefix);
            let question = question.with_ranks(&random_table(random));
            let Some((n, class)) = self.answer(&question, asking, report) else {
                continue;
            };
            let sending = self.over(&question, n, class);
            sending.into_iter().for_each(|sending| sends.add(sending));
            if let Err(wrong) = self.is_one_of(&all, &question, sending, random, report) {
                let what = format!("{wrong}: {question:?}: first hop {n}, class {class}");
                report.wrong.push(in_words(self.named, prefix, &what));
            }
        }
        report.answers += (sends.all().count() - steps) as u64;
        sends
    }

    /// A pair that the planner tells with n = y and one of the classes asked for: n and the
    /// class.
    fn answer(
        &self,
        question: &Question,
        asking: &Asking,
        report: &mut Report,
    ) -> Option<(usize, u32)> {
        let Told::Pair { first, endpoint, class, .. } = self.ask(question.clone(), report).told
        else {
            return None;
        };
        let class = asking.classes.iter().find(|meant| u64::from(**meant) == class)?;
        (first == endpoint).then_some((first as usize, *class))
    }

    /// The send from S to a first hop, if that is a neighbour.
    fn over(&self, question: &Question, n: usize, class: u32) -> Option<Sending> {
        let (ends, _) = asked_about(&self.workings, question)?;
        over_first_hop(&self.workings, &ends, n, class)
    }

    /// Whether the send of an answer is one of all that the oracle finds, and so the hops of
    /// the route that is played by the same question.
    fn is_one_of(
        &self,
        all: &Sends,
        question: &Question,
        sending: Option<Sending>,
        random: &mut Random,
        report: &mut Report,
    ) -> Result<(), String> {
        let sent = |x: usize, z: usize, way: Way| {
            all.at(x).iter().any(|sending| sending.hop.to == z && sending.way == way)
        };
        let found = sending.filter(|found| sent(found.hop.from, found.hop.to, found.way));
        let Sending { hop, .. } = found.ok_or("no send of the oracle is the answer")?;
        let route = self.route(question, random, report);
        let different: BTreeSet<&usize> = route.iter().collect();
        let mut steps = route.windows(2).skip(1);
        let starts = route.starts_with(&[hop.from, hop.to]);
        if !starts || !steps.all(|step| sent(step[0], step[1], Way::Step)) {
            return Err(format!("the route {route:?} is not of sends"));
        }
        if different.len() < route.len() {
            return Err(format!("the route {route:?} visits a router twice"));
        }
        Ok(())
    }

    /// The route that the planner plays for the question of a prefix repair.
    fn route(&self, question: &Question, random: &mut Random, report: &mut Report) -> Vec<usize> {
        let (Question::PrefixRepair { ranks, link, end, prefix, .. }, choices) =
            (question, choices(&self.named.network, random))
        else {
            return Vec::new();
        };
        let route = Question::route(*link, *end, *prefix, &choices).with_ranks(ranks);
        let heard = self.ask(route, report);
        report.routes += 1;
        match heard.told {
            Told::Played(count) => {
                let written = heard.route.contents().iter().take(count as usize);
                written.map(|router| usize::from(*router)).collect()
            }
            _ => Vec::new(),
        }
    }
}
