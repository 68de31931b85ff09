//! Runs of LSAs at random: they meet every cause, every feature and every kind of answer,
//! every mistake shows, and the networks are those of a slower method.

use crate::common::load;
use oracle::answer::{Answer, Outcome};
use oracle::fault::{Context, Fault};
use oracle::network::{Attachment, Link, Network, Prefix};
use oracle::ospf::corpus::{Case, cases};
use oracle::ospf::feature::{Feature, features};
use oracle::ospf::layout::{POINT_TO_POINT, STUB};
use oracle::ospf::{Cause, Lsa, Mistake, damage, import::refusal, judge, make};
use oracle::random::Random;
use std::collections::{BTreeMap, BTreeSet};
use std::hash::{DefaultHasher, Hash, Hasher};

const SEED: u64 = 6;

fn with_expected() -> Vec<(Case, Outcome)> {
    let sound = Context::sound();
    let expected = |case: Case| {
        let outcome = case.outcome(&sound);
        (case, outcome)
    };
    cases(SEED).into_iter().map(expected).collect()
}

#[test]
fn every_cause_feature_and_kind_of_answer_occurs() {
    let mut causes: BTreeMap<Cause, usize> = BTreeMap::new();
    let mut met: BTreeMap<Feature, usize> = BTreeMap::new();
    let mut buffers: BTreeMap<&str, usize> = BTreeMap::new();
    for (case, outcome) in with_expected() {
        if let Some(refusal) = refusal(&case.run, case.bytes) {
            *causes.entry(refusal.cause).or_default() += 1;
            assert_eq!(outcome.left.made, case.lent());
        }
        if let Answer::Written(length) = outcome.answer {
            features(&case.run).into_iter().for_each(|each| *met.entry(each).or_default() += 1);
            let kind = match case.bytes - length {
                0 => "just enough",
                1 => "one byte more",
                _ => "longer",
            };
            *buffers.entry(kind).or_default() += 1;
        }
    }
    println!("{causes:#?}\n{met:#?}\n{buffers:#?}");
    assert_eq!(buffers.len(), 3);
    assert!(Cause::ALL.iter().all(|cause| causes[cause] >= 5), "{causes:?}");
    let missing = Feature::ALL.iter().find(|feature| met.get(feature).is_none_or(|n| *n < 2));
    assert_eq!(missing, None);
}

/// Each mistake shows, and each in another way than every other one.
#[test]
fn every_mistake_is_noticed() {
    let expected = with_expected();
    let mut seen: BTreeMap<u64, Fault> = BTreeMap::new();
    for fault in Fault::of_import().into_iter().chain(Fault::OF_FILES) {
        let ctx = Context::with(&[fault]);
        let mut names: Vec<&str> = Vec::new();
        let mut hasher = DefaultHasher::new();
        for (place, (case, expected)) in expected.iter().enumerate() {
            let outcome = case.outcome(&ctx);
            if outcome != *expected {
                names.push(&case.name);
                (place, format!("{:?}", outcome.answer), outcome.left.made).hash(&mut hasher);
            }
        }
        println!("{} is noticed by {}: {:?}", fault.name(), names.len(), names.first());
        assert!(!names.is_empty(), "{}", fault.name());
        assert_eq!(seen.insert(hasher.finish(), fault), None, "{}", fault.name());
    }
}

#[test]
fn every_mixture_of_mistakes_gives_answers() {
    let mut random = Random::new(161);
    let faults = Fault::of_import();
    let cases = cases(162);
    for _ in 0..2000 {
        let mixture: Vec<Fault> = (0..3).map(|_| random.pick(&faults)).collect();
        let case = &cases[random.below(cases.len())];
        // It is enough that the call does not fail; the answer may be anything.
        assert_eq!(case.outcome(&Context::with(&mixture)).left.made.len(), case.bytes);
    }
}

#[test]
fn mistakes_have_names() {
    for fault in Fault::of_import() {
        assert_eq!(Fault::named(&fault.name()), Some(fault));
        assert!(!fault.words().is_empty());
        assert!(!Fault::all().contains(&fault));
    }
    assert_eq!(Mistake::ALL.len() + Cause::ALL.len(), Fault::of_import().len());
}

/// A damaged LSA has the cause that it was damaged by and no other, in every place.
#[test]
fn damages_have_one_cause() {
    let random = &mut Random::new(163);
    for cause in Cause::of_number(16) {
        for _ in 0..200 {
            let routers = random.between(2, 7);
            let links = random.below(routers);
            let lsas = make::network(routers, links, random.below(5), random);
            let first = usize::from(cause == Cause::RouterNamedBefore);
            let place = random.between(first, routers - 1);
            let run = damage::run(&lsas, cause, place, random);
            assert_eq!(judge::bad(&Context::sound(), &run), [(place, cause)]);
            let without = Context::with(&[Fault::ImportCauseIgnored(cause)]);
            assert_eq!(judge::bad(&without, &run), []);
        }
    }
}

/// What is taken in is the file of the network that a slower method finds, and the reader
/// accepts it.
#[test]
fn the_network_of_a_slower_method() {
    let random = &mut Random::new(164);
    for _ in 0..400 {
        let lsas = make::mixed(12, random);
        let outcome = oracle::ospf::import(&Context::sound(), &make::run(&lsas), &[0; 6656]);
        let expected = slow_network(&lsas);
        let over = expected.prefixes.iter().any(|prefix| prefix.attachments.len() > 8);
        match outcome.answer {
            Answer::Written(length) => {
                assert_eq!(load(&outcome.left.made[..length]), Answer::Accepted(expected));
            }
            answer => assert!(over, "{answer:?}"),
        }
    }
}

/// Every pair of routers and every network, mask and router is asked for by itself.
pub fn slow_network(lsas: &[Lsa]) -> Network {
    let lower = |id: u32| lsas.iter().filter(|lsa| lsa.link_state_id < id).count() as u8;
    let by_number = |number: u8| lsas.iter().find(|lsa| lower(lsa.link_state_id) == number);
    let routers = lsas.len() as u8;
    let metric = |a: u8, b: u8| {
        let end = by_number(b)?.link_state_id;
        by_number(a)?.links_of(POINT_TO_POINT).find(|link| link.id == end).map(|link| link.metric)
    };
    let pairs = (0..routers).flat_map(|a| (a + 1..routers).map(move |b| (a, b)));
    let links =
        pairs.filter_map(|(a, b)| Some(Link { a, b, forth: metric(a, b)?, back: metric(b, a)? }));
    let stubs = || lsas.iter().flat_map(|lsa| lsa.links_of(STUB));
    let keys: BTreeSet<(u32, u32)> = stubs().map(|link| (link.id, link.data)).collect();
    let attached = |key: (u32, u32), router: u8| {
        let own = by_number(router)?.links_of(STUB).filter(|link| (link.id, link.data) == key);
        own.map(|link| link.metric).min().map(|cost| Attachment { router, cost })
    };
    let prefix = |key: (u32, u32)| Prefix {
        attachments: (0..routers).filter_map(|router| attached(key, router)).collect(),
    };
    Network { routers, links: links.collect(), prefixes: keys.into_iter().map(prefix).collect() }
}
