//! Every fault is noticed by some case of the corpus, but those that no call shows. Some
//! change no repair while the ranks ascend.

use oracle::answer::{Outcome, Question};
use oracle::corpus::{self, Case};
use oracle::fault::{Context, Fault};
use oracle::random::Random;
use oracle::ranks::ASCENDING;
use oracle::space::Space;
use std::collections::BTreeSet;
use std::sync::OnceLock;

const SEED: u64 = 1;

/// The cases with what is right, worked out once.
fn with_expected() -> &'static [(Case, Vec<Outcome>)] {
    static EXPECTED: OnceLock<Vec<(Case, Vec<Outcome>)>> = OnceLock::new();
    EXPECTED.get_or_init(|| {
        let cases = corpus::cases(SEED).into_iter();
        let expected = cases.map(|case| {
            let outcomes = case.outcomes(&Context::sound());
            (case, outcomes)
        });
        expected.collect()
    })
}

/// The name of the first case that notices a fault, and its question.
fn noticed(cases: &[(Case, Vec<Outcome>)], fault: Fault) -> Option<String> {
    let ctx = Context::with(&[fault]);
    cases.iter().find_map(|(case, expected)| {
        let question = case.first_difference(&ctx, expected)?;
        Some(format!("{}: {question:?}", case.name))
    })
}

#[test]
fn every_fault_is_noticed() {
    let cases = with_expected();
    for fault in Fault::all() {
        let by = noticed(cases, fault);
        if let Some(by) = &by {
            println!("{} is noticed by {by}", fault.name());
        }
        assert_eq!(by.is_none(), fault.is_in_no_call(), "{}", fault.name());
    }
}

/// While the ranks ascend these faults change no repair, and one of them extended
/// P alone. Other ranks prefer a pair that only such a planner finds.
#[test]
fn what_other_classes_hide_shows_with_other_ranks() {
    for fault in Fault::BEHIND_OTHERS {
        let ctx = Context::with(&[fault]);
        let mut calls = BTreeSet::new();
        for (case, expected) in with_expected() {
            let asked = case.questions.iter().zip(case.outcomes(&ctx)).zip(expected);
            for (((question, _), outcome), expected) in asked {
                if &outcome != expected {
                    assert_ne!(question.ranks(), Some(&ASCENDING[..]), "{question:?}");
                    calls.insert(call(question));
                }
            }
        }
        let shown: &[&str] = match fault {
            // Where a prefix is repaired, S itself does not avoid to it.
            Fault::EndpointMayBeS => &["link repair"],
            Fault::EndpointMayBeE => &["link repair", "prefix repair", "route"],
            // A link's own target has no other attached router.
            Fault::VisitTunnelToAttached => &["prefix repair", "route"],
            _ => &["extended P", "link repair", "prefix repair", "route"],
        };
        assert_eq!(calls.into_iter().collect::<Vec<_>>(), shown, "{}", fault.name());
    }
}

/// The call of a question that a fault of ranks, spaces or repairs may change.
fn call(question: &Question) -> &'static str {
    match question {
        Question::LinkRepair { .. } => "link repair",
        Question::PrefixRepair { .. } => "prefix repair",
        Question::Route { .. } => "route",
        Question::Space { space: Space::ExtendedP, .. } => "extended P",
        _ => "another call",
    }
}

#[test]
fn every_mixture_of_faults_gives_answers() {
    let mut random = Random::new(71);
    let faults = Fault::all();
    let cases = corpus::cases(72);
    for _ in 0..600 {
        let mixture: Vec<Fault> = (0..4).map(|_| random.pick(&faults)).collect();
        let ctx = Context::with(&mixture);
        let case = &cases[random.below(cases.len())];
        // It is enough that no call fails; the answers may be anything.
        assert_eq!(case.outcomes(&ctx).len(), case.questions.len());
    }
}

#[test]
fn faults_have_different_names() {
    let faults = Fault::all();
    for fault in &faults {
        assert_eq!(Fault::named(&fault.name()), Some(*fault));
        assert!(!fault.words().is_empty());
    }
    assert_eq!(Fault::named("no such fault"), None);
}
