//! The corpus meets every kind of answer, every cause and every deciding key.

use oracle::answer::{Answer, Opened, Question, inputs};
use oracle::corpus;
use oracle::fault::{Context, Fault};
use oracle::ranks::{Decision, deciding, decisions};
use oracle::repair::{asked_about, deciding_key, serving};
use oracle::row::{Cause, Inputs};
use oracle::space::Space;
use oracle::walk::Move;
use oracle::writing::outside;
use std::collections::BTreeSet;

#[test]
fn the_corpus_meets_everything() {
    let ctx = Context::sound();
    let from_s_only = Context::with(&[Fault::OnlySToETested]);
    let mut met: BTreeSet<String> = BTreeSet::new();
    for case in corpus::cases(1) {
        let opened = Opened::new(&ctx, &case.file);
        let half_blind = Opened::new(&from_s_only, &case.file);
        for (question, lent) in &case.questions {
            let outcome = opened.ask(question, lent);
            let refusal = opened.refusal(&inputs(question, lent));
            met.extend(refusal.map(|refusal| format!("{:?}", refusal.cause)));
            met.insert(kind(&outcome.answer));
            if question.table().is_some() {
                met.insert(second(&kind(&outcome.answer)));
            }
            met.extend(not_written(question));
            let extended = matches!(question, Question::Space { space: Space::ExtendedP, .. });
            if extended && half_blind.ask(question, lent).answer != outcome.answer {
                met.insert("a router decided by E to S alone".to_string());
            }
            if let Answer::Pair(pair) = outcome.answer {
                met.insert(class(question, pair.class));
                met.extend(key_of(&opened, question));
                let decided = deciding(&opened, question, lent, &pair);
                met.extend(decided.into_iter().flat_map(|decided| decision(question, decided)));
            }
        }
        if opened.refusal(&Inputs::default()).is_none() {
            met.extend(delivered(&opened));
        }
    }
    let missing: Vec<String> = everything().into_iter().filter(|it| !met.contains(it)).collect();
    assert!(missing.is_empty(), "the corpus does not meet: {missing:#?}");
}

/// All that the corpus has to meet.
fn everything() -> Vec<String> {
    let causes = Cause::ALL.iter().map(|cause| format!("{cause:?}"));
    let (link, prefix) = (Question::link_repair(0, 0), Question::prefix_repair(0, 0, 0));
    let classes = (4..8).map(|number| class(&link, number));
    let classes = classes.chain((0..8).map(|number| class(&prefix, number)));
    let keys = (1..=5).map(|key| format!("key {key}"));
    let kinds = [
        "accepted",
        "part",
        "empty part",
        "done",
        "set",
        "size",
        "unreachable",
        "untouched",
        "pair",
        "count",
        "text",
        "written",
        "nothing written",
        "delivered at the distance, a step tight",
        "delivered at a dear attachment",
        "a router decided by E to S alone",
    ];
    let kinds = kinds.into_iter().map(str::to_string);
    let kinds = kinds.chain(Cause::OF_NETWORKS.map(outside_by));
    let of_second = ["unreachable", "untouched", "pair", "count", "NoPair", "refused"];
    let kinds = kinds.chain(of_second.map(second));
    let of_link = decisions(4..8).into_iter().flat_map(|decided| decision(&link, decided));
    let of_prefix = decisions(0..8).into_iter().flat_map(|decided| decision(&prefix, decided));
    let decisions = of_link.chain(of_prefix);
    causes.chain(classes).chain(keys).chain(kinds).chain(decisions).collect()
}

fn kind(answer: &Answer) -> String {
    let kind = match answer {
        Answer::Refused { number: 14, .. } => "NoPair",
        Answer::Refused { .. } => "refused",
        Answer::Accepted(_) => "accepted",
        Answer::Part { bytes, .. } if bytes.is_empty() => "empty part",
        Answer::Part { .. } => "part",
        Answer::Done => "done",
        Answer::Set(_) => "set",
        Answer::Size(_) => "size",
        Answer::Unreachable => "unreachable",
        Answer::Untouched => "untouched",
        Answer::Pair(_) => "pair",
        Answer::Count(_) => "count",
        Answer::Text(_) => "text",
        Answer::Written(0) => "nothing written",
        Answer::Written(_) => "written",
    };
    kind.to_string()
}

/// What is met of a second call.
fn second(kind: &str) -> String {
    format!("second call: {kind}")
}

/// The causes that put a network outside the limits.
fn not_written(question: &Question) -> Vec<String> {
    match question {
        Question::Write { network } => outside(network).into_iter().map(outside_by).collect(),
        _ => Vec::new(),
    }
}

fn outside_by(cause: Cause) -> String {
    format!("a network outside the limits by {cause:?}")
}

fn call(question: &Question) -> &'static str {
    if matches!(question, Question::LinkRepair { .. }) { "link repair" } else { "prefix repair" }
}

fn class(question: &Question, class: u32) -> String {
    format!("{}: class {class}", call(question))
}

/// What is met of a decision: its two classes, and its first class with its rank.
fn decision(question: &Question, Decision { first, next, rank }: Decision) -> [String; 2] {
    let call = call(question);
    [
        format!("{call}: class {first} comes before class {next}"),
        format!("{call}: class {first} comes first by rank {rank}"),
    ]
}

/// The key that decided between the first two serving pairs.
fn key_of(opened: &Opened, question: &Question) -> Option<String> {
    let workings = opened.workings();
    let (link_end, target) = asked_about(workings, question)?;
    let key = deciding_key(&serving(workings, &link_end, target, question.ranks()?))?;
    Some(format!("key {key}"))
}

/// The routers that deliver though a step of theirs is tight: whether their own
/// cost is the distance, or above it.
fn delivered(opened: &Opened) -> Vec<String> {
    let workings = opened.workings();
    let mut met = Vec::new();
    for (number, prefix) in workings.network.prefixes.iter().enumerate() {
        let walks = workings.to_prefix(number as u64);
        for attachment in &prefix.attachments {
            let x = usize::from(attachment.router);
            assert_eq!(walks.moves(x), [Move::Deliver]);
            if u32::from(attachment.cost) > walks.remaining(x) {
                met.push("delivered at a dear attachment".to_string());
            } else if !walks.tight(x).is_empty() {
                met.push("delivered at the distance, a step tight".to_string());
            }
        }
    }
    met
}
