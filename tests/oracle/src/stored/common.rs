//! What several sections share: which questions they ask, and lines.

use crate::answer::{Answer, Buffers, Opened, Question};
use crate::network::Network;
use crate::ranks::Arrangement;
use crate::words;

/// With more links times prefixes than this, only some routes are asked for,
/// and prefix repairs are printed by their sums.
const ASKED_WHOLE: usize = 2000;
/// The links whose routes are asked for then.
const SOME_LINKS: [u64; 4] = [0, 1, 64, 127];
/// And the step from one prefix of a route to the next.
const SOME_PREFIXES: usize = 16;

/// Ranks by which the classes come in the order 7, 6, 0, 4, 2, 5, 1, 3: for a link,
/// tunnels first. Read the other way, as a map from ranks to classes, both tables are
/// other tables, and their two halves put the classes in different orders.
pub const TUNNELS_FIRST: Arrangement = [2, 6, 4, 7, 3, 5, 1, 0];
/// Ranks by which the classes come in the order 1, 7, 3, 4, 2, 5, 0, 6.
pub const FARTHER_FIRST: Arrangement = [6, 0, 4, 2, 3, 5, 7, 1];

/// The network of a file. A refused file counts as one of no router.
pub fn network(opened: &Opened) -> Network {
    match opened.ask(&Question::Load, &Buffers::default()).answer {
        Answer::Accepted(network) => network,
        _ => Network::default(),
    }
}

/// Whether every route is asked for and every prefix repair printed.
pub fn asked_whole(network: &Network) -> bool {
    network.links.len() * network.prefixes.len() <= ASKED_WHOLE
}

/// The links whose routes are asked for, each with both ends.
pub fn link_ends(network: &Network) -> Vec<(u64, u64)> {
    let all = 0..network.links.len() as u64;
    let links = if asked_whole(network) { all.collect() } else { SOME_LINKS.to_vec() };
    links.into_iter().flat_map(|link| [(link, 0), (link, 1)]).collect()
}

/// The prefixes whose routes are asked for.
pub fn route_prefixes(network: &Network) -> Vec<u64> {
    let step = if asked_whole(network) { 1 } else { SOME_PREFIXES };
    (0..network.prefixes.len() as u64).step_by(step).collect()
}

/// The line of a question: its name, its numbers, its answer.
pub fn answered(opened: &Opened, lent: &Buffers, label: &str, question: &Question) -> String {
    format!("{label} {}", words::short(&opened.ask(question, lent)))
}

/// The line of a route question: its name, its numbers, its answer, and whether the
/// bytes after the written ones are kept.
pub fn played(opened: &Opened, lent: &Buffers, label: &str, question: &Question) -> String {
    let outcome = opened.ask(question, lent);
    let written = match outcome.answer {
        Answer::Count(count) => count,
        _ => 0,
    };
    let later = outcome.left.route.iter().skip(written);
    let later = kept(later.eq(lent.route.iter().skip(written)));
    format!("{label} {} {later}", words::short(&outcome))
}

/// The sum of answers that stand as numbers, in their order.
pub fn summed(codes: impl Iterator<Item = u64>) -> u64 {
    codes.fold(0, |sum: u64, code| sum.wrapping_mul(33).wrapping_add(code))
}

/// An answer to a repair question as a number.
pub fn code(answer: &Answer) -> u64 {
    match answer {
        Answer::Unreachable => 1,
        Answer::Untouched => 2,
        Answer::Pair(pair) => {
            let (hop, endpoint) = (pair.first_hop as u64, pair.endpoint as u64);
            let (class, cost) = (pair.class as u64, pair.tunnel_cost as u64);
            3 + hop * 0x100 + endpoint * 0x1_0000 + class * 0x100_0000 + cost * 0x1_0000_0000
        }
        Answer::Refused { number: 14, .. } => 0,
        _ => 4,
    }
}

/// The word for what a call leaves of a buffer that it is not to change.
pub fn kept(as_before: bool) -> &'static str {
    if as_before { "kept" } else { "changed" }
}

/// Lines as a text, a newline after each.
pub fn text(lines: &[String]) -> String {
    lines.iter().map(|line| format!("{line}\n")).collect()
}
