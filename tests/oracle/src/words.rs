//! Answers as lines of plain words and numbers.

use crate::answer::{Answer, Buffers, Outcome};
use crate::space::routers_of;
use std::fmt::Display;

/// Things with a space between them.
pub fn spaced<Thing: Display>(things: impl IntoIterator<Item = Thing>) -> String {
    let words: Vec<String> = things.into_iter().map(|thing| thing.to_string()).collect();
    words.join(" ")
}

/// An answer in one short line, as the batch prints it. A route's routers are
/// read from the route buffer.
pub fn short(outcome: &Outcome) -> String {
    match &outcome.answer {
        Answer::Refused { number, value } => format!("refused {number} {value}"),
        Answer::Accepted(network) => {
            let (links, prefixes) = (network.links.len(), network.prefixes.len());
            format!("accepted {} {links} {prefixes}", network.routers)
        }
        Answer::Part { bytes, .. } if bytes.is_empty() => "empty".to_string(),
        Answer::Part { offset, bytes } => format!("at {offset} bytes {}", spaced(bytes)),
        Answer::Done => "done".to_string(),
        Answer::Set(set) => format!("set {set}"),
        Answer::Size(size) => format!("size {size}"),
        Answer::Unreachable => "unreachable".to_string(),
        Answer::Untouched => "untouched".to_string(),
        Answer::Pair(pair) => {
            let (n, y) = (pair.first_hop, pair.endpoint);
            format!("pair {n} {y} {} {}", pair.class, pair.tunnel_cost)
        }
        Answer::Count(count) => {
            let route = outcome.left.route.iter().take(*count);
            format!("count {count} route {}", spaced(route))
        }
        Answer::Text(text) => text.trim_end().to_string(),
        Answer::Written(count) => format!("written {count}"),
    }
}

/// An answer in one line for a reader: sets show their routers too, and the
/// fields of a pair have names.
pub fn long(outcome: &Outcome) -> String {
    match &outcome.answer {
        Answer::Set(set) => {
            let routers = routers_of(*set);
            let size = routers.len();
            let named = if size == 0 { "none".to_string() } else { spaced(routers) };
            format!("set {set} size {size} routers {named}")
        }
        Answer::Pair(pair) => {
            let (n, y) = (pair.first_hop, pair.endpoint);
            format!("hop {n} endpoint {y} class {} cost {}", pair.class, pair.tunnel_cost)
        }
        _ => short(outcome),
    }
}

/// The distances that a call has left, one line for each start.
pub fn rows(outcome: &Outcome, routers: usize) -> Vec<String> {
    if outcome.answer != Answer::Done || routers == 0 {
        return Vec::new();
    }
    let rows = outcome.left.work.chunks(routers).take(routers).enumerate();
    rows.map(|(start, row)| format!("row {start} {}", spaced(row))).collect()
}

/// The contents of the lent buffers in two lines.
pub fn left(buffers: &Buffers) -> String {
    let work = spaced(&buffers.work);
    let route = spaced(&buffers.route);
    format!("work area {work}\nroute buffer {route}")
}
