//! The text that the program `plan` prints for a file.

use crate::answer::Opened;
use crate::class::NOT_PROTECTING;
use crate::fault::Fault;
use crate::ranks::{ASCENDING, DESCENDING};
use crate::repair::{Repair, link_repair};
use crate::row::Inputs;
use crate::workings::Workings;
use std::fmt::Write;

/// The whole text: a head line and a line for each link and end, or one line
/// for a refused file. A newline follows every line.
pub fn text(opened: &Opened) -> String {
    if let Some(refusal) = opened.refusal(&Inputs::default()) {
        return format!("refused {} {}\n", refusal.number, refusal.value);
    }
    let workings = opened.workings();
    let network = &workings.network;
    let mut text =
        format!("plan {} {} {}\n", network.routers, network.links.len(), network.prefixes.len());
    let end_one_first = workings.ctx.has(Fault::PlanEndOneFirst);
    let ends = if end_one_first { [1, 0] } else { [0, 1] };
    for link in 0..network.links.len() as u64 {
        for end in ends {
            let _ = writeln!(text, "{}", line(workings, link, end));
        }
    }
    if workings.ctx.has(Fault::PlanLastNewlineMissing) {
        text.pop();
    }
    text
}

/// The fields: link, end, S, E, n, y, class, tunnel cost. For 14 each of the
/// last four is the word `none`. The ranks ascend.
fn line(workings: &Workings, link: u64, end: u64) -> String {
    let ctx = &workings.ctx;
    let Some(link_end) = workings.network.link_end(ctx, link, end) else {
        return String::new();
    };
    let ranks = if ctx.has(Fault::PlanDescending) { DESCENDING } else { ASCENDING };
    let own_repair = match link_repair(workings, &link_end, &ranks) {
        Repair::Pair(pair) => {
            let (mut n, mut y, mut class) = (pair.first_hop, pair.endpoint, pair.class);
            if ctx.has(Fault::PlanHopAndEndpointSwapped) {
                (n, y) = (y, n);
            }
            if ctx.has(Fault::PlanClassesBelowFour) {
                class %= NOT_PROTECTING;
            }
            format!("{n} {y} {class} {}", pair.tunnel_cost)
        }
        _ if ctx.has(Fault::PlanNoneOnce) => "none".to_string(),
        _ => "none none none none".to_string(),
    };
    format!("{link} {end} {} {} {own_repair}", link_end.s, link_end.e)
}
