//! A run, its network and its refusals as lines of plain words and numbers.

use super::import::{self, Refusal};
use super::judge::{Piece, bad, pieces};
use super::layout::*;
use super::lsa::{Lsa, RouterLink, dotted};
use super::named::Named;
use crate::fault::Context;
use std::fmt::Write;

/// The LSAs of a run one after the other, and then the network of the run with the names
/// of its routers and prefixes, or why there is none.
pub fn run(ctx: &Context, run: &[u8]) -> String {
    let bad = bad(ctx, run);
    let mut text = String::new();
    for (place, piece) in pieces(run).iter().enumerate() {
        text.push_str(&lsa(place, piece));
        if let Some((_, cause)) = bad.iter().find(|(bad, _)| *bad == place) {
            let _ = writeln!(text, "  bad   # {}", cause.words());
        }
    }
    match import::named(ctx, run, usize::MAX) {
        Ok(network) => text + &named(&network),
        Err(turned_away) => text + &refusal(&turned_away),
    }
}

/// A refusal in one line, with its cause as a comment.
pub fn refusal(Refusal { cause, value }: &Refusal) -> String {
    format!("refused {} {value}   # {}\n", cause.number(), cause.words())
}

fn lsa(place: usize, piece: &Piece) -> String {
    let Piece { offset, bytes, .. } = piece;
    let (lsa, _) = Lsa::read(bytes);
    let id = dotted(lsa.link_state_id);
    let mut text = format!("lsa {place} at {offset} bytes {} id {id}", bytes.len());
    let (age, sequence) = (lsa.age, lsa.sequence);
    let _ =
        writeln!(text, " age {age} sequence {sequence:08x} checksum {:04x}", word(bytes, CHECKSUM));
    lsa.links.iter().for_each(|each| text.push_str(&link(each)));
    text
}

fn link(RouterLink { id, data, link_type, metric, tos }: &RouterLink) -> String {
    let kind = match *link_type {
        POINT_TO_POINT => "point-to-point".to_string(),
        STUB => "stub".to_string(),
        other => format!("type {other}"),
    };
    let (id, data) = (dotted(*id), dotted(*data));
    let tos = if tos.is_empty() { String::new() } else { format!(" tos {}", tos.len()) };
    format!("  {kind} {id} {data} metric {metric}{tos}\n")
}

/// A network with its names.
pub fn named(Named { routers, links, prefixes, one_sided }: &Named) -> String {
    let mut text = String::new();
    for (number, id) in routers.iter().enumerate() {
        let _ = writeln!(text, "router {number} {}", dotted(*id));
    }
    for link in links {
        let _ = writeln!(text, "link {} {} {} {}", link.a, link.b, link.forth, link.back);
    }
    for (from, to, metric) in one_sided {
        let _ = writeln!(text, "dropped {} {} {metric}", dotted(*from), dotted(*to));
    }
    for prefix in prefixes {
        let _ = write!(text, "prefix {} {}", dotted(prefix.network), dotted(prefix.mask));
        for (router, cost) in &prefix.attachments {
            let _ = write!(text, " {router}:{cost}");
        }
        text.push('\n');
    }
    text
}
