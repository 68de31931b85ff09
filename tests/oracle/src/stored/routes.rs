//! The section of routes: played routes.
//!
//! For each link that is asked about, each of its ends, and each prefix that is
//! asked about:
//!
//! ```text
//! route LINK END PREFIX STRING ANSWER LATER      every choice string
//! ```
//!
//! Every link and every prefix is asked about if L times the number of prefixes
//! is at most 2,000, otherwise the links 0, 1, 64 and 127, be they in range or
//! not, and every 16th prefix from 0 on. The choice strings are those of the
//! batch, by their numbers 0 to 4. These have the ranks 0, 1, 2, 3, 4, 5, 6, 7. After
//! them string 3 is asked once more with the ranks 2, 6, 4, 7, 3, 5, 1, 0:
//!
//! ```text
//! ranked-route LINK END PREFIX 3 ANSWER LATER
//! ```
//!
//! At the end come two questions with a route buffer of 2 x N - 1 bytes, the
//! second with the ranks 0, 1, 2, 3, which are too few, and a question with these
//! ranks and link L, with a line after it that tells of the work area as LATER
//! does of the route buffer:
//!
//! ```text
//! short-route 0 0 0 0 ANSWER LATER
//! short-route-and-ranks 0 0 0 0 ANSWER LATER
//! wrong-ranks LINK 0 0 0 ANSWER LATER
//! kept
//! ```
//!
//! A refused file counts as one of no router, and its short buffer has no byte.
//!
//! An answer is `refused NUMBER VALUE`, `unreachable`, `untouched` or
//! `count COUNT route ROUTER ...`. The work area has 4,096 cells, the route
//! buffer otherwise 128 bytes, each of them 255 before a call. LATER is `kept`
//! if every byte after the written ones is 255 still, otherwise `changed`; no
//! byte is to be written unless the answer is a count.

use super::common::{TUNNELS_FIRST, kept, link_ends, network, played, route_prefixes, text};
use crate::answer::{Buffers, Opened, Question};
use crate::batch::{choice_strings, enough};
use crate::fault::Context;
use crate::ranks::WRONG;

/// The choice string that is asked once more with other ranks.
const RANKED: usize = 3;

/// What is printed for a file.
pub fn lines(ctx: &Context, file: &[u8]) -> String {
    let opened = Opened::new(ctx, file);
    let lent = enough();
    let network = network(&opened);
    let mut lines = Vec::new();
    for (link, end) in link_ends(&network) {
        for prefix in route_prefixes(&network) {
            for (string, choices) in choice_strings().into_iter().enumerate() {
                let label = format!("route {link} {end} {prefix} {string}");
                let question = Question::route(link, end, prefix, &choices);
                lines.push(played(&opened, &lent, &label, &question));
            }
            let label = format!("ranked-route {link} {end} {prefix} {RANKED}");
            let question = Question::route(link, end, prefix, &choice_strings()[RANKED]);
            lines.push(played(&opened, &lent, &label, &question.with_ranks(&TUNNELS_FIRST)));
        }
    }
    let mut short = enough();
    short.route.truncate((2 * usize::from(network.routers)).saturating_sub(1));
    let question = Question::route(0, 0, 0, &[]);
    lines.push(played(&opened, &short, "short-route 0 0 0 0", &question));
    let question = question.with_ranks(WRONG[1]);
    lines.push(played(&opened, &short, "short-route-and-ranks 0 0 0 0", &question));
    lines.extend(wrong_ranks(&opened, &lent, network.links.len() as u64));
    text(&lines)
}

/// The lines of a question with wrong ranks and a link number too large.
fn wrong_ranks(opened: &Opened, lent: &Buffers, links: u64) -> [String; 2] {
    let question = Question::route(links, 0, 0, &[]).with_ranks(WRONG[1]);
    let line = played(opened, lent, &format!("wrong-ranks {links} 0 0 0"), &question);
    let outcome = opened.ask(&question, lent);
    [line, kept(outcome.left.work == lent.work).to_string()]
}
