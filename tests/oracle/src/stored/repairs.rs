//! The section of repairs: spaces, link repairs and prefix repairs.
//!
//! For each link, and each of its ends 0 and 1:
//!
//! ```text
//! p LINK END ANSWER
//! extended-p LINK END ANSWER
//! q LINK END ANSWER
//! link-repair LINK END ANSWER
//! prefix-repair LINK END PREFIX ANSWER           every prefix
//! ```
//!
//! With more than 2,000 links times prefixes, one line stands in place of the
//! prefix repairs of a link and an end:
//!
//! ```text
//! prefix-repairs LINK END SUM
//! ```
//!
//! SUM is 0 at first, and each answer in the order of the prefixes makes it
//! 33 * SUM + CODE modulo 2^64. CODE is 0 for refusal 14, 4 for any other
//! refusal, 1 for unreachable, 2 for untouched, and 3 + 2^8 * HOP +
//! 2^16 * ENDPOINT + 2^24 * CLASS + 2^32 * COST for a pair.
//!
//! All of these have the ranks 0, 1, 2, 3, 4, 5, 6, 7. After those of a link and an
//! end come the link repair with the ranks 2, 6, 4, 7, 3, 5, 1, 0 and, if there is a
//! prefix, the sum of the prefix repairs with the ranks 6, 0, 4, 2, 3, 5, 7, 1:
//!
//! ```text
//! ranked-link-repair LINK END ANSWER
//! ranked-prefix-repairs LINK END SUM
//! ```
//!
//! Then come the questions just out of range: all five with link L, end 0 and
//! prefix 0, all five with link 0, end 2 and prefix 0, and `prefix-repair` with
//! link 0, end 0 and the first prefix number too large. A refused file counts as
//! one of no link and no prefix.
//!
//! Last come questions with ranks that are no arrangement: if the file is
//! accepted the link repair of link L, end 0, with each table of `ranks::WRONG` by
//! its number, and in any case the prefix repair of link 0, end 0 and the first
//! prefix number too large with table 1:
//!
//! ```text
//! wrong-link-ranks TABLE ANSWER
//! wrong-prefix-ranks TABLE ANSWER
//! ```
//!
//! An answer is `refused NUMBER VALUE`, `set NUMBER`, `unreachable`,
//! `untouched` or `pair HOP ENDPOINT CLASS COST`. The work area has 4,096
//! cells.

use super::common::{
    FARTHER_FIRST, TUNNELS_FIRST, answered, asked_whole, code, network, summed, text,
};
use crate::answer::{Buffers, Opened, Question};
use crate::batch::enough;
use crate::fault::Context;
use crate::ranks::{ASCENDING, WRONG};
use crate::space::Space;

/// What is printed for a file.
pub fn lines(ctx: &Context, file: &[u8]) -> String {
    let opened = Opened::new(ctx, file);
    let lent = enough();
    let network = network(&opened);
    let (links, prefixes) = (network.links.len() as u64, network.prefixes.len() as u64);
    let mut lines = Vec::new();
    for (link, end) in (0..links).flat_map(|link| [(link, 0), (link, 1)]) {
        lines.extend(link_questions(&opened, &lent, link, end));
        if asked_whole(&network) {
            lines.extend(
                (0..prefixes).map(|prefix| prefix_repair(&opened, &lent, link, end, prefix)),
            );
        } else {
            let sum = prefix_repairs(&opened, &lent, &ASCENDING, (link, end), prefixes);
            lines.push(format!("prefix-repairs {link} {end} {sum}"));
        }
        lines.push(ranked_link_repair(&opened, &lent, link, end));
        if prefixes > 0 {
            let sum = prefix_repairs(&opened, &lent, &FARTHER_FIRST, (link, end), prefixes);
            lines.push(format!("ranked-prefix-repairs {link} {end} {sum}"));
        }
    }
    for (link, end) in [(links, 0), (0, 2)] {
        lines.extend(link_questions(&opened, &lent, link, end));
        lines.push(prefix_repair(&opened, &lent, link, end, 0));
    }
    lines.push(prefix_repair(&opened, &lent, 0, 0, prefixes));
    if network.routers > 0 {
        lines.extend(wrong_link_ranks(&opened, &lent, links));
    }
    let question = Question::prefix_repair(0, 0, prefixes).with_ranks(WRONG[1]);
    lines.push(answered(&opened, &lent, "wrong-prefix-ranks 1", &question));
    text(&lines)
}

/// The spaces and the link repair of a link and an end.
fn link_questions(opened: &Opened, lent: &Buffers, link: u64, end: u64) -> [String; 4] {
    let space = |space| Question::Space { space, link, end };
    let asked = [
        ("p", space(Space::P)),
        ("extended-p", space(Space::ExtendedP)),
        ("q", space(Space::Q)),
        ("link-repair", Question::link_repair(link, end)),
    ];
    asked.map(|(name, question)| answered(opened, lent, &format!("{name} {link} {end}"), &question))
}

fn prefix_repair(opened: &Opened, lent: &Buffers, link: u64, end: u64, prefix: u64) -> String {
    let label = format!("prefix-repair {link} {end} {prefix}");
    answered(opened, lent, &label, &Question::prefix_repair(link, end, prefix))
}

/// The check sum of the prefix repairs of a link and an end with some ranks.
fn prefix_repairs(
    opened: &Opened,
    lent: &Buffers,
    ranks: &[u8],
    (link, end): (u64, u64),
    prefixes: u64,
) -> u64 {
    summed((0..prefixes).map(|prefix| {
        let question = Question::prefix_repair(link, end, prefix).with_ranks(ranks);
        code(&opened.ask(&question, lent).answer)
    }))
}

fn ranked_link_repair(opened: &Opened, lent: &Buffers, link: u64, end: u64) -> String {
    let question = Question::link_repair(link, end).with_ranks(&TUNNELS_FIRST);
    answered(opened, lent, &format!("ranked-link-repair {link} {end}"), &question)
}

/// The link repairs with ranks that are no arrangement. The link number is too
/// large as well, which is tried later.
fn wrong_link_ranks(opened: &Opened, lent: &Buffers, links: u64) -> Vec<String> {
    let line = |(table, ranks): (usize, &&[u8])| {
        let question = Question::link_repair(links, 0).with_ranks(ranks);
        answered(opened, lent, &format!("wrong-link-ranks {table}"), &question)
    };
    WRONG.iter().enumerate().map(line).collect()
}
