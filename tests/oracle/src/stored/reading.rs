//! The section of the reader: what it answers about a file.
//!
//! ```text
//! refused NUMBER VALUE
//! ```
//!
//! or, for an accepted file,
//!
//! ```text
//! accepted N L PREFIXES
//! link LINK A B COST-A-TO-B COST-B-TO-A          every link
//! prefix PREFIX ROUTER COST ROUTER COST ...      every prefix
//! ```
//!
//! and then for any file
//!
//! ```text
//! link-entry LINK BYTE BYTE ...                  some links
//! prefix-entry PREFIX BYTE BYTE ...              some prefixes
//! ```
//!
//! An empty part has no bytes. The entries asked for are 0, the last one if
//! there are several, the first number too large, and 4,000,000,000; a refused
//! file is asked as if it had one link and one prefix.

use super::common::text;
use crate::answer::{Answer, Buffers, Opened, Question};
use crate::fault::Context;
use crate::network::{Link, Network, Prefix};
use crate::words::{self, spaced};

/// A number far too large for an entry.
const FAR_TOO_LARGE: u64 = 4_000_000_000;

/// What is printed for a file.
pub fn lines(ctx: &Context, file: &[u8]) -> String {
    let opened = Opened::new(ctx, file);
    let loaded = opened.ask(&Question::Load, &Buffers::default());
    let mut lines = vec![words::short(&loaded)];
    let (mut links, mut prefixes) = (1, 1);
    if let Answer::Accepted(network) = &loaded.answer {
        (links, prefixes) = (network.links.len(), network.prefixes.len());
        lines.extend(network_lines(network));
    }
    for link in numbers(links) {
        lines.push(entry(&opened, &format!("link-entry {link}"), &Question::LinkEntry { link }));
    }
    for prefix in numbers(prefixes) {
        let label = format!("prefix-entry {prefix}");
        lines.push(entry(&opened, &label, &Question::PrefixEntry { prefix }));
    }
    text(&lines)
}

/// The links and prefixes of an accepted file.
fn network_lines(network: &Network) -> Vec<String> {
    let links = network.links.iter().enumerate().map(|(number, link)| link_line(number, link));
    let prefixes = network.prefixes.iter().enumerate();
    links.chain(prefixes.map(|(number, prefix)| prefix_line(number, prefix))).collect()
}

fn link_line(number: usize, link: &Link) -> String {
    format!("link {number} {} {} {} {}", link.a, link.b, link.forth, link.back)
}

fn prefix_line(number: usize, prefix: &Prefix) -> String {
    let attachments = prefix.attachments.iter();
    let words = attachments.map(|attachment| format!("{} {}", attachment.router, attachment.cost));
    format!("prefix {number} {}", spaced(words))
}

/// The numbers of the entries asked for, with so many entries in the file.
fn numbers(count: usize) -> Vec<u64> {
    let count = count as u64;
    let last = (count > 1).then(|| count - 1);
    [0].into_iter().chain(last).chain([count, FAR_TOO_LARGE]).collect()
}

/// The line of an entry: its bytes, or none.
fn entry(opened: &Opened, label: &str, question: &Question) -> String {
    match opened.ask(question, &Buffers::default()).answer {
        Answer::Part { bytes, .. } if !bytes.is_empty() => format!("{label} {}", spaced(bytes)),
        _ => label.to_string(),
    }
}
