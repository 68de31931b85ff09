//! A network in the columns of the C interface, read from them and put into them.

use crate::network::{Attachment, Link, Network, MOST_ATTACHMENTS};
use crate::raw;

/// The network of columns that [`load`](crate::load) hands over for an accepted file. Its limits are
/// tested once more, which costs little, so that one place alone answers for them.
pub(crate) fn network_of(columns: &raw::Network) -> Network {
    const KEPT: &str = "a network of an accepted file keeps the limits";
    let routers = columns.routers.try_into().expect(KEPT);
    let mut network = Network::new(routers).expect(KEPT);
    for k in 0..columns.links {
        let (a, b, out, back) = (columns.from[k], columns.to[k], columns.out[k], columns.back[k]);
        network.add_link(Link { a, b, out, back }).expect(KEPT);
    }
    for p in 0..columns.prefixes {
        let slots = (0..usize::from(columns.attached[p])).map(|s| slot(p, s));
        let attachment = |slot| Attachment { router: columns.at[slot], cost: columns.own[slot] };
        let attachments: Vec<Attachment> = slots.map(attachment).collect();
        network.add_prefix(&attachments).expect(KEPT);
    }
    network
}

/// The columns of a network. Its limits keep every number within its column.
pub(crate) fn columns_of(network: &Network) -> raw::Network {
    let mut columns = raw::Network {
        routers: network.routers(),
        links: network.links().len(),
        prefixes: network.prefixes().len(),
        ..raw::Network::EMPTY
    };
    for (k, link) in network.links().iter().enumerate() {
        (columns.from[k], columns.to[k]) = (link.a, link.b);
        (columns.out[k], columns.back[k]) = (link.out, link.back);
    }
    for (p, prefix) in network.prefixes().iter().enumerate() {
        columns.attached[p] = prefix.attachments().len() as u8;
        for (s, attachment) in prefix.attachments().iter().enumerate() {
            columns.at[slot(p, s)] = attachment.router;
            columns.own[slot(p, s)] = attachment.cost;
        }
    }
    columns
}

/// The cell of slot s of prefix p.
fn slot(p: usize, s: usize) -> usize {
    MOST_ATTACHMENTS * p + s
}
