//! The text of a plan, made of a planner's own answers.

use crate::call::Told;
use oracle::network::Network;

/// What document 01 prints for a file, given what the call load tells of it and
/// what the call link repair tells of each link and end.
pub fn text(loaded: &Told, mut link_repair: impl FnMut(u64, u64) -> Told) -> String {
    let network = match loaded {
        Told::Accepted(network) => network,
        Told::Refused { number, value } => return format!("refused {number} {value}\n"),
        other => return format!("{other:?}\n"),
    };
    let (links, prefixes) = (network.links.len(), network.prefixes.len());
    let mut text = format!("plan {} {links} {prefixes}\n", network.routers);
    for (link, end) in (0..links).flat_map(|link| [(link, 0), (link, 1)]) {
        let told = link_repair(link as u64, end);
        text += &line(network, link, end, &told);
    }
    text
}

fn line(network: &Network, link: usize, end: u64, told: &Told) -> String {
    let ends = network.links[link];
    let (s, e) = if end == 0 { (ends.a, ends.b) } else { (ends.b, ends.a) };
    let repair = match told {
        Told::Pair { first, endpoint, class, cost } => {
            format!("{first} {endpoint} {class} {cost}")
        }
        Told::Refused { number: 14, value: 0 } => "none none none none".to_string(),
        other => format!("{other:?}"),
    };
    format!("{link} {end} {s} {e} {repair}\n")
}
