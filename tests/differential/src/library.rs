//! The library, by way of the safe crate over it. All calls of that crate are
//! here, so that a change of its interface is followed here alone.

use crate::call::{Call, Planner, Told};
use crate::plan;
use oracle::answer::Question;
use oracle::columns::Columns;
use oracle::network as theirs;
use oracle::space::Space;
use planner::{Attachment, Link, Network, Pair, Played, Refusal, Repair, Set, Table};

/// The planner's library.
pub struct Library;

impl Planner for Library {
    fn ask(&self, call: Call) -> Told {
        if let Some(table) = call.table {
            return second(call, table);
        }
        let Call { file, question, choices, ranks, work, route, entry, made, .. } = call;
        match *question {
            Question::Load => load(file),
            Question::LinkEntry { link } => copied(planner::link_entry(file, place(link)), entry),
            Question::PrefixEntry { prefix } => {
                copied(planner::prefix_entry(file, place(prefix)), entry)
            }
            Question::Distances => told(planner::distances(file, work), |()| Told::Done),
            Question::Space { space, link, end } => {
                let call = match space {
                    Space::P => planner::p_space,
                    Space::ExtendedP => planner::extended_p_space,
                    Space::Q => planner::q_space,
                };
                told(call(file, work, place(link), place(end)), |set| Told::Set(set.0))
            }
            Question::Size { set } => Told::Size(u64::from(Set(set).size())),
            Question::LinkRepair { link, end, .. } => link_repair(file, work, ranks, link, end),
            Question::PrefixRepair { link, end, prefix, .. } => {
                let (link, end, prefix) = (place(link), place(end), place(prefix));
                told(planner::prefix_repair(file, work, ranks, link, end, prefix), repaired)
            }
            Question::Route { link, end, prefix, .. } => {
                let (link, end, prefix) = (place(link), place(end), place(prefix));
                told(planner::route(file, work, ranks, link, end, prefix, choices, route), played)
            }
            Question::Plan => planned(file),
            Question::Drill { seed, routers } => {
                written(planner::drill(seed, place(routers), made))
            }
            Question::Write { ref network } => match network_from(network) {
                Some(network) => written(planner::write(&network, made)),
                // A network of the crate keeps the limits, so there is nothing to ask it.
                None => written(0),
            },
        }
    }
}

/// A second call. Where its table is the file's, the same is asked of a [`Table`] of the
/// file, which has to tell and to write the same.
fn second(call: Call, table: &[u32]) -> Told {
    let Call { file, question, choices, ranks, route, .. } = call;
    let mut same_route = route.to_vec();
    let told = with_table(file, table, question, ranks, choices, route);
    if matches!(told, Told::Refused { number: 1..=10 | 18, .. }) {
        return told;
    }
    let by_method = by_table_of_file(file, question, ranks, choices, &mut same_route);
    if (&told, &*route) == (&by_method, &same_route) {
        return told;
    }
    Told::Other(format!("{told:?} and {route:?}, but of a Table {by_method:?} and {same_route:?}"))
}

/// The calls that are lent a table.
fn with_table(
    file: &[u8],
    table: &[u32],
    question: &Question,
    ranks: &[u8],
    choices: &[u8],
    route: &mut [u8],
) -> Told {
    match *question {
        Question::LinkRepair { link, end, .. } => {
            told(planner::link_repair_with(file, table, ranks, place(link), place(end)), pair)
        }
        Question::PrefixRepair { link, end, prefix, .. } => {
            let (link, end, prefix) = (place(link), place(end), place(prefix));
            told(planner::prefix_repair_with(file, table, ranks, link, end, prefix), repaired)
        }
        Question::Route { link, end, prefix, .. } => {
            let (link, end, prefix) = (place(link), place(end), place(prefix));
            let call = planner::route_with;
            told(call(file, table, ranks, link, end, prefix, choices, route), played)
        }
        _ => unreachable!("repairs and routes alone have a table"),
    }
}

/// The same of a table that the crate fills itself.
fn by_table_of_file(
    file: &[u8],
    question: &Question,
    ranks: &[u8],
    choices: &[u8],
    route: &mut [u8],
) -> Told {
    let table = match Table::of(file) {
        Ok(table) => table,
        Err(refusal) => return told(Err::<(), Refusal>(refusal), |()| Told::Done),
    };
    match *question {
        Question::LinkRepair { link, end, .. } => {
            told(table.link_repair(ranks, place(link), place(end)), pair)
        }
        Question::PrefixRepair { link, end, prefix, .. } => {
            told(table.prefix_repair(ranks, place(link), place(end), place(prefix)), repaired)
        }
        Question::Route { link, end, prefix, .. } => {
            let (link, end, prefix) = (place(link), place(end), place(prefix));
            told(table.route(ranks, link, end, prefix, choices, route), played)
        }
        _ => unreachable!("repairs and routes alone have a table"),
    }
}

fn load(file: &[u8]) -> Told {
    told(planner::load(file), |network| Told::Accepted(network_of(&network)))
}

fn link_repair(file: &[u8], work: &mut [u32], ranks: &[u8], link: u64, end: u64) -> Told {
    told(planner::link_repair(file, work, ranks, place(link), place(end)), pair)
}

/// The text of a plan, from the library's answers. The plan has a work area of
/// its own: the lent one is not part of the question. Its ranks ascend.
fn planned(file: &[u8]) -> Told {
    let mut work = [0; planner::WORK_CELLS];
    let ranks = &planner::ASCENDING_RANKS;
    let text = plan::text(&load(file), |link, end| link_repair(file, &mut work, ranks, link, end));
    Told::Text(text)
}

/// A question's number as the library takes it.
fn place(number: u64) -> usize {
    usize::try_from(number).expect("the tests are for machines of 64 bits")
}

fn told<Answer>(answer: Result<Answer, Refusal>, accepted: impl Fn(Answer) -> Told) -> Told {
    match answer {
        Ok(answer) => accepted(answer),
        Err(Refusal { number, value }) => Told::Refused { number: u64::from(number), value },
    }
}

/// The crate hands an entry over by value; it is put where the C call puts it.
fn copied<const COUNT: usize>(bytes: Option<[u8; COUNT]>, entry: &mut [u8]) -> Told {
    let Some(bytes) = bytes else {
        return Told::Copied(0);
    };
    entry[..COUNT].copy_from_slice(&bytes);
    Told::Copied(COUNT as u64)
}

fn written(count: usize) -> Told {
    Told::Written(count as u64)
}

/// A network as the crate has it. The crate keeps the limits of the network file:
/// it makes no network outside them, and then there is nothing to write.
pub fn network_from(columns: &Columns) -> Option<Network> {
    if !columns.in_room() {
        return None;
    }
    let theirs = columns.network();
    let mut network = Network::new(theirs.routers).ok()?;
    for theirs::Link { a, b, forth, back } in theirs.links {
        network.add_link(Link { a, b, out: forth, back }).ok()?;
    }
    for prefix in theirs.prefixes {
        let attached =
            |found: &theirs::Attachment| Attachment { router: found.router, cost: found.cost };
        let attachments: Vec<Attachment> = prefix.attachments.iter().map(attached).collect();
        network.add_prefix(&attachments).ok()?;
    }
    Some(network)
}

fn pair(pair: Pair) -> Told {
    Told::Pair {
        first: u64::from(pair.first),
        endpoint: u64::from(pair.endpoint),
        class: u64::from(pair.class),
        cost: u64::from(pair.cost),
    }
}

fn repaired(repair: Repair) -> Told {
    match repair {
        Repair::Unreachable => Told::Unreachable,
        Repair::Untouched => Told::Untouched,
        Repair::Pair(found) => pair(found),
    }
}

fn played(played: Played) -> Told {
    match played {
        Played::Unreachable => Told::Unreachable,
        Played::Untouched => Told::Untouched,
        Played::Written(count) => Told::Played(count as u64),
    }
}

/// The whole network, in the oracle's words.
fn network_of(network: &Network) -> theirs::Network {
    let routers = u8::try_from(network.routers()).expect("a network has at most 64 routers");
    let links = network.links().iter().map(|link| theirs::Link {
        a: link.a,
        b: link.b,
        forth: link.out,
        back: link.back,
    });
    let prefixes = network.prefixes().iter().map(|prefix| {
        let attachments = prefix.attachments().iter();
        let attachments = attachments
            .map(|attached| theirs::Attachment { router: attached.router, cost: attached.cost });
        theirs::Prefix { attachments: attachments.collect() }
    });
    theirs::Network { routers, links: links.collect(), prefixes: prefixes.collect() }
}
