//! The repair planner for programs in Rust: a safe interface of the proved library, which
//! `tools/build` writes.
//!
//! A network file comes as bytes. Every call judges it first and answers with a [`Refusal`] where
//! the file is not sound or the question asks for what is not there. The calls that compute are
//! lent a work area, which receives the distances; [`WORK_CELLS`] cells are enough for every file.
//! Where many repairs of one file are asked for, a [`Table`] has its distances worked out once.
//!
//! A question names a link and an end: 0 makes the link's router a the repairing router S and its
//! router b the far router E, 1 the reverse. A question for a repair is lent the ranks of the eight
//! classes too, which say what is preferred, [`ASCENDING_RANKS`] or others. docs/SPECIFICATION.md
//! says what a network file holds, and what distances, spaces, repairs and routes are.
//!
//! ```
//! use planner::{Pair, Played, Repair, Table, ASCENDING_RANKS};
//! use planner::{DRILL_BYTES, ROUTE_BYTES, WORK_CELLS};
//!
//! // Four routers in a ring, and a prefix that is attached to routers 1 and 2.
//! let network = planner::text::parse(
//!     "routers 4
//!      link 0 1 1 1
//!      link 1 2 1 1
//!      link 2 3 1 1
//!      link 3 0 1 1
//!      prefix 1:0 2:0",
//! )?;
//! let file = network.to_bytes();
//! assert_eq!(planner::load(&file)?, network);
//!
//! // Link 0 drops. Router 0 sends packets for router 1 to router 3, in a tunnel to router 2.
//! let mut work = [0; WORK_CELLS];
//! let pair = planner::link_repair(&file, &mut work, &ASCENDING_RANKS, 0, 0)?;
//! assert_eq!(pair, Pair { first: 3, endpoint: 2, class: 7, cost: 2 });
//!
//! // Packets for the prefix do without router 1, so that it may fail as well.
//! let repair = planner::prefix_repair(&file, &mut work, &ASCENDING_RANKS, 0, 0, 0)?;
//! let Repair::Pair(pair) = repair else { panic!("{repair:?}") };
//! assert!(pair.survives_far_router());
//!
//! // A packet for the prefix goes by router 3 to router 2, which delivers it.
//! let mut route = [0; ROUTE_BYTES];
//! let played = planner::route(&file, &mut work, &ASCENDING_RANKS, 0, 0, 0, &[], &mut route)?;
//! assert_eq!(played, Played::Written(3));
//! assert_eq!(route[..3], [0, 3, 2]);
//!
//! // Ranks that prefer tunnels, classes 2, 3, 6 and 7: one ends at router 2.
//! let ranks = [4, 5, 0, 1, 6, 7, 2, 3];
//! let repair = planner::prefix_repair(&file, &mut work, &ranks, 0, 0, 0)?;
//! assert_eq!(repair, Repair::Pair(Pair { first: 3, endpoint: 2, class: 2, cost: 2 }));
//!
//! // Many questions: the distances are worked out once.
//! let table = Table::of(&file)?;
//! assert_eq!(table.prefix_repair(&ranks, 0, 0, 0)?, repair);
//!
//! // A drill, which is a network for training: five routers in a ring, with costs drawn from seed 8.
//! let mut file = [0; DRILL_BYTES];
//! assert_eq!(planner::drill(8, 5, &mut file), DRILL_BYTES);
//! assert_eq!(planner::load(&file)?.links().len(), 5);
//! # Ok::<(), Box<dyn std::error::Error>>(())
//! ```
#![deny(unsafe_op_in_unsafe_fn)]
#![deny(unsafe_code)]
#![deny(missing_docs)]

mod answer;
#[allow(unsafe_code)]
mod call;
mod columns;
mod file;
mod network;
#[allow(unsafe_code)]
pub mod raw;
mod refusal;
mod table;
pub mod text;

pub use answer::{Pair, Played, Repair, Set};
pub use call::{
    distances, drill, extended_p_space, link_entry, link_repair, link_repair_with, load, p_space,
    prefix_entry, prefix_repair, prefix_repair_with, q_space, route, route_with, write,
    ASCENDING_RANKS, LEAST_DRILL_ROUTERS, MOST_DRILL_ROUTERS, ROUTE_BYTES, UNREACHABLE, WORK_CELLS,
};
pub use file::{DRILL_BYTES, LARGEST_FILE};
pub use network::{
    Attachment, LimitError, Link, Network, Prefix, MAINTENANCE, MOST_ATTACHMENTS, MOST_LINKS,
    MOST_PREFIXES, MOST_ROUTERS,
};
pub use refusal::Refusal;
pub use table::Table;
