//! The section of distances: the call distances and what it leaves.
//!
//! The work area has 4,100 cells, each of them 7 before the call.
//!
//! ```text
//! refused NUMBER VALUE        or: done
//! row START DISTANCE ...      every router as start, if done
//! later CELL CELL             the two cells after the distances
//! ```
//!
//! Then the call is made once more with one cell fewer than N x N, each of
//! them 7:
//!
//! ```text
//! refused NUMBER VALUE
//! kept                        every cell is 7 still; otherwise: changed
//! ```
//!
//! A refused file counts as one of no router: `later` shows the cells 0 and 1,
//! and the second work area has no cell.

use super::common::{kept, network, text};
use crate::answer::{Buffers, Opened, Question};
use crate::fault::Context;
use crate::words;

/// Cells of the work area: a few more than the most routers need.
const CELLS: usize = 4100;
/// What stands in each cell before a call.
const BEFORE: u32 = 7;

/// What is printed for a file.
pub fn lines(ctx: &Context, file: &[u8]) -> String {
    let opened = Opened::new(ctx, file);
    let routers = usize::from(network(&opened).routers);
    let needed = routers * routers;
    let outcome = opened.ask(&Question::Distances, &work_area(CELLS));
    let mut lines = vec![words::short(&outcome)];
    lines.extend(words::rows(&outcome, routers));
    let later = outcome.left.work.iter().skip(needed).take(2);
    lines.push(format!("later {}", words::spaced(later)));

    let short = work_area(needed.saturating_sub(1));
    let outcome = opened.ask(&Question::Distances, &short);
    lines.push(words::short(&outcome));
    lines.push(kept(outcome.left == short).to_string());
    text(&lines)
}

fn work_area(cells: usize) -> Buffers {
    Buffers { work: vec![BEFORE; cells], ..Buffers::default() }
}
