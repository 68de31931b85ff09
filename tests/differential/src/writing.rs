//! What a run met of the two calls that write a file, and their comparison by way
//! of both interfaces.

use crate::c_interface::CInterface;
use crate::call::Planner;
use crate::compare::{Asked, ask, compare, difference};
use crate::coverage::Coverage;
use crate::library::Library;
use oracle::answer::{Opened, Outcome, Question};
use oracle::columns::Columns;
use oracle::drill::{FEWEST, MOST};
use oracle::fault::{Context, Fault};
use oracle::row::Cause;
use oracle::writing::outside;

/// Things that a run meets where a file is to be written.
pub mod thing {
    pub const DRILL: &str = "drill: written";
    pub const TOO_FEW: &str = "drill: 0, fewer than 3 routers";
    pub const TOO_MANY: &str = "drill: 0, more than 64 routers";
    pub const DRILL_SHORT: &str = "drill: 0, the buffer is too short";
    pub const NETWORK: &str = "write: written";
    pub const UNUSED: &str = "write: written, with something in cells that no entry speaks of";
    pub const NETWORK_SHORT: &str = "write: 0, the buffer is too short";

    /// All of them.
    pub const ALL: [&str; 7] =
        [DRILL, TOO_FEW, TOO_MANY, DRILL_SHORT, NETWORK, UNUSED, NETWORK_SHORT];
}

/// All of them, and each cause that puts a network outside the limits.
pub fn things() -> Vec<String> {
    let things = thing::ALL.into_iter().map(str::to_string);
    things.chain(Cause::OF_NETWORKS.map(of_cause)).collect()
}

/// A network that is not written for this cause.
pub fn of_cause(cause: Cause) -> String {
    format!("write: 0, {}", cause.words())
}

impl Coverage {
    /// Counts one call that writes a file, as the oracle answers it.
    pub fn written(&mut self, question: &Question, count: usize) {
        match question {
            Question::Drill { routers, .. } => self.met(of_drill(*routers, count), 1),
            Question::Write { network } => {
                let causes = outside(network);
                causes.iter().for_each(|cause| self.met(&of_cause(*cause), 1));
                self.met(thing::NETWORK_SHORT, u64::from(count == 0 && causes.is_empty()));
                self.met(thing::NETWORK, u64::from(count > 0));
                let unused = **network != Columns::of(&network.network());
                self.met(thing::UNUSED, u64::from(count > 0 && unused));
            }
            _ => {}
        }
    }
}

fn of_drill(routers: u64, count: usize) -> &'static str {
    match routers {
        _ if count > 0 => thing::DRILL,
        _ if routers < FEWEST as u64 => thing::TOO_FEW,
        _ if routers > MOST as u64 => thing::TOO_MANY,
        _ => thing::DRILL_SHORT,
    }
}

/// Asks for a file to be written by way of both interfaces, and fails if one is
/// not as the oracle says; hands over the oracle's outcome. A network outside the
/// limits is asked about by way of the C interface alone: the crate has none.
pub fn compared(question: Question, length: usize) -> Outcome {
    let asked = Asked::of_buffer(question, length);
    let expected = oracle::answer::ask(&Context::sound(), &[], &asked.question, &asked.buffers());
    for planner in [&Library as &dyn Planner, &CInterface] {
        let heard = ask(planner, &[], &asked);
        let found = difference(&[], &asked, &expected, &heard);
        assert_eq!(found, None, "{asked:?}");
    }
    expected
}

/// How many of these questions the library answers otherwise than an oracle with
/// some faults.
pub fn differing(asked: &[Asked], faults: &[Fault]) -> usize {
    let ctx = Context::with(faults);
    let opened = Opened::new(&ctx, &[]);
    let differs = |asked: &&Asked| compare(&Library, &opened, &[], asked).difference.is_some();
    asked.iter().filter(differs).count()
}
