//! What both sides answer: the structs of the planner's C interface.

pub use planner::raw::kind::*;
pub use planner::raw::{Answer, Network};

/// The distance where no path leads.
pub const NO_PATH: u32 = u32::MAX;

/// An answer of which only the kind is known.
pub fn of(kind: u32) -> Answer {
    Answer { kind, ..Answer::default() }
}

/// A set, or a number of routers.
pub fn with_value(kind: u32, value: u64) -> Answer {
    Answer { kind, value, ..Answer::default() }
}

/// The row that turns a question away, and the value that it returns.
#[derive(Clone, Copy, Debug, PartialEq, Eq)]
pub struct Refusal {
    pub number: u32,
    pub value: u64,
}

impl Refusal {
    pub fn new(number: u32, value: usize) -> Refusal {
        Refusal { number, value: value as u64 }
    }
}

impl From<Refusal> for Answer {
    fn from(refusal: Refusal) -> Answer {
        let Refusal { number, value } = refusal;
        Answer { kind: REFUSED, number, value, ..Answer::default() }
    }
}

/// The network with nothing in it, to be filled.
pub const BLANK: Network = Network { kind: ACCEPTED, ..Network::EMPTY };

/// One of the three spaces.
#[derive(Clone, Copy, Debug, PartialEq, Eq)]
pub enum Space {
    P,
    ExtendedP,
    Q,
}

impl Space {
    pub const ALL: [Space; 3] = [Space::P, Space::ExtendedP, Space::Q];
}
