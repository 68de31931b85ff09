//! One call of a planner: what is lent to it, and what it tells.

use oracle::answer::{Answer, Question};
use oracle::network::Network;
use oracle::repair::Pair;

/// Bytes of the buffer that an entry is copied into.
pub const ENTRY: usize = 34;

/// A question with all that is lent for it. A call takes what it has parameters
/// for and has to leave the rest alone.
pub struct Call<'a> {
    pub file: &'a [u8],
    pub question: &'a Question,
    /// The choice bytes of a route question, lent from a guarded place. Those
    /// in the question itself are a copy for the oracle.
    pub choices: &'a [u8],
    /// The ranks of a repair question, lent in the same way.
    pub ranks: &'a [u8],
    /// The table of a second call, lent in the same way; a single call has none.
    pub table: Option<&'a [u32]>,
    pub work: &'a mut [u32],
    pub route: &'a mut [u8],
    pub entry: &'a mut [u8],
    /// The buffer that a file is written into.
    pub made: &'a mut [u8],
}

/// Something that answers calls: the library, or a stand-in for it.
pub trait Planner: Sync {
    fn ask(&self, call: Call) -> Told;
}

/// What a call tells. Numbers are as wide as in any interface of the library,
/// so that no difference is lost by making one narrower.
#[derive(Clone, Debug, PartialEq, Eq)]
pub enum Told {
    Refused {
        number: u64,
        value: u64,
    },
    Accepted(Network),
    /// So many bytes of an entry were copied.
    Copied(u64),
    Done,
    Set(u64),
    Size(u64),
    Unreachable,
    Untouched,
    Pair {
        first: u64,
        endpoint: u64,
        class: u64,
        cost: u64,
    },
    /// So many routers were written.
    Played(u64),
    /// The text of a plan.
    Text(String),
    /// So many bytes of a file were written.
    Written(u64),
    /// Something that the interface does not have, in words.
    Other(String),
}

impl From<&Answer> for Told {
    fn from(answer: &Answer) -> Told {
        match answer {
            Answer::Refused { number, value } => {
                Told::Refused { number: u64::from(*number), value: u64::from(*value) }
            }
            Answer::Accepted(network) => Told::Accepted(network.clone()),
            Answer::Part { bytes, .. } => Told::Copied(bytes.len() as u64),
            Answer::Done => Told::Done,
            Answer::Set(set) => Told::Set(*set),
            Answer::Size(size) => Told::Size(u64::from(*size)),
            Answer::Unreachable => Told::Unreachable,
            Answer::Untouched => Told::Untouched,
            Answer::Pair(pair) => told_pair(pair),
            Answer::Count(count) => Told::Played(*count as u64),
            Answer::Text(text) => Told::Text(text.clone()),
            Answer::Written(count) => Told::Written(*count as u64),
        }
    }
}

fn told_pair(pair: &Pair) -> Told {
    Told::Pair {
        first: pair.first_hop as u64,
        endpoint: pair.endpoint as u64,
        class: u64::from(pair.class),
        cost: u64::from(pair.tunnel_cost),
    }
}
