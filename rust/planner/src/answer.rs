//! The answers of the calls, and how they are read from the answers of the C interface.

use crate::columns::network_of;
use crate::network::Network;
use crate::raw::{self, kind};
use crate::refusal::Refusal;
use std::fmt::{self, Display, Formatter};

/// What repairs a link, or the traffic from S to a prefix: S sends its packets to the first hop,
/// in a tunnel that ends at the endpoint.
#[derive(Clone, Copy, Debug, PartialEq, Eq, Hash)]
pub struct Pair {
    /// The first hop n, a neighbour of S other than E. The link from S to it is not under
    /// maintenance: it costs less than [`MAINTENANCE`](crate::MAINTENANCE).
    pub first: u8,
    /// The endpoint y. Where it is the first hop itself no tunnel is needed.
    pub endpoint: u8,
    /// The class, 0 to 7: 0 or 1 where the endpoint is the first hop and 2 or 3 where it is not,
    /// the lower of the two where the endpoint is closer to the target than S; and 4 more where a
    /// packet may visit E. A link's own repair leads to E, so that its class is 4 to 7.
    pub class: u8,
    /// The tunnel cost: the cost from S to n plus the distance from n to y.
    pub cost: u32,
}

impl Pair {
    /// Whether the repair survives the failure of the far router E too, and not of the link alone:
    /// whichever equal hops it takes, no packet visits E. The class is below 4 then.
    ///
    /// With [`ASCENDING_RANKS`](crate::ASCENDING_RANKS) a prefix has such a repair wherever there is
    /// one. A link's own repair is none: it leads to E.
    pub fn survives_far_router(&self) -> bool {
        self.class < 4
    }
}

impl Display for Pair {
    fn fmt(&self, out: &mut Formatter) -> fmt::Result {
        let Pair { first, endpoint, class, cost } = self;
        write!(out, "first hop {first}, endpoint {endpoint}, class {class}, tunnel cost {cost}")
    }
}

/// The answer of a prefix repair.
#[derive(Clone, Copy, Debug, PartialEq, Eq, Hash)]
pub enum Repair {
    /// The prefix cannot be reached from S.
    Unreachable,
    /// No packet from S to the prefix crosses the link from S to E.
    Untouched,
    /// The pair that repairs the traffic.
    Pair(Pair),
}

/// The answer of a route call.
#[derive(Clone, Copy, Debug, PartialEq, Eq, Hash)]
pub enum Played {
    /// The prefix cannot be reached from S; nothing is written.
    Unreachable,
    /// No packet from S to the prefix crosses the link from S to E; nothing is written.
    Untouched,
    /// So many routers are written at the start of the route buffer, S first.
    Written(usize),
}

/// A set of routers: router r is in it where the bit of weight 2 to the power r is 1.
#[derive(Clone, Copy, Debug, PartialEq, Eq, Hash)]
pub struct Set(pub u64);

impl Set {
    /// The number of routers in the set.
    pub fn size(self) -> u32 {
        raw::planner_size(self.0)
    }

    /// Whether the router is in the set.
    pub fn contains(self, router: u8) -> bool {
        self.0.checked_shr(router.into()).is_some_and(|rest| rest & 1 == 1)
    }

    /// The routers of the set, ascending.
    pub fn routers(self) -> impl Iterator<Item = u8> {
        (0..64).filter(move |router| self.contains(*router))
    }
}

/// The refusal of an answer, or the answer itself.
pub(crate) fn unless_refused(answer: raw::Answer) -> Result<raw::Answer, Refusal> {
    match answer.kind {
        kind::REFUSED => Err(Refusal { number: answer.number, value: answer.value }),
        _ => Ok(answer),
    }
}

/// The answer of the call that fills the work area.
pub(crate) fn done(answer: raw::Answer) -> Result<(), Refusal> {
    let answer = unless_refused(answer)?;
    match answer.kind {
        kind::DONE => Ok(()),
        other => unknown(other),
    }
}

/// The answer of a call for a space.
pub(crate) fn set(answer: raw::Answer) -> Result<Set, Refusal> {
    let answer = unless_refused(answer)?;
    match answer.kind {
        kind::SET => Ok(Set(answer.value)),
        other => unknown(other),
    }
}

/// The answer of the call link repair.
pub(crate) fn pair(answer: raw::Answer) -> Result<Pair, Refusal> {
    let answer = unless_refused(answer)?;
    match answer.kind {
        kind::PAIR => Ok(pair_of(&answer)),
        other => unknown(other),
    }
}

/// The answer of the call prefix repair.
pub(crate) fn repair(answer: raw::Answer) -> Result<Repair, Refusal> {
    let answer = unless_refused(answer)?;
    match answer.kind {
        kind::UNREACHABLE => Ok(Repair::Unreachable),
        kind::UNTOUCHED => Ok(Repair::Untouched),
        kind::PAIR => Ok(Repair::Pair(pair_of(&answer))),
        other => unknown(other),
    }
}

/// The answer of the call route.
pub(crate) fn played(answer: raw::Answer) -> Result<Played, Refusal> {
    let answer = unless_refused(answer)?;
    match answer.kind {
        kind::UNREACHABLE => Ok(Played::Unreachable),
        kind::UNTOUCHED => Ok(Played::Untouched),
        kind::PLAYED => Ok(Played::Written(narrow(answer.value))),
        other => unknown(other),
    }
}

/// The answer of the call load.
pub(crate) fn network(network: &raw::Network) -> Result<Network, Refusal> {
    match network.kind {
        kind::ACCEPTED => Ok(network_of(network)),
        kind::REFUSED => Err(Refusal { number: network.number, value: network.value }),
        other => unknown(other),
    }
}

fn pair_of(answer: &raw::Answer) -> Pair {
    Pair {
        first: narrow(answer.first),
        endpoint: narrow(answer.endpoint),
        class: narrow(answer.pair_class),
        cost: answer.cost,
    }
}

/// A number of the library in a narrower type, which is wide enough for it by the contracts.
fn narrow<Wide, Narrow: TryFrom<Wide>>(number: Wide) -> Narrow {
    let Ok(number) = Narrow::try_from(number) else {
        unreachable!("the library answers with a number beyond its contract")
    };
    number
}

/// The library is proved to answer each call with the kinds of that call alone.
fn unknown(kind: u32) -> ! {
    unreachable!("the library answers with kind {kind}, which this call does not have")
}
