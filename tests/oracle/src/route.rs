//! Played routes: S, then the walk from n to y, then from y on to delivery at
//! the first attached router, each choice made by the next choice byte. The
//! tunnel passes attached routers.

use crate::fault::{Context, Fault};
use crate::network::LinkEnd;
use crate::repair::Pair;
use crate::walk::{Move, Walks};
use crate::workings::Workings;

/// The choice bytes and the place of the next one.
struct Choices<'a> {
    bytes: &'a [u8],
    place: usize,
}

impl Choices<'_> {
    /// The next choice byte. A byte that has run out counts as 0.
    fn next(&mut self, ctx: &Context) -> u8 {
        let byte = match self.bytes.get(self.place) {
            Some(byte) => *byte,
            None if ctx.has(Fault::RunOutAs255) => 255,
            None if ctx.has(Fault::ChoicesStartAgain) && !self.bytes.is_empty() => {
                self.bytes[self.place % self.bytes.len()]
            }
            None => 0,
        };
        self.place += 1;
        byte
    }
}

/// The routers of the route that the choices name, in the order of writing.
pub fn play(
    workings: &Workings,
    link_end: &LinkEnd,
    prefix: u64,
    pair: &Pair,
    choice_bytes: &[u8],
) -> Vec<usize> {
    let ctx = &workings.ctx;
    let mut choices = Choices { bytes: choice_bytes, place: 0 };
    let mut route = Vec::new();
    if !ctx.has(Fault::SLeftOut) {
        route.push(link_end.s);
    }
    if ctx.has(Fault::ByteForFirstHop) {
        choices.next(ctx);
    }
    route.push(pair.first_hop);

    // Each leg has fewer than N hops. Only a reader with a fault lets a cost 0
    // pass, by which a walk can go on for ever; such a play is broken off.
    let most = 2 * workings.hops.routers();
    let to_endpoint = workings.to_router(pair.endpoint);
    let to_prefix = workings.to_prefix(prefix);
    let left = |x: usize| ctx.has(Fault::TunnelPlayedToAttached) && to_prefix.delivers(x);
    let mut here = pair.first_hop;
    while here != pair.endpoint && !left(here) && route.len() <= most {
        match choose(ctx, to_endpoint, (here, link_end.e), &mut choices) {
            Some(Move::Step(hop)) => here = hop.to,
            _ => break,
        }
        route.push(here);
    }

    if ctx.has(Fault::EndpointTwice) {
        route.push(here);
    }
    if ctx.has(Fault::ByteAtEndpoint) {
        choices.next(ctx);
    }
    while route.len() <= most {
        match choose(ctx, to_prefix, (here, link_end.e), &mut choices) {
            Some(Move::Step(hop)) => here = hop.to,
            _ => break,
        }
        route.push(here);
    }
    route
}

/// The move that the next choice byte names: the byte modulo the number of
/// options. None where there is no option. With a fault E is no option among others.
fn choose(
    ctx: &Context,
    walks: &Walks,
    (here, e): (usize, usize),
    choices: &mut Choices,
) -> Option<Move> {
    let mut options = options(ctx, walks, here);
    if ctx.has(Fault::RouteMissesE) && options.len() > 1 {
        options.retain(|option| !matches!(option, Move::Step(hop) if hop.to == e));
    }
    if options.is_empty() || (options.len() == 1 && ctx.has(Fault::SingleOptionFree)) {
        return options.first().copied();
    }
    let byte = usize::from(choices.next(ctx));
    if ctx.has(Fault::ModuloFixed) {
        return Some(options[(byte % 4).min(options.len() - 1)]);
    }
    Some(options[byte % options.len()])
}

/// The options at a router: delivery alone where the router is attached, else the
/// next routers ascending.
fn options(ctx: &Context, walks: &Walks, here: usize) -> Vec<Move> {
    let mut options = walks.moves(here);
    if ctx.has(Fault::AttachedPlayedOn) && options == [Move::Deliver] {
        options.extend(walks.tight(here).iter().map(|hop| Move::Step(*hop)));
    }
    if ctx.has(Fault::OptionsDescending) {
        let delivery = usize::from(options.first() == Some(&Move::Deliver));
        options[delivery..].reverse();
    }
    options
}
