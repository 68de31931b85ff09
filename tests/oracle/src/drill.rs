//! Drills: training networks by number. A drill is the ring of document 01 with
//! costs that are drawn one after the other, starting from a seed.

use crate::fault::{Context, Fault, Limit};
use crate::network::Network;
use crate::worked::ring;

/// The fewest routers of a drill.
pub const FEWEST: usize = 3;
/// The most routers of a drill.
pub const MOST: usize = 64;

/// A draw replaces the value by so many times the value ..
const TIMES: u64 = 1_664_525;
/// .. plus this ..
const PLUS: u64 = 1_013_904_223;
/// .. modulo this.
const MODULUS: u64 = 4_294_967_296;
/// A value of 32 bits divided by this, without the rest, is its upper 16 bits.
const UPPER: u64 = 65_536;

/// The draws of a seed. Numbers are wider than 32 bits, so that what is modulo
/// what is written out.
#[derive(Clone, Debug)]
pub struct Draws<'a> {
    ctx: &'a Context,
    /// The seed at first, then what the last draw has replaced it by.
    pub value: u64,
}

impl Draws<'_> {
    /// Starts with a seed.
    pub fn of(ctx: &Context, seed: u32) -> Draws<'_> {
        Draws { ctx, value: u64::from(seed) }
    }

    /// The next draw: the value is replaced, and its upper 16 bits are used.
    pub fn draw(&mut self) -> u64 {
        let old = self.value;
        let plus = if self.ctx.has(Fault::DrawWithoutSum) { 0 } else { PLUS };
        let new = old.wrapping_mul(TIMES).wrapping_add(plus);
        self.value = if self.ctx.has(Fault::DrawNotReduced) { new } else { new % MODULUS };
        let used = if self.ctx.has(Fault::DrawOfOldValue) { old } else { self.value };
        if self.ctx.has(Fault::DrawOfLowerBits) {
            return used % UPPER;
        }
        if self.ctx.has(Fault::DrawOf15Bits) {
            return used / UPPER % 32_768;
        }
        used / UPPER
    }

    /// The next cost: 1 plus a draw modulo 100.
    fn cost(&mut self) -> u16 {
        let modulus = if self.ctx.has(Fault::DrillModulo99) { 99 } else { 100 };
        let least = if self.ctx.has(Fault::DrillCostFromZero) { 0 } else { 1 };
        (least + self.draw() % modulus) as u16
    }
}

/// The network of a drill with so many routers, if there is such a drill.
pub fn network(ctx: &Context, seed: u32, routers: u64) -> Option<Network> {
    let fewest = ctx.least(Limit::LeastDrillRouters, FEWEST) as u64;
    let most = ctx.most(Limit::MostDrillRouters, MOST) as u64;
    if routers < fewest || routers > most {
        return None;
    }
    let mut network = ring(u8::try_from(routers).ok()?);
    if ctx.has(Fault::DrillLastLinkForgotten) {
        network.links.pop();
    }
    if let Some(last) = network.links.last_mut().filter(|_| ctx.has(Fault::DrillLastLinkTurned)) {
        (last.a, last.b) = (last.b, last.a);
    }
    let mut draws = Draws::of(ctx, seed);
    for (link, forth) in directions(ctx, network.links.len()) {
        let cost = draws.cost();
        let link = &mut network.links[link];
        if forth || ctx.has(Fault::DrillOneDrawForLink) {
            link.forth = cost;
        }
        if !forth || ctx.has(Fault::DrillOneDrawForLink) {
            link.back = cost;
        }
    }
    if ctx.has(Fault::DrillWithPrefix) {
        network = network.prefix(&[(0, 0)]);
    }
    Some(network)
}

/// The directions of so many links in the order in which their costs are drawn:
/// in link order, of each link that from a to b and then that from b to a. Each
/// is the number of its link, and whether it is from a to b.
fn directions(ctx: &Context, links: usize) -> Vec<(usize, bool)> {
    if ctx.has(Fault::DrillAllForthFirst) {
        let one_way = |forth: bool| (0..links).map(move |link| (link, forth));
        return one_way(true).chain(one_way(false)).collect();
    }
    let first = !ctx.has(Fault::DrillBackFirst);
    let both_ways = |link: usize| {
        let link = if ctx.has(Fault::DrillLastLinkFirst) { links - 1 - link } else { link };
        if ctx.has(Fault::DrillOneDrawForLink) {
            return vec![(link, first)];
        }
        vec![(link, first), (link, !first)]
    };
    (0..links).flat_map(both_ways).collect()
}
