//! Played routes.

use super::avoid::Target;
use super::graph::Graph;
use super::table::Table;
use crate::answer::{self, Answer, PAIR, PLAYED};

/// The play: where it stands, and what it has written.
struct Play<'a> {
    graph: &'a Graph,
    choices: &'a [u8],
    buffer: &'a mut [u8],
    at: usize,
    written: usize,
}

impl Play<'_> {
    fn arrive(&mut self, router: usize) {
        self.buffer[self.written] = router as u8;
        self.written += 1;
        self.at = router;
    }

    /// The next choice byte. S and the first hop take none.
    fn choice(&self) -> u32 {
        u32::from(self.choices.get(self.written - 2).copied().unwrap_or(0))
    }

    /// Takes the option that the next choice byte names: at an attached router
    /// delivery, else the next routers ascending. False when it delivers.
    fn step(&mut self, target: &Target) -> bool {
        if target.attached >> self.at & 1 == 1 {
            return false;
        }
        let own = target.to[self.at & 63];
        let mut next = 0u64;
        for arc in self.graph.leaving(self.at) {
            let sum = target.to[arc.head()].wrapping_add(arc.cost());
            next |= u64::from(sum == own) << arc.head();
        }
        for _ in 0..self.choice() % next.count_ones().max(1) {
            next &= next - 1;
        }
        self.arrive(next.trailing_zeros() as usize);
        true
    }
}

/// Plays the route of a pair; any other answer is passed on.
pub fn play(
    graph: &Graph,
    table: Table,
    near: usize,
    answer: &Answer,
    target: &Target,
    choices: &[u8],
    buffer: &mut [u8],
) -> Answer {
    if answer.kind != PAIR {
        return *answer;
    }
    let mut play = Play { graph, choices, buffer, at: near, written: 0 };
    play.arrive(near);
    play.arrive(answer.first);
    if answer.first != answer.endpoint {
        let endpoint = Target::router(table, answer.endpoint);
        while play.at != answer.endpoint {
            play.step(&endpoint);
        }
    }
    while play.step(target) {}
    answer::with_value(PLAYED, play.written as u64)
}
