//! The two sides of the benchmark, with the same calls.

use crate::answer::{Answer, Network, Space};

/// A program that answers the calls of `include/planner.h`.
pub trait Side {
    const NAME: &'static str;

    fn load(file: &[u8]) -> Network;

    fn distances(file: &[u8], work: &mut [u32]) -> Answer;

    fn space(space: Space, file: &[u8], work: &mut [u32], link: usize, end: usize) -> Answer;

    fn link_repair(file: &[u8], work: &mut [u32], ranks: &[u8], link: usize, end: usize) -> Answer;

    fn prefix_repair(
        file: &[u8],
        work: &mut [u32],
        ranks: &[u8],
        link: usize,
        end: usize,
        prefix: usize,
    ) -> Answer;

    fn route(
        file: &[u8],
        work: &mut [u32],
        ranks: &[u8],
        question: (usize, usize, usize),
        choices: &[u8],
        route: &mut [u8],
    ) -> Answer;

    /// The same three with a table of distances in place of the work area.
    fn link_repair_with(
        file: &[u8],
        table: &[u32],
        ranks: &[u8],
        link: usize,
        end: usize,
    ) -> Answer;

    fn prefix_repair_with(
        file: &[u8],
        table: &[u32],
        ranks: &[u8],
        link: usize,
        end: usize,
        prefix: usize,
    ) -> Answer;

    fn route_with(
        file: &[u8],
        table: &[u32],
        ranks: &[u8],
        question: (usize, usize, usize),
        choices: &[u8],
        route: &mut [u8],
    ) -> Answer;

    /// Both sides get the network in the struct of the C interface. In C it is
    /// passed by value, so that the planner's side has it copied for each call;
    /// the baseline reads it where it is, as a program in Rust would. So the
    /// copy, which the interface asks for, is in the planner's time alone.
    fn write(network: &Network, buffer: &mut [u8]) -> usize;

    fn drill(seed: u32, routers: usize, buffer: &mut [u8]) -> usize;
}
