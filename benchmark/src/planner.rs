//! The planner's side: its static library.

use crate::answer::{Answer, Network, Space};
use crate::side::Side;
use planner::raw;

/// The proved planner.
pub struct Planner;

// Every call below is sound for the same reason: a slice lends a pointer and
// its length for the time of the call, the slices that this program lends do not
// overlap, and the structs are those of `planner::raw`.
impl Side for Planner {
    const NAME: &'static str = "planner";

    fn load(file: &[u8]) -> Network {
        unsafe { raw::planner_load(file.as_ptr(), file.len()) }
    }

    fn distances(file: &[u8], work: &mut [u32]) -> Answer {
        unsafe { raw::planner_distances(file.as_ptr(), file.len(), work.as_mut_ptr(), work.len()) }
    }

    fn space(space: Space, file: &[u8], work: &mut [u32], link: usize, end: usize) -> Answer {
        let (bytes, length) = (file.as_ptr(), file.len());
        let (cells, count) = (work.as_mut_ptr(), work.len());
        match space {
            Space::P => unsafe { raw::planner_p_space(bytes, length, cells, count, link, end) },
            Space::ExtendedP => unsafe {
                raw::planner_extended_p_space(bytes, length, cells, count, link, end)
            },
            Space::Q => unsafe { raw::planner_q_space(bytes, length, cells, count, link, end) },
        }
    }

    fn link_repair(file: &[u8], work: &mut [u32], ranks: &[u8], link: usize, end: usize) -> Answer {
        unsafe {
            raw::planner_link_repair(
                file.as_ptr(),
                file.len(),
                work.as_mut_ptr(),
                work.len(),
                ranks.as_ptr(),
                ranks.len(),
                link,
                end,
            )
        }
    }

    fn prefix_repair(
        file: &[u8],
        work: &mut [u32],
        ranks: &[u8],
        link: usize,
        end: usize,
        prefix: usize,
    ) -> Answer {
        unsafe {
            raw::planner_prefix_repair(
                file.as_ptr(),
                file.len(),
                work.as_mut_ptr(),
                work.len(),
                ranks.as_ptr(),
                ranks.len(),
                link,
                end,
                prefix,
            )
        }
    }

    fn route(
        file: &[u8],
        work: &mut [u32],
        ranks: &[u8],
        (link, end, prefix): (usize, usize, usize),
        choices: &[u8],
        route: &mut [u8],
    ) -> Answer {
        unsafe {
            raw::planner_route(
                file.as_ptr(),
                file.len(),
                work.as_mut_ptr(),
                work.len(),
                ranks.as_ptr(),
                ranks.len(),
                link,
                end,
                prefix,
                choices.as_ptr(),
                choices.len(),
                route.as_mut_ptr(),
                route.len(),
            )
        }
    }

    fn link_repair_with(
        file: &[u8],
        table: &[u32],
        ranks: &[u8],
        link: usize,
        end: usize,
    ) -> Answer {
        unsafe {
            raw::planner_link_repair_with(
                file.as_ptr(),
                file.len(),
                table.as_ptr(),
                table.len(),
                ranks.as_ptr(),
                ranks.len(),
                link,
                end,
            )
        }
    }

    fn prefix_repair_with(
        file: &[u8],
        table: &[u32],
        ranks: &[u8],
        link: usize,
        end: usize,
        prefix: usize,
    ) -> Answer {
        unsafe {
            raw::planner_prefix_repair_with(
                file.as_ptr(),
                file.len(),
                table.as_ptr(),
                table.len(),
                ranks.as_ptr(),
                ranks.len(),
                link,
                end,
                prefix,
            )
        }
    }

    fn route_with(
        file: &[u8],
        table: &[u32],
        ranks: &[u8],
        (link, end, prefix): (usize, usize, usize),
        choices: &[u8],
        route: &mut [u8],
    ) -> Answer {
        unsafe {
            raw::planner_route_with(
                file.as_ptr(),
                file.len(),
                table.as_ptr(),
                table.len(),
                ranks.as_ptr(),
                ranks.len(),
                link,
                end,
                prefix,
                choices.as_ptr(),
                choices.len(),
                route.as_mut_ptr(),
                route.len(),
            )
        }
    }

    fn write(network: &Network, buffer: &mut [u8]) -> usize {
        unsafe { raw::planner_write(network.clone(), buffer.as_mut_ptr(), buffer.len()) }
    }

    fn drill(seed: u32, routers: usize, buffer: &mut [u8]) -> usize {
        unsafe { raw::planner_drill(seed, routers, buffer.as_mut_ptr(), buffer.len()) }
    }
}
