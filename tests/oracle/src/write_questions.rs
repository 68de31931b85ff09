//! Questions that write a file, each with the length of the buffer that is lent
//! for it: drills and networks, in range and out of it.

use crate::answer::Question;
use crate::columns::Columns;
use crate::file::{BLOCK, LARGEST, write};
use crate::generate;
use crate::network::Network;
use crate::random::Random;
use crate::row::Cause;
use crate::spoil;
use crate::worked;

/// A question and the length of its buffer.
pub type Asked = (Question, usize);

/// Bytes of the file of a drill: the head, and one block of links.
pub const DRILL: usize = 2 * BLOCK;

/// Numbers of routers that are out of a drill's range; the lower 8, 16 or 32 bits
/// of some are in range.
pub const NO_DRILL: [u64; 13] =
    [0, 1, 2, 65, 66, 128, 255, 256, 256 + 3, 65_536 + 3, 1 << 32, (1 << 32) + 3, u64::MAX];

/// Questions of every kind, made from a seed.
pub fn questions(random: &mut Random) -> Vec<Asked> {
    [drills(random), networks(random), outside(1, random)].concat()
}

/// Drills in range and out of it, with buffers of many lengths.
fn drills(random: &mut Random) -> Vec<Asked> {
    let mut asked = Vec::new();
    for routers in NO_DRILL.into_iter().chain([3, 4, 5, 17, 63, 64]) {
        for seed in [1, random.any() as u32] {
            let lengths = lengths_about(DRILL).into_iter().chain([BLOCK, random.below(DRILL)]);
            asked.extend(lengths.map(|length| (Question::Drill { seed, routers }, length)));
        }
    }
    asked
}

/// Networks of one block to the largest size, with buffers of many lengths.
fn networks(random: &mut Random) -> Vec<Asked> {
    let mut networks =
        vec![worked::lone_router(), worked::ring_4_with_prefix(), worked::neighbours_only()];
    let sizes = [(9, 36, 0), (20, 0, 15), (64, 85, 3), (64, 128, 128)];
    networks.extend(
        sizes.map(|(routers, links, prefixes)| generate::sized(routers, links, prefixes, random)),
    );
    networks.iter().flat_map(|network| of_network(network, random)).collect()
}

/// A network with zeros in the cells that no entry speaks of, and then with
/// anything in them.
pub fn of_network(network: &Network, random: &mut Random) -> Vec<Asked> {
    let mut columns = Columns::of(network);
    let lengths = lengths_about(write(network).len());
    let zeros = lengths.map(|length| (of_columns(&columns), length));
    spoil::unused_cells(&mut columns, random);
    let others = lengths.map(|length| (of_columns(&columns), length));
    [zeros, others].concat()
}

/// Networks with one cause that puts them outside the limits, each of its values
/// so many times, with a buffer that is enough for every file.
pub fn outside(times: usize, random: &mut Random) -> Vec<Asked> {
    let mut asked = Vec::new();
    for cause in Cause::OF_NETWORKS {
        for value in 0..times * spoil::VALUES {
            let mut columns = spoil::network(cause, value, random);
            if random.one_in(2) {
                spoil::unused_cells(&mut columns, random);
            }
            asked.push((of_columns(&columns), LARGEST));
        }
    }
    asked
}

/// Lengths of a buffer for a file of so many bytes: none, too short, and enough.
fn lengths_about(length: usize) -> [usize; 5] {
    [0, length - 1, length, length + 1, length + 76]
}

fn of_columns(columns: &Columns) -> Question {
    Question::Write { network: Box::new(columns.clone()) }
}
