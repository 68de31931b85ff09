//! The drills: what the call drill returns and what it leaves in the buffer.
//!
//! The program reads requests of eight bytes each: the seed, 32 bits, then the
//! number of routers and the length of the buffer, 16 bits each, least byte
//! first. For each request it prints one line:
//!
//! ```text
//! drill SEED ROUTERS LENGTH written COUNT left RUN RUN ...
//! ```
//!
//! The buffer is the first LENGTH of 1,100 bytes, each of them 7 before the call.
//! The runs show all 1,100 bytes after it: a run is `BYTE`, or `TIMES*BYTE` for
//! several equal bytes one after the other.

use super::cases::Case;
use super::common::text;
use crate::answer::{Answer, drill};
use crate::fault::Context;
use crate::words::spaced;

/// The bytes of which the buffer is the first part: a few more than a drill has.
const BYTES: usize = 1100;
/// What stands in each byte before a call.
const BEFORE: u8 = 7;
/// Bytes of a request.
const REQUEST: usize = 8;

/// The seed with which every number of routers is asked for.
const SEED: u32 = 7490;
/// Seeds at the limits of 16, 31 and 32 bits, and the number that a draw
/// multiplies by.
const SEEDS: [u32; 9] =
    [0, 1, 65_535, 65_536, 1_664_525, 2_147_483_647, 2_147_483_648, 4_294_967_294, 4_294_967_295];
/// Lengths about those of one block and of a drill.
const LENGTHS: [u16; 9] = [0, 1, 511, 512, 1023, 1024, 1025, 1099, 1100];

/// A seed, a number of routers and the length of a buffer.
type Request = (u32, u16, u16);

/// Every number of routers up to 70 and some far out of range, three numbers with
/// seeds of every kind, and some with buffers of many lengths.
fn requests() -> Vec<Request> {
    let whole = BYTES as u16;
    let mut requests: Vec<Request> = Vec::new();
    requests.extend((0..=70).map(|routers| (SEED, routers, whole)));
    // The lower 8 bits of some of these are in range.
    requests.extend([127, 128, 255, 256, 259, 320, 65_535].map(|routers| (SEED, routers, whole)));
    for seed in SEEDS {
        requests.extend([3, 4, 64].map(|routers| (seed, routers, whole)));
    }
    for length in LENGTHS {
        requests.extend([2, 3, 64, 65].map(|routers| (1, routers, length)));
    }
    requests
}

/// The requests as the program reads them.
pub fn case() -> Case {
    let bytes = |(seed, routers, length): Request| {
        let numbers = [routers, length].map(u16::to_le_bytes).concat();
        [seed.to_le_bytes().to_vec(), numbers].concat()
    };
    Case { name: "drills".to_string(), file: requests().into_iter().flat_map(bytes).collect() }
}

/// What is printed for some requests.
pub fn lines(ctx: &Context, requests: &[u8]) -> String {
    let number =
        |bytes: &[u8]| bytes.iter().rev().fold(0, |sum, byte| 256 * sum + u32::from(*byte));
    let line = |request: &[u8]| {
        let (seed, routers, length) =
            (number(&request[..4]), number(&request[4..6]), number(&request[6..]));
        answered(ctx, seed, routers, length as usize)
    };
    text(&requests.chunks_exact(REQUEST).map(line).collect::<Vec<String>>())
}

/// The line of one request.
fn answered(ctx: &Context, seed: u32, routers: u32, length: usize) -> String {
    let mut bytes = [BEFORE; BYTES];
    let outcome = drill(ctx, seed, u64::from(routers), &bytes[..length]);
    bytes[..length].copy_from_slice(&outcome.left.made);
    let Answer::Written(count) = outcome.answer else {
        unreachable!("a drill answers with a count");
    };
    format!("drill {seed} {routers} {length} written {count} left {}", runs(&bytes))
}

/// Bytes as runs of equal ones.
fn runs(bytes: &[u8]) -> String {
    let run = |run: &[u8]| match run.len() {
        1 => format!("{}", run[0]),
        times => format!("{times}*{}", run[0]),
    };
    spaced(bytes.chunk_by(|one, next| one == next).map(run))
}
