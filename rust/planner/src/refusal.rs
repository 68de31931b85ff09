//! Refusals in plain words.

use std::error::Error;
use std::fmt::{self, Display, Formatter};

/// Why a file or a question is turned away: a row of the table in docs/SPECIFICATION.md, Refusals.
///
/// Its `Display` says the number, the value, and what they mean.
#[derive(Clone, Copy, Debug, PartialEq, Eq, Hash)]
pub struct Refusal {
    /// The number of the row, 1 to 15 or 18.
    pub number: u32,
    /// The value that the row returns: a block, link or prefix, or a number that is needed. It
    /// is 0 for the rows 1, 3, 14, 15 and 18.
    pub value: u64,
}

impl Refusal {
    /// The row that says that no pair serves. It answers a sound question about a sound file.
    pub const NO_PAIR: u32 = 14;
}

impl Display for Refusal {
    fn fmt(&self, out: &mut Formatter) -> fmt::Result {
        let Refusal { number, value } = *self;
        write!(out, "refused {number} {value}: ")?;
        match number {
            1..=5 => block_words(out, number, value),
            6..=9 => entry_words(out, number, value),
            _ => question_words(out, number, value),
        }
    }
}

impl Error for Refusal {}

/// The rows 1 to 5, about the file and its blocks.
fn block_words(out: &mut Formatter, number: u32, value: u64) -> fmt::Result {
    match number {
        1 => write!(
            out,
            "the file is empty, its length is no multiple of 512, or it is over 6656 bytes"
        ),
        2 => write!(out, "the check of block {value} is wrong"),
        3 => write!(
            out,
            "the head is wrong: its kind, entries or block number, the number of routers, links \
             or prefixes, or a byte that has to be zero"
        ),
        4 => write!(out, "the links and prefixes need another number of blocks: {value}"),
        _ => write!(
            out,
            "block {value} is wrong: its number, kind or entries, or a byte after the last entry \
             that has to be zero"
        ),
    }
}

/// The rows 6 to 9, about the entries of links and prefixes.
fn entry_words(out: &mut Formatter, number: u32, value: u64) -> fmt::Result {
    match number {
        6 => write!(
            out,
            "link {value} is wrong: it names a router that is not there, joins a router to \
             itself, or has cost 0"
        ),
        7 => write!(out, "link {value} joins two routers that an earlier link joins"),
        8 => write!(
            out,
            "prefix {value} is wrong: it has no attachment or over 8, names a router that is not \
             there, or has a byte that has to be zero"
        ),
        _ => write!(out, "prefix {value} names a router twice"),
    }
}

/// The rows 10 to 15 and 18, about the question and what is lent with it.
fn question_words(out: &mut Formatter, number: u32, value: u64) -> fmt::Result {
    match number {
        10 => write!(out, "the work area or the table is too short: it needs {value} cells"),
        11 => write!(out, "the route buffer is too short: it needs {value} bytes"),
        12 => write!(
            out,
            "there is no such link or end: the number of links is {value}, they count from 0, \
             and an end is 0 or 1"
        ),
        13 => write!(
            out,
            "there is no such prefix: the number of prefixes is {value}, and they count from 0"
        ),
        14 => write!(out, "there is no repair: no pair of first hop and endpoint serves"),
        15 => write!(
            out,
            "the ranks are no arrangement: the eight classes have the ranks 0 to 7, each once, in \
             any order"
        ),
        18 => write!(
            out,
            "the table is not the file's: its cells are not the distances between the routers of \
             the file"
        ),
        _ => write!(out, "the table of refusals has no such row"),
    }
}
