//! The check of a block: the sum modulo 65,536 of its first 255 16-bit words,
//! and the ways to add it up wrongly.

use super::layout::*;
use crate::fault::{Context, Fault};

/// The first words of a block stand in so many numbers of eight bytes, four in
/// each; three more words come after them.
const NUMBERS: usize = 63;

/// The check that a block should end with.
pub fn check(ctx: &Context, bytes: Bytes, block: usize) -> u16 {
    let words = (0..CHECKED_WORDS).filter(|word| !left_out(ctx, *word));
    let words: Vec<u16> = words.map(|word| word_of(ctx, bytes, block, word)).collect();
    let sum: u64 = words.iter().copied().map(u64::from).sum();
    let wrong = if ctx.has(Fault::CheckCarryAddedBack) {
        carries_added_back(sum)
    } else if ctx.has(Fault::CheckCarriesOver) {
        sum + carries_between_words(&words)
    } else {
        sum
    };
    (wrong % 65_536) as u16
}

/// Whether a fault leaves the word of this number out.
fn left_out(ctx: &Context, word: usize) -> bool {
    let number = word / 4;
    ctx.has(Fault::CheckOver254Words) && word == CHECKED_WORDS - 1
        || ctx.has(Fault::CheckOver62Numbers) && number == NUMBERS - 1
        || ctx.has(Fault::CheckWithoutLeftOver) && number == NUMBERS
        || ctx.has(Fault::CheckOfTwoLanes) && number < NUMBERS && word % 4 >= 2
}

fn word_of(ctx: &Context, bytes: Bytes, block: usize, word: usize) -> u16 {
    let word = bytes.word(block * BLOCK + 2 * word);
    if ctx.has(Fault::CheckMostByteFirst) { word.swap_bytes() } else { word }
}

/// A sum with each carry out of its lower 16 bits added to them.
fn carries_added_back(mut sum: u64) -> u64 {
    while sum > 0xffff {
        sum = sum % 65_536 + sum / 65_536;
    }
    sum
}

/// What is added where four words at a time are added as one number of eight
/// bytes: each carry out of one of the first three counts as 1 of the next one.
fn carries_between_words(words: &[u16]) -> u64 {
    let mut places = [0u64; 4];
    for (word, value) in words.iter().take(4 * NUMBERS).enumerate() {
        places[word % 4] += u64::from(*value);
    }
    let mut carried = 0;
    let mut carry = 0;
    for place in &places[..3] {
        carry = (place + carry) / 65_536;
        carried += carry;
    }
    carried
}
