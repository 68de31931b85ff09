//! The LSA checksum (RFC 2328, 12.1.7; RFC 905, Annex B): Fletcher's two sums over
//! an LSA without its age, the checksum's own two bytes included.
//!
//! The second sum adds up the first after each byte. So a byte counts in it as often
//! as there are bytes from it to the end: both sums are worked out with these weights.

use super::layout::{CHECKSUM, OPTIONS};
use super::mistake::Mistake;
use crate::fault::Context;

/// The sums are taken modulo this.
const MODULUS: u64 = 255;

/// Both sums of an LSA, modulo 255.
pub fn sums(ctx: &Context, lsa: &[u8]) -> (u64, u64) {
    let from = if ctx.has_mistake(Mistake::FletcherWithAge) { 0 } else { OPTIONS };
    let to = lsa.len() - usize::from(ctx.has_mistake(Mistake::FletcherWithoutLastByte));
    let to = if ctx.has_mistake(Mistake::FletcherOfHeader) { to.min(20) } else { to };
    let modulus = if ctx.has_mistake(Mistake::FletcherModulo256) { 256 } else { MODULUS };
    let (first, second) = sums_of(lsa.get(from..to).unwrap_or_default());
    let wrapped = |sum: u64| match sum {
        _ if ctx.has_mistake(Mistake::FletcherOf16Bits) => sum % (1 << 16),
        _ if ctx.has_mistake(Mistake::FletcherOf32Bits) => sum % (1 << 32),
        _ => sum,
    };
    (wrapped(first) % modulus, wrapped(second) % modulus)
}

/// The sum of some bytes, and the sum in which each counts by its weight.
fn sums_of(bytes: &[u8]) -> (u64, u64) {
    let weights = (1..=bytes.len() as u64).rev();
    let weighted = bytes.iter().zip(weights).map(|(byte, weight)| u64::from(*byte) * weight);
    (bytes.iter().copied().map(u64::from).sum(), weighted.sum())
}

/// Whether the sums are what they should be.
pub fn is_right(ctx: &Context, lsa: &[u8]) -> bool {
    let (first, second) = sums(ctx, lsa);
    if ctx.has_mistake(Mistake::FletcherMadeAnew) {
        let mut anew = lsa.to_vec();
        set_checksum(&mut anew);
        return anew == lsa;
    }
    let first = first == 0 || ctx.has_mistake(Mistake::FletcherSecondSumOnly);
    let second = second == 0 || ctx.has_mistake(Mistake::FletcherFirstSumOnly);
    first && second
}

/// Puts the right checksum into an LSA, with bytes from 1 to 255.
pub fn set_checksum(lsa: &mut [u8]) {
    settle(lsa, CHECKSUM);
}

/// Changes two neighbouring bytes so that both sums become 0. With 0 in their place
/// let the sums be f and s, and let w be the weight of the second of the two. Then
/// x + y = -f and (w + 1) x + w y = -s, so that x = w f - s and y = -f - x.
pub fn settle(lsa: &mut [u8], at: usize) {
    lsa[at..at + 2].fill(0);
    let weight = (lsa.len() - at - 1) as u64;
    let (first, second) = sums_of(&lsa[OPTIONS..]);
    let (first, second) = (first % MODULUS, second % MODULUS);
    let x = (weight * first + MODULUS - second) % MODULUS;
    let y = (2 * MODULUS - first - x) % MODULUS;
    // 0 and 255 are the same modulo 255; a checksum of 0 is not allowed.
    let not_zero = |value: u64| if value == 0 { 255 } else { value as u8 };
    (lsa[at], lsa[at + 1]) = (not_zero(x), not_zero(y));
}
