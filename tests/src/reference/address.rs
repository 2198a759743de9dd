//! Addresses joined (01, Chains; T-05).

use super::plan::FIRST;

/// The first bits of one address, as many as the position says, and the rest of the other; all of the first from 128 on.
#[inline(always)]
pub fn join(high: u128, low: u128, at: u8) -> u128 {
    let first = FIRST[at.min(128) as usize];
    high & first | low & !first
}
