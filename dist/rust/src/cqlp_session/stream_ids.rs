// Written by dist/erase from crates/cqlp_session/src/stream_ids.rt.
//! The free stream ids, one bit to an id, so that the least is found a word at a time.

use crate::kit_std::prelude::{KitVec, Vec};
use crate::kit_std::alloc::{AllocError};

const BITS: usize = 64;

/// Words with a bit for each of `len` ids and for those that fill up the last word, all set, in memory for just these.
#[cfg_attr(not(feature = "cli"), inline)]
pub(crate) fn all(len: usize) -> Result<Vec<u64>, AllocError> {
    let count = len.div_ceil(BITS);
    let mut words = Vec::kit_with_capacity(count)?;
    for _ in 0..count {
        words.push_reserved(u64::MAX);
    }
    Ok(words)
}

/// The place of the first bit that is set.
pub(crate) fn first(words: &[u64]) -> Option<usize> {
    for (i, word) in words.iter().enumerate() {
        if *word > 0 {
            return Some(i * BITS + word.trailing_zeros() as usize);
        }
    }
    None
}

/// Sets the bit at a place.
pub(crate) fn set(words: &mut [u64], place: usize) {
    let word = &mut words[place / BITS];
    *word |= 1 << (place % BITS);
}

/// Clears the bit at a place.
pub(crate) fn clear(words: &mut [u64], place: usize) {
    let word = &mut words[place / BITS];
    *word &= !(1 << (place % BITS));
}
