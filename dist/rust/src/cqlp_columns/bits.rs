// Written by dist/erase from crates/cqlp_columns/src/bits.rt.
//! Bits in a row.

use crate::kit_std::prelude::{KitVec, Vec};
use crate::cqlp_columns::bytes::zeros;
use crate::kit_std::alloc::{AllocError};

/// Bits in memory that is taken once: eight in a byte, the first of them the least.
pub(crate) struct Bits {
    /// As many as there is room for. There are zeros after the bits so far.
    bytes: Vec<u8>,
    len: usize,
}

impl Bits {
    /// With room for at least so many bits. This is the one call that takes memory.
    #[cfg_attr(not(feature = "cli"), inline)]
    pub fn new(room: u32) -> Result<Self, AllocError> {
        let count = room.div_ceil(8) as usize;
        Ok(Bits {
            bytes: zeros(count)?,
            len: 0,
        })
    }

    /// Where the bytes begin that have them. They stay there for as long as they live.
    #[cfg_attr(not(feature = "cli"), inline)]
    #[must_use]
    pub fn address(&self) -> *const u8 {
        self.bytes.as_ptr()
    }

    /// Adds a bit at the end.
    #[inline(always)]
    pub(crate) fn kit_push(&mut self, bit: bool) {
        add_bit(self.bytes.as_mut_slice(), self.len, bit);
        self.len += 1;
    }

    /// Removes all bits, and keeps the memory.
    #[cfg_attr(not(feature = "cli"), inline)]
    pub fn clear(&mut self) {
        fill_zeros(self.bytes.as_mut_slice());
        self.len = 0;
    }

    /// The bytes that have the bits, and zeros after the last.
    #[cfg_attr(not(feature = "cli"), inline)]
    #[must_use]
    pub fn as_slice(&self) -> &[u8] {
        &self.bytes[..self.len.div_ceil(8)]
    }
}

/// Adds the bit after so many, where the bytes have only zeros.
#[inline(always)]
pub(crate) fn add_bit(bytes: &mut [u8], at: usize, bit: bool) {
    if bit {
        bytes[at / 8] += 1 << (at % 8);
    }
}

/// Makes each byte a zero.
pub(crate) fn fill_zeros(bytes: &mut [u8]) {
    for byte in bytes.iter_mut() {
        *byte = 0;
    }
}
