// Written by dist/erase from crates/cqlp_columns/src/marks.rt.
//! Two bits for each cell: whether it has a value, and whether that has no bytes.

use crate::kit_std::prelude::{KitVec, Vec};
use crate::cqlp_columns::bits::{add_bit, fill_zeros};
use crate::cqlp_columns::bytes::zeros;
use crate::kit_std::alloc::{AllocError};

/// As many bits of the one sort as of the other, in memory that is taken once: eight in a byte, the first of them the least.
pub(crate) struct Marks {
    /// Which cells have a value of no bytes. As many bytes as there is room for, with zeros after the bits so far; so are those of `valid`.
    empty: Vec<u8>,
    /// Which cells have a value.
    valid: Vec<u8>,
    /// How many cells they are of.
    len: usize,
}

impl Marks {
    /// With room for the bits of at least so many cells. This is the one call that takes memory.
    #[cfg_attr(not(feature = "cli"), inline)]
    pub fn new(room: u32) -> Result<Self, AllocError> {
        let count = room.div_ceil(8) as usize;
        Ok(Marks {
            empty: zeros(count)?,
            valid: zeros(count)?,
            len: 0,
        })
    }

    /// How many cells they are of.
    #[inline(always)]
    #[must_use]
    pub fn len(&self) -> usize {
        self.len
    }

    /// Where the bytes begin that have the bits of cells with a value. They stay there for as long as they live.
    #[cfg_attr(not(feature = "cli"), inline)]
    #[must_use]
    pub fn valid_address(&self) -> *const u8 {
        self.valid.as_ptr()
    }

    /// Where the bytes begin that have the bits of values without bytes.
    #[cfg_attr(not(feature = "cli"), inline)]
    #[must_use]
    pub fn empty_address(&self) -> *const u8 {
        self.empty.as_ptr()
    }

    /// Adds the two bits of a cell.
    #[inline(always)]
    pub(crate) fn kit_push(&mut self, valid: bool, empty: bool) {
        add_bit(self.valid.as_mut_slice(), self.len, valid);
        add_bit(self.empty.as_mut_slice(), self.len, empty);
        self.len += 1;
    }

    /// Removes all bits, and keeps the memory.
    #[cfg_attr(not(feature = "cli"), inline)]
    pub fn clear(&mut self) {
        fill_zeros(self.valid.as_mut_slice());
        fill_zeros(self.empty.as_mut_slice());
        self.len = 0;
    }

    /// The bytes that have the bits of cells with a value, and zeros after the last.
    #[cfg_attr(not(feature = "cli"), inline)]
    #[must_use]
    pub fn valid(&self) -> &[u8] {
        &self.valid[..self.len.div_ceil(8)]
    }

    /// The bytes that have the bits of values without bytes, and zeros after the last.
    #[cfg_attr(not(feature = "cli"), inline)]
    #[must_use]
    pub fn empty(&self) -> &[u8] {
        &self.empty[..self.len.div_ceil(8)]
    }
}
