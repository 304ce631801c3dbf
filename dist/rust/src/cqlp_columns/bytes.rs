// Written by dist/erase from crates/cqlp_columns/src/bytes.rt.
//! Bytes in a row.

use crate::kit_std::prelude::{KitVec, Vec};
use crate::cqlp_columns::bits::fill_zeros;
use crate::kit_std::alloc::{AllocError};

/// Bytes in memory that is taken once.
pub(crate) struct Bytes {
    /// The bytes, and after them zeros or what is left of others before them, in all of the room, so that more are written over these at once.
    memory: Vec<u8>,
    len: usize,
}

impl Bytes {
    /// With room for so many. This is the one call that takes memory.
    #[cfg_attr(not(feature = "cli"), inline)]
    pub fn new(room: usize) -> Result<Self, AllocError> {
        Ok(Bytes {
            memory: zeros(room)?,
            len: 0,
        })
    }

    /// How many there are.
    #[inline(always)]
    #[must_use]
    pub fn len(&self) -> usize {
        self.len
    }

    /// How many there is room for.
    #[inline(always)]
    #[must_use]
    pub fn room(&self) -> usize {
        self.memory.len()
    }

    /// The bytes.
    #[cfg_attr(not(feature = "cli"), inline)]
    #[must_use]
    pub fn as_slice(&self) -> &[u8] {
        &self.memory[..self.len]
    }

    /// Where they begin. They stay there for as long as they live.
    #[cfg_attr(not(feature = "cli"), inline)]
    #[must_use]
    pub fn address(&self) -> *const u8 {
        self.memory.as_ptr()
    }

    /// Adds bytes at the end.
    #[inline(always)]
    pub(crate) fn kit_push(&mut self, more: &[u8]) {
        let end = self.len + more.len();
        self.memory.slice_mut(self.len..end).copy_from_slice(more);
        self.len = end;
    }

    /// Adds this many zeros at the end.
    #[cfg_attr(not(feature = "cli"), inline)]
    pub(crate) fn push_zeros(&mut self, count: usize) {
        let end = self.len + count;
        fill_zeros(self.memory.slice_mut(self.len..end));
        self.len = end;
    }

    /// Removes all bytes, and keeps the memory.
    #[cfg_attr(not(feature = "cli"), inline)]
    pub fn clear(&mut self) {
        self.len = 0;
    }
}

/// This many zeros, in memory for just as many.
#[cfg_attr(not(feature = "cli"), inline)]
pub(crate) fn zeros(count: usize) -> Result<Vec<u8>, AllocError> {
    let mut memory = Vec::kit_with_capacity(count)?;
    memory.kit_resize(count, 0)?;
    // There was room, so `resize` took no more; but its contract does not say so.
    if memory.capacity() > count {
        return Err(AllocError);
    }
    Ok(memory)
}
