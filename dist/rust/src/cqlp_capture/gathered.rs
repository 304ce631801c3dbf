// Written by dist/erase from crates/cqlp_capture/src/gathered.rt.
//! Bytes out of pieces.

use crate::kit_std::prelude::{KitVec, Vec};
use crate::kit_std::alloc::{AllocError};

/// Where bytes lie that were wanted.
#[derive(Clone, Copy)]
pub(crate) enum BytesPlace {
    /// They are this many bytes at the front of the input.
    InInput { len: usize },
    /// They are all that is held.
    Held,
}

/// Bytes that were wanted: how many of them are the input's, and where all of them lie.
#[derive(Clone, Copy)]
pub(crate) struct FoundBytes {
    pub used: usize,
    pub lies: BytesPlace,
}

/// The first of the bytes that are wanted, in memory that is taken once: its capacity is the room, for as long as it lives.
pub(crate) struct GatheredBytes {
    /// The bytes, and after them what is left of longer ones before them, so that a piece is copied over them at once.
    bytes: Vec<u8>,
    len: usize,
    /// Whether they were found, so that the next bytes that are wanted have not begun.
    found: bool,
    room: usize,
}

impl GatheredBytes {
    /// With room for this many bytes. This is the one call that takes memory.
    #[cfg_attr(not(feature = "cli"), inline)]
    pub fn new(room: usize) -> Result<Self, AllocError> {
        Ok(GatheredBytes {
            bytes: Vec::kit_with_capacity(room)?,
            len: 0,
            found: false,
            room,
        })
    }

    /// How many of the bytes that are wanted have come.
    #[cfg_attr(not(feature = "cli"), inline)]
    #[must_use]
    pub fn pending(&self) -> usize {
        if self.found { 0 } else { self.len }
    }

    /// How many bytes its memory has places for.
    #[cfg_attr(not(feature = "cli"), inline)]
    #[must_use]
    pub fn capacity(&self) -> usize {
        self.bytes.capacity()
    }

    /// Removes all bytes, and keeps the memory.
    #[cfg_attr(not(feature = "cli"), inline)]
    pub fn clear(&mut self) {
        self.found = false;
        self.len = 0;
    }

    /// The bytes that are wanted, of which those that are held have come, if the input has the others. They are lent from
    /// the input where none had come. Else the input is held too.
    #[inline(always)]
    pub(crate) fn gather(&mut self, wanted: usize, input: &[u8]) -> Option<FoundBytes> {
        self.begin();
        let missing = wanted - self.len;
        if input.len() < missing {
            self.append(input);
            return None;
        }
        if self.len == 0 {
            self.found = true;
            let lies = BytesPlace::InInput { len: wanted };
            return Some(FoundBytes { used: wanted, lies });
        }
        self.append(&input[..missing]);
        self.found = true;
        let lies = BytesPlace::Held;
        Some(FoundBytes {
            used: missing,
            lies,
        })
    }

    /// The bytes that lie there.
    #[inline]
    pub(crate) fn lend<'a>(&'a self, input: &'a [u8], lies: BytesPlace) -> &'a [u8] {
        match lies {
            BytesPlace::InInput { len } => &input[..len],
            BytesPlace::Held => &self.bytes[..self.len],
        }
    }

    /// Holds only bytes of those that are wanted.
    #[inline]
    fn begin(&mut self) {
        if self.found {
            self.clear();
        }
    }

    /// Adds a piece at the end.
    #[cfg_attr(not(feature = "cli"), inline)]
    fn append(&mut self, piece: &[u8]) {
        let start = self.len;
        let end = start + piece.len();
        let written = self.bytes.len();
        if written < end {
            add_zeros(&mut self.bytes, end - written);
        }
        self.bytes.slice_mut(start..end).copy_from_slice(piece);
        self.found = false;
        self.len = end;
    }
}

/// Adds this many zeros.
#[cfg_attr(not(feature = "cli"), inline)]
fn add_zeros(bytes: &mut Vec<u8>, count: usize) {
    for _ in 0..count {
        bytes.push_reserved(0);
    }
}
