// Written by dist/erase from crates/cqlp_note/src/gathered.rt.
//! The content of a field out of pieces.

use crate::kit_std::prelude::{KitVec, Vec};
use crate::cqlp_note::refusal::NoMemory;
use crate::cqlp_note::streams::{IoFault, Source};

/// The bytes so far of a content, in memory that is taken once: its capacity is the room, and it lies in one place, for as
/// long as it lives.
pub(crate) struct GatheredContent {
    /// The content, and after it what is left of longer ones before it, so that a piece is copied over them at once.
    bytes: Vec<u8>,
    len: u32,
    room: u32,
}

impl GatheredContent {
    /// With room for a content of up to `room` bytes. This is the one call that takes memory.
    #[cfg_attr(not(feature = "cli"), inline)]
    pub fn new(room: u32) -> Result<Self, NoMemory> {
        Ok(GatheredContent {
            bytes: Vec::kit_with_capacity(room as usize)?,
            len: 0,
            room,
        })
    }

    /// The bytes so far.
    #[cfg_attr(not(feature = "cli"), inline)]
    #[must_use]
    pub fn as_slice(&self) -> &[u8] {
        &self.bytes[..self.len as usize]
    }

    /// Where its bytes lie from the index `start` on, or where they end if they are fewer.
    #[cfg_attr(not(feature = "cli"), inline)]
    #[must_use]
    pub fn address(&self, start: usize) -> *const u8 {
        address_after(&self.bytes, start.min(self.len as usize))
    }

    /// How many bytes there are.
    #[cfg_attr(not(feature = "cli"), inline)]
    #[must_use]
    pub fn len(&self) -> u32 {
        self.len
    }

    /// Whether there are none.
    #[cfg_attr(not(feature = "cli"), inline)]
    #[must_use]
    pub fn is_empty(&self) -> bool {
        self.len == 0
    }

    /// How many bytes its memory has places for.
    #[cfg_attr(not(feature = "cli"), inline)]
    #[must_use]
    pub fn capacity(&self) -> usize {
        self.bytes.capacity()
    }

    /// Removes all bytes, and keeps the memory.
    #[cfg_attr(not(feature = "cli"), inline)]
    pub fn clear(&mut self) {
        self.len = 0;
    }

    /// Adds a piece at the end.
    #[cfg_attr(not(feature = "cli"), inline)]
    pub(crate) fn append(&mut self, piece: &[u8]) {
        let start = self.len as usize;
        let end = start + piece.len();
        let written = self.bytes.len();
        if written < end {
            add_zeros(&mut self.bytes, end - written);
        }
        self.bytes.slice_mut(start..end).copy_from_slice(piece);
        self.len = end as u32;
    }

    /// Adds at the end what one call of a reader gives, which is up to `most` bytes: it reads them where they belong.
    pub(crate) fn read_from<R: Source>(&mut self, reader: &mut R, most: usize) -> Result<usize, IoFault> {
        let start = self.len as usize;
        let end = start + most;
        fill_to(&mut self.bytes, end);
        match reader.read(self.bytes.slice_mut(start..end)) {
            Ok(count) => {
                self.len += count as u32;
                Ok(count)
            }
            Err(IoFault) => Err(IoFault),
        }
    }
}

/// The memory of a vector is in a block, so that addresses behind its first are counted on from it. It has nothing to do.
#[cfg_attr(not(feature = "cli"), inline)]
fn has_address(bytes: &Vec<u8>)
{}

/// Where a byte of a vector lies, or where its bytes end.
#[cfg_attr(not(feature = "cli"), inline)]
fn address_after(bytes: &Vec<u8>, start: usize) -> *const u8 {
    has_address(bytes);
    unsafe { bytes.as_ptr().byte_add(start) }
}

/// Adds zeros behind the bytes that there are, so that there are at least so many.
#[cfg_attr(not(feature = "cli"), inline)]
fn fill_to(bytes: &mut Vec<u8>, end: usize) {
    let written = bytes.len();
    if written < end {
        add_zeros(bytes, end - written);
    }
}

/// Adds this many zeros.
#[cfg_attr(not(feature = "cli"), inline)]
fn add_zeros(bytes: &mut Vec<u8>, count: usize) {
    for _ in 0..count {
        bytes.push_reserved(0);
    }
}
