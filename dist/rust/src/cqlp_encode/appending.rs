// Written by dist/erase from crates/cqlp_encode/src/appending.rt.
//! A frame behind bytes in memory, written while it is checked.

use crate::kit_std::prelude::{KitVec, Vec};
use crate::cqlp_encode::staged::Staged;
use crate::cqlp_message::{Frame, PartRef, TakesParts, Tally, Unfit};
use crate::cqlp_note::{Header, IoFault, Target};
use core::mem::replace;

/// The longest body of a frame.
const LONGEST: u64 = Header::LONGEST_BODY as u64;

error! {
/// Why a frame was not appended. The bytes are then as they were.
#[derive(Clone, Copy, Debug, PartialEq, Eq)]
pub enum AppendError {
    /// No bytes spell the frame.
    #[error("{0}")]
    Unfit(Unfit),
    /// There was no room for the frame, and memory was refused.
    #[error("no memory")]
    NoMemory,
}
}

/// Puts the bytes of a frame behind those that are there, and answers how many the frame has: the bytes that
/// [`encode`](crate::cqlp_encode::encode) writes. Section 2 of `native_protocol_v4.spec`.
///
/// Each part is measured and then written, so a frame is gone through once, where `encode` goes through it twice. The bytes grow as
/// `Vec::extend_from_slice` has them grow, by up to 512 bytes or by one content at a time, and in all by no more than a frame can
/// have: 268,435,465. Where there is room for the frame it is appended, whatever the allocator says: no memory is asked for.
///
/// # Errors
///
/// [`AppendError::Unfit`] where [`Frame::unfit`] says why no bytes spell the frame, and else [`AppendError::NoMemory`] where the bytes have
/// no room for it and memory was refused. The bytes are then as they were; what memory they got they keep.
pub fn append(frame: &Frame, bytes: &mut Vec<u8>) -> Result<u32, AppendError> {
    let start = bytes.len();
    if let Some(len) = extend(frame, bytes) {
        let header = frame.header(len - 9);
        bytes[start..start + 9].copy_from_slice(&header.write());
        return Ok(len);
    }
    bytes.truncate(start);
    match frame.measure() {
        Ok(_) => Err(AppendError::NoMemory),
        Err(why) => Err(AppendError::Unfit(why)),
    }
}

/// Puts nine bytes and the parts of a frame behind the bytes, and answers how many these are, if the frame fits and there was memory
/// for all; if not, some bytes are there.
fn extend(frame: &Frame, bytes: &mut Vec<u8>) -> Option<u32> {
    if !frame.is_directed() || !frame.agrees() || !frame.message.has_its_cells() {
        return None;
    }
    let none = Vec::new();
    let mut target = Growing::behind(replace(bytes, none));
    let len = write_checked(frame, &mut target);
    *bytes = target.into_bytes();
    len
}

/// Writes nine bytes and the parts of a frame, each once it is measured, and answers how many bytes these are, if all parts fit and the
/// target took them all.
fn write_checked<W: Target>(frame: &Frame, target: &mut W) -> Option<u32> {
    let mut walk = Checked {
        out: Staged::new(target, 0),
        tally: Tally::new(),
    };
    walk.out.put(&[0; 9]);
    frame.walk(&mut walk);
    let Checked { mut out, tally } = walk;
    out.flush();
    let taken = out.taken();
    let _ = out.into_inner();
    if !is_whole(&tally) {
        return None;
    }
    if taken < tally.size + 9 {
        return None;
    }
    Some(taken as u32)
}

/// Takes parts, and passes each on while all so far have no more bytes than a body.
pub struct Checked<'a, W: Target> {
    out: Staged<'a, W>,
    tally: Tally,
}

impl<'a, W: Target> TakesParts for Checked<'a, W> {
    #[inline(always)]
    fn take(&mut self, part: PartRef<'_>) {
        self.tally.take(part);
        if self.tally.size <= LONGEST {
            self.out.take(part);
        }
    }
}

/// Whether everything fits, and a body has as many bytes.
fn is_whole(tally: &Tally) -> bool {
    tally.counts && tally.texts && tally.cells && tally.size <= LONGEST
}

/// Bytes in memory that more are put behind. The room that there is is filled before a refusal of memory is reported.
pub struct Growing {
    bytes: Vec<u8>,
    /// How many bytes there was room for at first.
    room: usize,
    /// Whether memory was refused once, after which none is asked for.
    refused: bool,
    /// How many calls found no memory, up to 2^64 - 1.
    failures: u64,
    /// How many calls took all of their bytes, up to 2^64 - 1.
    writes: u64,
}

impl Growing {
    /// Behind these bytes, and no call made.
    fn behind(bytes: Vec<u8>) -> Growing {
        Growing {
            room: bytes.capacity(),
            bytes,
            refused: false,
            failures: 0,
            writes: 0,
        }
    }

    /// The bytes. Where a call found no memory they fill the room that there was at first.
    fn into_bytes(self) -> Vec<u8> {
        let Growing {
            bytes,
            room: _,
            refused: _,
            failures: _,
            writes: _,
        } = self;
        bytes
    }

    /// Takes as many bytes as there is room for, where no memory was found for all of them.
    #[cold]
    fn fill(&mut self, bytes: &[u8]) -> Result<usize, IoFault> {
        self.refused = true;
        let room = self.bytes.capacity().saturating_sub(self.bytes.len());
        if room == 0 {
            self.failures = self.failures.saturating_add(1);
            return Err(IoFault);
        }
        let count = room.min(bytes.len());
        let _ = self.bytes.kit_extend_from_slice(&bytes[..count]);
        if count == bytes.len() {
            self.writes = self.writes.saturating_add(1);
        }
        Ok(count)
    }
}

impl Target for Growing {
    fn write(&mut self, bytes: &[u8]) -> Result<usize, IoFault> {
        if self.refused {
            return self.fill(bytes);
        }
        match self.bytes.kit_extend_from_slice(bytes) {
            Ok(()) => {
                self.writes = self.writes.saturating_add(1);
                Ok(bytes.len())
            }
            Err(_) => self.fill(bytes),
        }
    }
}
