// Written by dist/erase from crates/cqlp_capture_exchanges/src/label.rt.
//! The first bytes of a text, as many as a summary keeps of a name.

use crate::kit_host::prelude::{KitVec};
use crate::cqlp_note::{IoFault, Target};

/// How many bytes there is room for.
const ROOM: usize = 256;

/// Takes a text as far as there is room for it.
pub(crate) struct Label {
    bytes: [u8; ROOM],
    len: usize,
    /// How many calls found no room, up to 2^64 - 1.
    failures: u64,
    /// How many calls took all of their bytes, up to 2^64 - 1.
    writes: u64,
}

impl Label {
    /// With nothing taken.
    pub(crate) fn new() -> Self {
        Label {
            bytes: [0; ROOM],
            len: 0,
            failures: 0,
            writes: 0,
        }
    }

    /// What was taken. Where a call found no room, all of it is taken up.
    pub(crate) fn as_slice(&self) -> &[u8] {
        &self.bytes[..self.len]
    }

    /// Takes bytes that there is room for.
    pub(crate) fn add(&mut self, bytes: &[u8]) {
        let end = self.len + bytes.len();
        self.bytes[self.len..end].copy_from_slice(bytes);
        self.len = end;
    }

    /// Takes a byte, if there is room for it.
    pub(crate) fn kit_push(&mut self, byte: u8) {
        if self.len < ROOM {
            self.bytes[self.len] = byte;
            self.len += 1;
        }
    }

    /// Lets go of what was taken.
    pub(crate) fn clear(&mut self) {
        self.len = 0;
        self.failures = 0;
        self.writes = 0;
    }
}

impl Target for Label {
    fn write(&mut self, bytes: &[u8]) -> Result<usize, IoFault> {
        let room = ROOM - self.len;
        if bytes.len() <= room {
            self.add(bytes);
            self.writes = self.writes.saturating_add(1);
            return Ok(bytes.len());
        }
        if room == 0 {
            self.failures = self.failures.saturating_add(1);
            return Err(IoFault);
        }
        self.add(&bytes[..room]);
        Ok(room)
    }
}
