// Written by dist/erase from crates/cqlp_compose/src/memory.rt.
//! Bytes that are written into memory.

use crate::kit_std::prelude::{KitVec, Vec};
use crate::cqlp_note::{IoFault, Target};

/// Takes bytes behind those that it has. It fails where memory is refused.
pub struct VecTarget {
    bytes: Vec<u8>,
    /// How many calls found no memory, up to 2^64 - 1.
    failures: u64,
    /// How many calls took all of their bytes, up to 2^64 - 1.
    writes: u64,
}

impl VecTarget {
    /// With these bytes, and no call made.
    pub fn new(bytes: Vec<u8>) -> VecTarget {
        VecTarget {
            bytes,
            failures: 0,
            writes: 0,
        }
    }

    /// How many bytes it has.
    pub fn len(&self) -> usize {
        self.bytes.len()
    }

    /// Keeps the first bytes, this many, if it has more.
    pub fn truncate(&mut self, len: usize) {
        self.bytes.truncate(len);
    }

    /// The bytes.
    pub fn into_bytes(self) -> Vec<u8> {
        let VecTarget {
            bytes,
            failures: _,
            writes: _,
        } = self;
        bytes
    }
}

impl Target for VecTarget {
    fn write(&mut self, bytes: &[u8]) -> Result<usize, IoFault> {
        match self.bytes.kit_extend_from_slice(bytes) {
            Ok(()) => {
                self.writes = self.writes.saturating_add(1);
                Ok(bytes.len())
            }
            Err(_) => {
                self.failures = self.failures.saturating_add(1);
                Err(IoFault)
            }
        }
    }
}
