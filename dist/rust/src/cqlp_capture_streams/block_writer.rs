// Written by dist/erase from crates/cqlp_capture_streams/src/block_writer.rt.
//! Bytes on their way to a target in blocks.

use crate::kit_host::prelude::{KitVec, Vec};
use crate::cqlp_note::{IoFault, Target, offer};
use crate::kit_std::alloc::{AllocError};

/// How many bytes wait at most.
const BLOCK: usize = 65_536;

/// A target that passes bytes on to another one in blocks of up to 64 KiB: they wait until the next ones have no room beside them. Longer
/// ones are passed on as they come.
pub struct BlockWriter<O: Target> {
    target: O,
    /// What waits to be passed on.
    waiting: Vec<u8>,
    /// How many calls took all of their bytes, up to 2^64 - 1.
    writes: u64,
}

impl<O: Target> BlockWriter<O> {
    /// With nothing that waits. Takes memory for a block; where it is not granted, the target is given back.
    pub fn new(target: O) -> Result<Self, O> {
        match Vec::kit_with_capacity(BLOCK) {
            Ok(waiting) => Ok(BlockWriter {
                target,
                waiting,
                writes: 0,
            }),
            Err(AllocError) => Err(target),
        }
    }

    /// The target, after all that waited was passed on.
    ///
    /// # Errors
    ///
    /// The target failed, and got the first of what waited.
    pub fn finish(mut self) -> (Result<(), IoFault>, O) {
        let answer = self.pass_on();
        (answer, self.into_inner())
    }

    /// The target, which did not get what waits.
    pub fn into_inner(self) -> O {
        let BlockWriter {
            target,
            waiting: _,
            writes: _,
        } = self;
        target
    }

    /// Passes on all that waits. What a target that fails did not take waits still.
    fn pass_on(&mut self) -> Result<(), IoFault> {
        let sent = offer(&mut self.target, &self.waiting);
        remove_front(&mut self.waiting, sent);
        if self.waiting.is_empty() {
            Ok(())
        } else {
            Err(IoFault)
        }
    }

    /// Takes bytes for which there is room.
    fn keep(&mut self, bytes: &[u8]) {
        append(&mut self.waiting, bytes);
        self.writes = self.writes.saturating_add(1);
    }

    /// Passes bytes on as they are, where nothing waits.
    fn write_through(&mut self, bytes: &[u8]) -> Result<usize, IoFault> {
        let count = self.target.write(bytes)?;
        if count == bytes.len() {
            self.writes = self.writes.saturating_add(1);
        }
        Ok(count)
    }

    /// Takes bytes after what waits was passed on.
    #[inline(never)]
    fn write_afresh(&mut self, bytes: &[u8]) -> Result<usize, IoFault> {
        self.pass_on()?;
        if bytes.len() > BLOCK {
            return self.write_through(bytes);
        }
        self.keep(bytes);
        Ok(bytes.len())
    }
}

impl<O: Target> Target for BlockWriter<O> {
    #[inline]
    fn write(&mut self, bytes: &[u8]) -> Result<usize, IoFault> {
        if bytes.len() > BLOCK - self.waiting.len() {
            return self.write_afresh(bytes);
        }
        self.keep(bytes);
        Ok(bytes.len())
    }
}

/// Adds bytes for which there is room.
#[inline(always)]
fn append(to: &mut Vec<u8>, bytes: &[u8]) {
    let Ok(()) = to.kit_extend_from_slice(bytes) else {
        unreachable!()
    };
}

/// Removes the first bytes.
fn remove_front(from: &mut Vec<u8>, count: usize) {
    let len = from.len();
    from.copy_within(count.., 0);
    from.truncate(len - count);
}
