// Written by dist/erase from crates/cqlp_capture_streams/src/buffering.rt.
//! When lines are written.

use crate::cqlp_capture_streams::block_writer::BlockWriter;
use crate::cqlp_capture_streams::capturing::CaptureRead;
use crate::cqlp_capture_streams::fault::StreamsFault;
use crate::cqlp_note::{IoFault, Target};

/// When the lines of a capture are written.
#[derive(Clone, Copy)]
pub enum Buffering {
    /// Each at once.
    Line,
    /// Many at a time, in blocks of up to 64 KiB.
    Block,
}

/// Passes on the last block, after the reading of a capture ended so: not where a write failed. Answers how the reading ended, or that this write
/// failed, and the target.
pub fn finish_blocks<O: Target>(
    read: Result<CaptureRead, StreamsFault>,
    blocks: BlockWriter<O>,
) -> (Result<CaptureRead, StreamsFault>, O) {
    if has_failed(&read) {
        return (Err(StreamsFault::Write), blocks.into_inner());
    }
    let (answer, out) = blocks.finish();
    (ended_with(read, answer), out)
}

/// Whether a write failed.
fn has_failed(read: &Result<CaptureRead, StreamsFault>) -> bool {
    matches!(read, Err(StreamsFault::Write))
}

/// How a reading ended, with the answer of the last write.
fn ended_with(
    read: Result<CaptureRead, StreamsFault>,
    answer: Result<(), IoFault>,
) -> Result<CaptureRead, StreamsFault> {
    match read {
        Ok(read) => match answer {
            Ok(()) => Ok(read),
            Err(IoFault) => Err(StreamsFault::Write),
        },
        Err(fault) => Err(fault),
    }
}
