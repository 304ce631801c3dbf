// Written by dist/erase from crates/cqlp_capture_rows/src/prepared_frames.rt.
//! The frames of other connections that may be PREPAREDs, while their bytes come.

use crate::cqlp_capture_rows::other_limits::{LONGEST_PREPARED, OTHER_FRAMES};
use crate::cqlp_capture_rows::prepared_frame::PreparedFrame;
use crate::cqlp_capture_prepared::{Latest, NewPreparedError};
use crate::cqlp_note::{Header, Opcode};
use crate::kit_std::alloc::{AllocError};

/// The frame of each connection that may be a PREPARED, at most [`OTHER_FRAMES`]: of too many the one goes of which bytes came longest ago.
pub(crate) struct PreparedFrames {
    frames: Latest<u64, PreparedFrame>,
}

impl PreparedFrames {
    /// There are none. Memory for the list is taken here, and not for bytes.
    pub(crate) fn new() -> Result<Self, AllocError> {
        match Latest::new(OTHER_FRAMES) {
            Ok(frames) => Ok(PreparedFrames { frames }),
            Err(NewPreparedError::NoMemory | NewPreparedError::BadLimit) => Err(AllocError),
        }
    }

    /// A frame with this header begins on the connection with this number.
    pub(crate) fn begin(&mut self, number: u64, header: &Header) -> Result<(), AllocError> {
        if may_prepare(header) {
            let frame = PreparedFrame::new(header);
            self.frames.put(number, frame);
        } else {
            let _ = self.end(number);
        }
        Ok(())
    }

    /// More bytes come of the body of its frame.
    pub(crate) fn grow(&mut self, number: u64, bytes: &[u8]) -> Result<(), AllocError> {
        let Some(frame) = self.end(number) else {
            return Ok(());
        };
        if let Some(frame) = frame.with(bytes)? {
            self.frames.put(number, frame);
        }
        Ok(())
    }

    /// Its frame ends. Answers that, if it may be a PREPARED.
    pub(crate) fn end(&mut self, number: u64) -> Option<PreparedFrame> {
        self.frames.take(&number)
    }
}

/// Whether a frame with this header may be a PREPARED.
fn may_prepare(header: &Header) -> bool {
    header.opcode == Opcode::Result
        && header.flags & 0x01 == 0
        && header.response
        && header.length <= LONGEST_PREPARED
}
