// Written by dist/erase from crates/cqlp_capture_streams/src/fault.rt.
//! Why a capture is not read to its end.

use crate::cqlp_capture_streams::files::FileFault;

/// What ends the reading of a capture early.
#[derive(Clone, Copy)]
pub enum StreamsFault {
    /// The input failed.
    Read,
    /// The output failed.
    Write,
    File(FileFault),
    NoMemory,
    /// The input was not at its end after the greatest number of reads, or there was no end to what is reported.
    TooManyTurns,
}

impl From<FileFault> for StreamsFault {
    fn from(fault: FileFault) -> StreamsFault {
        StreamsFault::File(fault)
    }
}
