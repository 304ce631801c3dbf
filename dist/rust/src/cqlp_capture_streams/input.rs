// Written by dist/erase from crates/cqlp_capture_streams/src/input.rt.
//! Where the bytes of a capture come from.

use crate::cqlp_note::{IoFault, OfStd, Source};
use std::io::Read;

/// Where the bytes of a capture come from: one file, or several that were captured one after the other.
pub trait CaptureInput: Source {
    /// Goes on to the next file, after a read that gave nothing; false where there is none. An input whose bytes are known is one file.
    ///
    /// # Errors
    ///
    /// A file that cannot be opened.
    fn next_file(&mut self) -> Result<bool, IoFault> {
        Ok(false)
    }
}

/// One file.
impl<X: Read> CaptureInput for OfStd<X> {}
