//! What is refused, as errors of std: their words, and that they are errors. Written by hand, and not proved.
use core::error::Error;
use core::fmt;

use crate::cqlp_capture::CaptureRefusal;
use crate::cqlp_decode::GiveError;
use crate::cqlp_note::Refusal;
use crate::cqlp_session::Refused;
use crate::cqlp_tcp_segment::NoSegment;

/// The reason's name and the offset: `BadVersion at byte 0`.
impl fmt::Display for Refusal {
    fn fmt(&self, f: &mut fmt::Formatter<'_>) -> fmt::Result {
        write!(f, "{:?} at byte {}", self.why, self.at)
    }
}

impl Error for Refusal {}

/// The reason's name and the offset in the file.
impl fmt::Display for CaptureRefusal {
    fn fmt(&self, f: &mut fmt::Formatter<'_>) -> fmt::Result {
        write!(f, "{:?} at byte {}", self.why, self.at)
    }
}

impl Error for CaptureRefusal {}

/// The reason's name.
impl fmt::Display for NoSegment {
    fn fmt(&self, f: &mut fmt::Formatter<'_>) -> fmt::Result {
        fmt::Debug::fmt(self, f)
    }
}

impl Error for NoSegment {}

/// Why the table was not taken; the table itself is not shown.
impl fmt::Debug for GiveError {
    fn fmt(&self, f: &mut fmt::Formatter<'_>) -> fmt::Result {
        f.debug_struct("GiveError").field("why", &self.why).finish_non_exhaustive()
    }
}

/// Why the table was not taken.
impl fmt::Display for GiveError {
    fn fmt(&self, f: &mut fmt::Formatter<'_>) -> fmt::Result {
        self.why.fmt(f)
    }
}

impl Error for GiveError {
    fn source(&self) -> Option<&(dyn Error + 'static)> {
        Some(&self.why)
    }
}

/// Why the call was refused.
impl<E: fmt::Display, T> fmt::Display for Refused<E, T> {
    fn fmt(&self, f: &mut fmt::Formatter<'_>) -> fmt::Result {
        self.why.fmt(f)
    }
}

impl<E: Error + 'static, T: fmt::Debug> Error for Refused<E, T> {
    fn source(&self) -> Option<&(dyn Error + 'static)> {
        Some(&self.why)
    }
}
