// Written by dist/erase from crates/cqlp_capture_frames/src/fault.rt.
//! Why the text of what happens ends early.

use crate::cqlp_grammar::SinkFault;
use crate::cqlp_note::NoMemory;

/// What ends the text of what happens early.
#[derive(Clone, Copy)]
pub enum ReportFault {
    /// The output failed.
    Write,
    /// Memory is refused.
    NoMemory,
}

impl From<SinkFault> for ReportFault {
    fn from(_: SinkFault) -> ReportFault {
        ReportFault::Write
    }
}

impl From<NoMemory> for ReportFault {
    fn from(_: NoMemory) -> ReportFault {
        ReportFault::NoMemory
    }
}
