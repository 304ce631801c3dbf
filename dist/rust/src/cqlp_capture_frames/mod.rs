// Written by dist/erase from crates/cqlp_capture_frames/src/lib.rt.
//! The frames of one direction of a captured connection, each read as a stream of its own.

mod direction;
mod drain;
mod fault;
mod lines;
mod noted;
mod reader;
mod transcript;

pub use direction::Direction;
pub use fault::ReportFault;
pub use lines::{LinePlace, put_compressed, put_gap, put_place, put_refused, put_unread};
pub use transcript::Transcript;
