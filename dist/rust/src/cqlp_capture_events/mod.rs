// Written by dist/erase from crates/cqlp_capture_events/src/lib.rt.
//! The events of the frames on the connections of a capture, as lines.

mod capturing;
mod events;
mod limits;
mod lines;
mod slot;
mod table;
mod words;

pub(crate) use capturing::{write_events};
pub use events::Events;
pub use limits::{LIMITS, OPEN_FRAMES};
