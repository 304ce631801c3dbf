// Written by dist/erase from crates/cqlp_capture_streams/src/listener.rt.
//! What takes the events of the connections of a capture.

use crate::cqlp_capture_streams::connection_event::ConnectionEvent;
use crate::cqlp_capture_streams::fault::StreamsFault;

/// What takes the events of the connections of a capture, one after the other. After a fault it gets nothing more.
pub trait Listener {
    /// Takes the next event.
    fn hear(&mut self, event: &ConnectionEvent<'_>) -> Result<(), StreamsFault>;
}
