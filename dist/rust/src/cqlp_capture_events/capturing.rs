// Written by dist/erase from crates/cqlp_capture_events/src/capturing.rt.
//! A capture whose frames are written.

use crate::cqlp_capture_events::events::Events;
use crate::cqlp_capture_events::words::EventsWords;
use crate::cqlp_capture_streams::{
    CaptureInput, StreamsFault, StreamsLimits, conclude_capture, read_capture,
};
use crate::cqlp_note::Target;

/// Reads the frames on the connections of a capture with nodes that listen on these ports, within these limits: on the connection with this
/// number, or on all. Writes a line for each event to `out`, and what the capture was, or the fault line, to `err`. Answers the exit status
/// and the two outputs.
///
/// After a fault nothing more is asked of what failed.
pub(crate) fn write_events<R: CaptureInput, O: Target, E: Target>(
    limits: StreamsLimits,
    ports: &[u16],
    connection: Option<u64>,
    input: &mut R,
    out: O,
    err: E,
) -> (u8, O, E) {
    let mut events = match Events::new(connection, out) {
        Ok(events) => events,
        Err(out) => {
            let answer = Err(StreamsFault::NoMemory);
            let words = EventsWords { unread: 0 };
            let (status, err) = conclude_capture(&answer, ports, &words, err);
            return (status, out, err);
        }
    };
    let answer = read_capture(limits, ports, input, &mut events);
    let (out, unread) = events.into_parts();
    let (status, err) = conclude_capture(&answer, ports, &EventsWords { unread }, err);
    (status, out, err)
}
