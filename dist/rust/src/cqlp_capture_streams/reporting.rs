// Written by dist/erase from crates/cqlp_capture_streams/src/reporting.rt.
//! The events of a table of connections, on their way to a listener.

use crate::cqlp_capture_streams::connection_event::ConnectionEvent;
use crate::cqlp_capture_streams::fault::StreamsFault;
use crate::cqlp_capture_streams::listener::Listener;
use crate::cqlp_tcp_connections::{Admission, Connections, Delivery, Departure};
use crate::cqlp_tcp_reassembly::StreamStep;
use crate::cqlp_tcp_segment::Segment;
use crate::kit_std::alloc::{AllocError};

/// Has the connection of a segment take it, where need be after another one has left, and reports what that delivers.
#[inline]
pub(crate) fn take_segment<L: Listener>(
    time: Option<u64>,
    connections: &mut Connections,
    segment: &Segment<'_>,
    listener: &mut L,
) -> Result<(), StreamsFault> {
    match connections.take(&segment.head) {
        Ok(Admission::Foreign) => Ok(()),
        Ok(Admission::Taken { number, is_new, .. }) => {
            begin(is_new, number, listener)?;
            pull_all(time, connections, segment, listener)
        }
        Ok(Admission::Crowded { .. }) => {
            leave(connections, listener)?;
            take_again(time, connections, segment, listener)
        }
        Err(AllocError) => Err(StreamsFault::NoMemory),
    }
}

/// Has the connection of a segment take it after another one has left for it. For one segment one connection leaves at most.
#[cold]
fn take_again<L: Listener>(
    time: Option<u64>,
    connections: &mut Connections,
    segment: &Segment<'_>,
    listener: &mut L,
) -> Result<(), StreamsFault> {
    match connections.take(&segment.head) {
        Ok(Admission::Taken { number, is_new, .. }) => {
            begin(is_new, number, listener)?;
            pull_all(time, connections, segment, listener)
        }
        Ok(Admission::Foreign) => Ok(()),
        Ok(Admission::Crowded { .. }) => Ok(()),
        Err(AllocError) => Err(StreamsFault::NoMemory),
    }
}

/// Reports that a connection begins, if it does.
fn begin<L: Listener>(is_new: bool, number: u64, listener: &mut L) -> Result<(), StreamsFault> {
    if is_new {
        listener.hear(&ConnectionEvent::New { number })
    } else {
        Ok(())
    }
}

/// Reports all that a segment delivers which was taken. One without payload, as an acknowledgement, mostly delivers nothing.
fn pull_all<L: Listener>(
    time: Option<u64>,
    connections: &mut Connections,
    segment: &Segment<'_>,
    listener: &mut L,
) -> Result<(), StreamsFault> {
    if segment.payload.is_empty() && connections.is_done(segment, time) {
        return Ok(());
    }
    for turn in 0..u64::MAX {
        let Ok(next) = connections.pull(segment, time) else {
            return Err(StreamsFault::NoMemory);
        };
        let Some(delivered) = next else {
            return Ok(());
        };
        report(connections, delivered, segment.payload, listener)?;
        let is_payload = matches!(delivered.step, StreamStep::Payload { .. });
        if is_payload && connections.is_done(segment, time) {
            return Ok(());
        }
    }
    Err(StreamsFault::TooManyTurns)
}

/// Has the connection leave that has to.
fn leave<L: Listener>(
    connections: &mut Connections,
    listener: &mut L,
) -> Result<(), StreamsFault> {
    for turn in 0..u64::MAX {
        match connections.leave() {
            Departure::Delivery(delivered) => report_last(connections, delivered, listener)?,
            Departure::Left(totals) => return listener.hear(&ConnectionEvent::Left(totals)),
            Departure::Empty => return Ok(()),
        }
    }
    Err(StreamsFault::TooManyTurns)
}

/// Has all connections leave.
pub(crate) fn finish_all<L: Listener>(
    connections: &mut Connections,
    listener: &mut L,
) -> Result<(), StreamsFault> {
    for turn in 0..u64::MAX {
        let is_done = finish_one(connections, listener)?;
        if is_done {
            return Ok(());
        }
    }
    Err(StreamsFault::TooManyTurns)
}

/// Reports the next event of the connection that leaves first. Says whether there was none.
fn finish_one<L: Listener>(
    connections: &mut Connections,
    listener: &mut L,
) -> Result<bool, StreamsFault> {
    match connections.finish() {
        Departure::Delivery(delivered) => {
            report_last(connections, delivered, listener)?;
            Ok(false)
        }
        Departure::Left(totals) => {
            listener.hear(&ConnectionEvent::Left(totals))?;
            Ok(false)
        }
        Departure::Empty => Ok(true),
    }
}

/// Reports what a segment delivers, with its bytes: those of the payload that are named, or those that the connection held.
fn report<L: Listener>(
    connections: &mut Connections,
    delivered: Delivery,
    payload: &[u8],
    listener: &mut L,
) -> Result<(), StreamsFault> {
    match delivered.step {
        StreamStep::Payload { from, count } => {
            let bytes = &payload[from..from + count];
            listener.hear(&ConnectionEvent::Of { delivered, bytes })
        }
        StreamStep::Held { .. } => report_held(connections, delivered, listener),
        StreamStep::Began { .. }
        | StreamStep::Gap { .. }
        | StreamStep::Kept
        | StreamStep::Ended
        | StreamStep::Reset
        | StreamStep::Done => listener.hear(&ConnectionEvent::Of {
            delivered,
            bytes: &[],
        }),
    }
}

/// Reports what a connection delivers without a segment: of bytes those that the connection held.
fn report_last<L: Listener>(
    connections: &mut Connections,
    delivered: Delivery,
    listener: &mut L,
) -> Result<(), StreamsFault> {
    match delivered.step {
        StreamStep::Held { .. } => report_held(connections, delivered, listener),
        StreamStep::Payload { .. } => listener.hear(&ConnectionEvent::Of {
            delivered,
            bytes: &[],
        }),
        StreamStep::Began { .. }
        | StreamStep::Gap { .. }
        | StreamStep::Kept
        | StreamStep::Ended
        | StreamStep::Reset
        | StreamStep::Done => listener.hear(&ConnectionEvent::Of {
            delivered,
            bytes: &[],
        }),
    }
}

/// Reports the next bytes that the connection held.
fn report_held<L: Listener>(
    connections: &mut Connections,
    delivered: Delivery,
    listener: &mut L,
) -> Result<(), StreamsFault> {
    let bytes = connections.held(delivered.way);
    let answer = listener.hear(&ConnectionEvent::Of { delivered, bytes });
    connections.pass_held(delivered.way);
    answer
}
