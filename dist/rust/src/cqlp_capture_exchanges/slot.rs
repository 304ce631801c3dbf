// Written by dist/erase from crates/cqlp_capture_exchanges/src/slot.rt.
//! One connection that is watched.

use crate::kit_host::prelude::{Box, KitBox};
use crate::cqlp_capture_exchanges::connection::Connection;
use crate::cqlp_capture_exchanges::report::{ConnectionEnd, is_unread};
use crate::cqlp_capture_exchanges::reporter::Reporter;
use crate::cqlp_capture_streams::StreamsFault;
use crate::cqlp_note::Target;
use crate::cqlp_observer::{Kept, Missed, Opening, Paired, Unread, Watch, WatchRoom};
use crate::cqlp_tcp_connections::{Delivery, Way};
use crate::cqlp_tcp_reassembly::StreamStep;
use crate::kit_std::alloc::{AllocError};

/// What is watched of a connection.
pub(crate) struct Slot {
    watch: Box<Watch>,
    /// Whether it was reported that the connection is not read.
    is_reported: bool,
}

impl Slot {
    /// Nothing was seen of the connection.
    pub(crate) fn new() -> Result<Self, AllocError> {
        let watch = Watch::new()?;
        match Box::kit_new(watch) {
            Ok(watch) => Ok(Slot {
                watch,
                is_reported: false,
            }),
            Err(_) => Err(AllocError),
        }
    }

    /// How much of it waits.
    pub(crate) fn held(&self) -> WatchRoom {
        WatchRoom {
            messages: self.watch.waiting(),
            text: self.watch.text(),
        }
    }

    /// What was missed of the connection.
    pub(crate) fn missed(&self) -> Missed {
        self.watch.missed()
    }

    /// Takes what its streams deliver while the present packet came at this time, with its bytes; so much may wait.
    pub(crate) fn hear<O: Target>(
        &mut self,
        present: Option<u64>,
        delivered: &Delivery,
        room: WatchRoom,
        bytes: &[u8],
        reporter: &mut Reporter<O>,
    ) -> Result<(), StreamsFault> {
        hear_delivery(
            &mut self.watch,
            &mut self.is_reported,
            present,
            delivered,
            room,
            bytes,
            reporter,
        )
    }

    /// The streams of the connection end: reports what that delivers.
    pub(crate) fn end<O: Target>(
        &mut self,
        connection: &Connection,
        room: WatchRoom,
        reporter: &mut Reporter<O>,
    ) -> Result<(), StreamsFault> {
        end_watch(&mut self.watch, connection, room, reporter)
    }

    /// Reports the messages that wait, of a connection that ended so.
    pub(crate) fn let_go<O: Target>(
        &mut self,
        connection: &Connection,
        end: ConnectionEnd,
        reporter: &mut Reporter<O>,
    ) -> Result<(), StreamsFault> {
        let_go(&mut self.watch, connection, end, reporter)
    }
}

/// Takes what the streams of a connection deliver while the present packet came at this time, with its bytes.
fn hear_delivery<O: Target>(
    watch: &mut Watch,
    is_reported: &mut bool,
    present: Option<u64>,
    delivered: &Delivery,
    room: WatchRoom,
    bytes: &[u8],
    reporter: &mut Reporter<O>,
) -> Result<(), StreamsFault> {
    let responses = is_responses(delivered.way);
    let connection = &Connection {
        number: delivered.number,
        ends: delivered.ends,
    };
    match delivered.step {
        StreamStep::Began { syn } => {
            watch.begin(responses, syn);
            Ok(())
        }
        StreamStep::Payload { from, .. } => {
            let piece = Piece {
                responses,
                time: present,
                begins: from == 0,
                bytes,
            };
            hear_bytes(watch, is_reported, connection, piece, room, reporter)
        }
        StreamStep::Held { time, begins } => {
            let piece = Piece {
                responses,
                time,
                begins,
                bytes,
            };
            hear_bytes(watch, is_reported, connection, piece, room, reporter)
        }
        StreamStep::Gap { length, time, .. } => {
            hear_gap(watch, connection, responses, length, time, room, reporter)
        }
        StreamStep::Ended | StreamStep::Reset => {
            end_direction(watch, connection, responses, room, reporter)
        }
        StreamStep::Kept | StreamStep::Done => Ok(()),
    }
}

/// Whether bytes that go this way are those of responses.
fn is_responses(way: Way) -> bool {
    match way {
        Way::Requests => false,
        Way::Responses => true,
    }
}

/// Bytes of one direction, which were captured at this time; the first of them begins a segment or not.
#[derive(Clone, Copy)]
struct Piece<'a> {
    responses: bool,
    time: Option<u64>,
    begins: bool,
    bytes: &'a [u8],
}

/// Takes bytes of one direction.
fn hear_bytes<O: Target>(
    watch: &mut Watch,
    is_reported: &mut bool,
    connection: &Connection,
    piece: Piece<'_>,
    room: WatchRoom,
    reporter: &mut Reporter<O>,
) -> Result<(), StreamsFault> {
    let Piece {
        responses,
        time,
        begins,
        bytes,
    } = piece;
    let mut unread = Unread::new(bytes, begins);
    let mut reported = None;
    while unread.steps > 0 {
        let Ok(step) = watch.take_into(
            responses,
            unread.bytes,
            time,
            unread.begins,
            room,
            &mut reported,
        ) else {
            return Err(StreamsFault::NoMemory);
        };
        report_step(
            reporter,
            connection,
            time,
            *is_reported,
            step.opening,
            &mut reported,
        )?;
        *is_reported = is_reported_after(*is_reported, step.opening);
        if step.is_done {
            return Ok(());
        }
        unread = unread.after(step.used);
    }
    Ok(())
}

/// Reports what a step of bytes holds that were captured at this time.
fn report_step<O: Target>(
    reporter: &mut Reporter<O>,
    connection: &Connection,
    time: Option<u64>,
    was_reported: bool,
    opening: Opening,
    exchange: &mut Option<Paired<Kept>>,
) -> Result<(), StreamsFault> {
    match reporter.report_opening(connection, time, was_reported, opening) {
        Ok(()) => reporter.report_messages(connection, None, exchange),
        Err(fault) => Err(fault),
    }
}

/// Whether it was reported that a connection is not read, after a direction that begins so, or goes on.
fn is_reported_after(was_reported: bool, opening: Opening) -> bool {
    was_reported || is_unread(opening)
}

/// So many bytes of a direction are missing, which passed at this time, where that is known.
fn hear_gap<O: Target>(
    watch: &mut Watch,
    connection: &Connection,
    responses: bool,
    length: u64,
    time: Option<u64>,
    room: WatchRoom,
    reporter: &mut Reporter<O>,
) -> Result<(), StreamsFault> {
    let mut exchange = None;
    match watch.gap_into(responses, length, time, room, &mut exchange) {
        Ok(()) => reporter.report_messages(connection, None, &mut exchange),
        Err(AllocError) => Err(StreamsFault::NoMemory),
    }
}

/// No more bytes of either direction come.
fn end_watch<O: Target>(
    watch: &mut Watch,
    connection: &Connection,
    room: WatchRoom,
    reporter: &mut Reporter<O>,
) -> Result<(), StreamsFault> {
    match end_direction(watch, connection, false, room, reporter) {
        Ok(()) => end_direction(watch, connection, true, room, reporter),
        Err(fault) => Err(fault),
    }
}

/// No more bytes of a direction come.
fn end_direction<O: Target>(
    watch: &mut Watch,
    connection: &Connection,
    responses: bool,
    room: WatchRoom,
    reporter: &mut Reporter<O>,
) -> Result<(), StreamsFault> {
    match watch.end(responses, room) {
        Ok(mut exchange) => reporter.report_messages(connection, None, &mut exchange),
        Err(AllocError) => Err(StreamsFault::NoMemory),
    }
}

/// Reports the messages that wait, of a connection that ended so.
fn let_go<O: Target>(
    watch: &mut Watch,
    connection: &Connection,
    end: ConnectionEnd,
    reporter: &mut Reporter<O>,
) -> Result<(), StreamsFault> {
    while let Some(exchange) = watch.finish() {
        report_last(reporter, connection, end, exchange)?;
    }
    Ok(())
}

/// Reports messages that waited, of a connection that ended so.
fn report_last<O: Target>(
    reporter: &mut Reporter<O>,
    connection: &Connection,
    end: ConnectionEnd,
    exchange: Paired<Kept>,
) -> Result<(), StreamsFault> {
    let mut waited = Some(exchange);
    reporter.report_messages(connection, Some(end), &mut waited)
}
