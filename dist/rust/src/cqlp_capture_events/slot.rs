// Written by dist/erase from crates/cqlp_capture_events/src/slot.rt.
//! One connection that is watched.

use crate::cqlp_capture_events::limits::LIMITS;
use crate::cqlp_capture_events::lines::Lines;
use crate::cqlp_capture_frames::{Direction, LinePlace, ReportFault};
use crate::cqlp_tcp_connections::{Delivery, Way};
use crate::cqlp_text::{Pen, TextWriter};
use crate::kit_std::alloc::{AllocError};

/// The two directions of a connection.
pub(crate) struct Slot {
    requests: Direction,
    responses: Direction,
}

impl Slot {
    /// A connection of which nothing came.
    pub(crate) fn new() -> Result<Self, AllocError> {
        Ok(Slot {
            requests: Direction::new(LIMITS, false),
            responses: Direction::new(LIMITS, true),
        })
    }

    /// How many of its directions read a frame.
    pub(crate) fn open(&self) -> usize {
        usize::from(self.requests.is_open()) + usize::from(self.responses.is_open())
    }

    /// Takes what one of its directions delivers, with its bytes, and counts the frames that are not read. Where there is no room for one
    /// more decoder, only a direction that reads a frame reads others.
    pub(crate) fn hear<P: Pen>(
        &mut self,
        has_room: bool,
        delivered: &Delivery,
        bytes: &[u8],
        unread: &mut u64,
        writer: &mut TextWriter<P>,
    ) -> Result<(), ReportFault> {
        match delivered.way {
            Way::Requests => {
                let mut lines = lines_of(delivered.number, false, *unread);
                hear_in(
                    &mut self.requests,
                    has_room,
                    delivered,
                    bytes,
                    &mut lines,
                    writer,
                )?;
                *unread = lines.unread;
                Ok(())
            }
            Way::Responses => {
                let mut lines = lines_of(delivered.number, true, *unread);
                hear_in(
                    &mut self.responses,
                    has_room,
                    delivered,
                    bytes,
                    &mut lines,
                    writer,
                )?;
                *unread = lines.unread;
                Ok(())
            }
        }
    }
}

/// Takes what this direction delivers.
fn hear_in<P: Pen>(
    direction: &mut Direction,
    has_room: bool,
    delivered: &Delivery,
    bytes: &[u8],
    lines: &mut Lines,
    writer: &mut TextWriter<P>,
) -> Result<(), ReportFault> {
    let has_room = has_room || direction.is_open();
    direction.hear(has_room, delivered.step, delivered.at, bytes, lines, writer)
}

/// The lines of a direction of the connection with this number, where so many frames were not read so far.
fn lines_of(number: u64, responses: bool, unread: u64) -> Lines {
    Lines {
        place: LinePlace { number, responses },
        unread,
    }
}
