// Written by dist/erase from crates/cqlp_capture_rows/src/rows.rt.
//! What listens to one connection of a capture.

use crate::kit_host::prelude::{Vec, vec};
use crate::cqlp_capture_rows::limits::{LIMITS};
use crate::cqlp_capture_rows::other_connections::OtherConnections;
use crate::cqlp_capture_rows::responses::Responses;
use crate::cqlp_capture_frames::{Direction, ReportFault};
use crate::cqlp_capture_prepared::Requests;
use crate::cqlp_capture_streams::{ConnectionEvent, Listener, StreamsFault};
use crate::cqlp_note::{NoMemory, Target};
use crate::cqlp_statement_types::StatementTypes;
use crate::cqlp_tcp_connections::{Delivery, Way};
use crate::cqlp_text::{Buffered, TextWriter};
use crate::kit_std::alloc::{AllocError};

/// How many bytes of text wait at most.
const ROOM: usize = 65_536;

/// Reads the frames of one connection of a capture, and writes the text of the pages among them, each part of it when its last byte is there.
/// A page without metadata has the types that PREPARE said of the statement whose EXECUTE it answers: on its connection, or else on another one, or else
/// those that were given.
///
/// Memory is taken in `new`; after it for the decoder of a frame, some 1.1 MiB, which is given back behind the frame; and for the types of a statement
/// that is prepared, and of a page that answers an EXECUTE: one request each, of `LIMITS.entries` nodes. At most [`STATEMENTS`] statements are known,
/// and the types of one page. Of other connections memory is taken for each as it begins, for the bytes of a PREPARED as they come, for its decoder, and
/// for the types of its statement.
pub struct Rows<O: Target> {
    /// The number of the connection.
    asked: u64,
    requests: Requests,
    direction: Direction,
    responses: Responses,
    others: OtherConnections,
    writer: TextWriter<Buffered<O>>,
}

impl<O: Target> Rows<O> {
    /// The output.
    pub fn into_output(self) -> O {
        let Rows {
            asked: _,
            requests: _,
            direction: _,
            responses: _,
            others: _,
            writer,
        } = self;
        writer.into_inner().into_inner()
    }
}

impl<O: Target> Rows<O> {
    /// Nothing came of the connection with this number, these types of statements are given, and its pages go to this output. Memory for all but types and
    /// frames is taken here; where it is not granted, the output is given back.
    pub fn new(given: StatementTypes, asked: u64, out: O) -> Result<Self, O> {
        match take_memory(given, asked) {
            Ok((direction, responses, others, buffer)) => Ok(Rows {
                asked,
                requests: Requests::new(false),
                direction,
                responses,
                others,
                writer: TextWriter::new(Buffered::new(out, buffer)),
            }),
            Err(AllocError) => Err(out),
        }
    }

    /// Takes what a direction delivers: of the requests what is known of statements, of the responses their text.
    fn hear_delivery(&mut self, delivered: &Delivery, bytes: &[u8]) -> Result<(), StreamsFault> {
        if delivered.number != self.asked {
            return self.hear_other(delivered, bytes);
        }
        match delivered.way {
            Way::Requests => {
                self.responses
                    .hear_requests(delivered.step, bytes, &mut self.requests);
                Ok(())
            }
            Way::Responses => {
                let put = self.direction.hear(
                    true,
                    delivered.step,
                    delivered.at,
                    bytes,
                    &mut self.responses,
                    &mut self.writer,
                );
                answer_of(pass_on(put, &mut self.writer))
            }
        }
    }

    /// Takes what a direction of another connection delivers: of the responses what is known of statements.
    fn hear_other(&mut self, delivered: &Delivery, bytes: &[u8]) -> Result<(), StreamsFault> {
        match delivered.way {
            Way::Requests => Ok(()),
            Way::Responses => {
                let heard = self
                    .responses
                    .hear_others(delivered.number, delivered.step, bytes, &mut self.others);
                match heard {
                    Ok(()) => Ok(()),
                    Err(NoMemory) => Err(StreamsFault::NoMemory),
                }
            }
        }
    }

    /// Takes the begin of a connection.
    fn hear_new(&mut self, number: u64) -> Result<(), StreamsFault> {
        if number == self.asked {
            return Ok(());
        }
        match self.others.begin(number) {
            Ok(()) => Ok(()),
            Err(AllocError) => Err(StreamsFault::NoMemory),
        }
    }

    /// Takes the end of a connection.
    fn hear_left(&mut self, number: u64) -> Result<(), StreamsFault> {
        if number != self.asked {
            self.others.leave(number);
            return Ok(());
        }
        let put = self.direction.close(&mut self.responses, &mut self.writer);
        answer_of(pass_on(put, &mut self.writer))
    }
}

/// Passes on the text that was put, also where memory was refused.
fn pass_on<W: Target>(
    put: Result<(), ReportFault>,
    writer: &mut TextWriter<Buffered<W>>,
) -> Result<(), ReportFault> {
    match put {
        Ok(()) => Ok(writer.pass_on()?),
        Err(ReportFault::Write) => Err(ReportFault::Write),
        Err(ReportFault::NoMemory) => {
            writer.pass_on()?;
            Err(ReportFault::NoMemory)
        }
    }
}

/// What a listener answers where the text of an event was put so.
fn answer_of(put: Result<(), ReportFault>) -> Result<(), StreamsFault> {
    match put {
        Ok(()) => Ok(()),
        Err(ReportFault::Write) => Err(StreamsFault::Write),
        Err(ReportFault::NoMemory) => Err(StreamsFault::NoMemory),
    }
}

/// A direction and responses of which nothing came, no other connections, and a buffer.
fn take_memory(
    given: StatementTypes,
    asked: u64,
) -> Result<(Direction, Responses, OtherConnections, Vec<u8>), AllocError> {
    let responses = Responses::new(asked, given)?;
    let direction = Direction::new(LIMITS, true);
    let others = OtherConnections::new()?;
    let buffer = vec![0; ROOM]?;
    Ok((direction, responses, others, buffer))
}

impl<O: Target> Listener for Rows<O> {
    fn hear(&mut self, event: &ConnectionEvent<'_>) -> Result<(), StreamsFault> {
        match event {
            ConnectionEvent::Packet { .. } => Ok(()),
            ConnectionEvent::New { number } => self.hear_new(*number),
            ConnectionEvent::Of { delivered, bytes } => self.hear_delivery(delivered, bytes),
            ConnectionEvent::Left(totals) => self.hear_left(totals.number),
        }
    }
}
