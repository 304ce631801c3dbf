// Written by dist/erase from crates/cqlp_capture_events/src/events.rt.
//! What listens to the connections of a capture.

use crate::kit_host::prelude::{Vec, vec};
use crate::cqlp_capture_events::table::Table;
use crate::cqlp_capture_frames::ReportFault;
use crate::cqlp_capture_streams::{ConnectionEvent, Listener, StreamsFault};
use crate::cqlp_note::Target;
use crate::cqlp_tcp_connections::Delivery;
use crate::cqlp_text::{Buffered, TextWriter};
use crate::kit_std::alloc::{AllocError};

/// How many bytes of lines wait at most.
const ROOM: usize = 65_536;

/// Reads the frames on the connections of a capture, and writes a line for each event, when its last byte is there. Memory for a connection is
/// taken as it begins, and for the decoder of a frame as that does, and is given back. A frame that begins while as many are read as there may
/// be is passed over, and counted.
pub struct Events<O: Target> {
    /// The connection whose lines are written, if only one's are.
    asked: Option<u64>,
    table: Table,
    writer: TextWriter<Buffered<O>>,
}

impl<O: Target> Events<O> {
    /// Nothing is watched, and lines go to this output: those of the connection with this number, or of all. Takes memory for lines; where it is
    /// not granted, the output is given back.
    pub fn new(asked: Option<u64>, out: O) -> Result<Self, O> {
        match take_memory() {
            Ok((table, buffer)) => Ok(Events {
                asked,
                table,
                writer: TextWriter::new(Buffered::new(out, buffer)),
            }),
            Err(AllocError) => Err(out),
        }
    }

    /// The output, and how many frames were not read.
    pub fn into_parts(self) -> (O, u64) {
        let Events {
            asked: _,
            table,
            writer,
        } = self;
        (writer.into_inner().into_inner(), table.unread())
    }

    /// Whether the lines of the connection with this number are written.
    fn is_asked(&self, number: u64) -> bool {
        match self.asked {
            Some(one) => one == number,
            None => true,
        }
    }

    /// Takes the next event of the connections.
    fn take(&mut self, event: &ConnectionEvent<'_>) -> Result<(), StreamsFault> {
        match event {
            ConnectionEvent::Packet { .. } => Ok(()),
            ConnectionEvent::New { number } => self.begin(*number),
            ConnectionEvent::Of { delivered, bytes } => self.hear_delivery(delivered, bytes),
            ConnectionEvent::Left(totals) => {
                self.table.leave(totals.number);
                Ok(())
            }
        }
    }

    fn begin(&mut self, number: u64) -> Result<(), StreamsFault> {
        if !self.is_asked(number) {
            return Ok(());
        }
        match self.table.begin(number) {
            Ok(()) => Ok(()),
            Err(AllocError) => Err(StreamsFault::NoMemory),
        }
    }

    fn hear_delivery(&mut self, delivered: &Delivery, bytes: &[u8]) -> Result<(), StreamsFault> {
        match self.report(delivered, bytes) {
            Ok(()) => Ok(()),
            Err(ReportFault::Write) => Err(StreamsFault::Write),
            Err(ReportFault::NoMemory) => Err(StreamsFault::NoMemory),
        }
    }

    /// Writes the lines of an event.
    fn report(&mut self, delivered: &Delivery, bytes: &[u8]) -> Result<(), ReportFault> {
        put_delivery(&mut self.table, delivered, bytes, &mut self.writer)
    }
}

/// Takes the lines of an event, and passes them on, also where memory was refused.
fn put_delivery<W: Target>(
    table: &mut Table,
    delivered: &Delivery,
    bytes: &[u8],
    writer: &mut TextWriter<Buffered<W>>,
) -> Result<(), ReportFault> {
    match table.hear(delivered, bytes, writer) {
        Ok(()) => Ok(writer.pass_on()?),
        Err(ReportFault::Write) => Err(ReportFault::Write),
        Err(ReportFault::NoMemory) => {
            writer.pass_on()?;
            Err(ReportFault::NoMemory)
        }
    }
}

/// A table without connections, and a buffer.
fn take_memory() -> Result<(Table, Vec<u8>), AllocError> {
    let table = Table::new()?;
    let buffer = vec![0; ROOM]?;
    Ok((table, buffer))
}

impl<O: Target> Listener for Events<O> {
    fn hear(&mut self, event: &ConnectionEvent<'_>) -> Result<(), StreamsFault> {
        self.take(event)
    }
}
