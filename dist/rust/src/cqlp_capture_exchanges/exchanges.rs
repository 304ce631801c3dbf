// Written by dist/erase from crates/cqlp_capture_exchanges/src/exchanges.rt.
//! What listens to the connections of a capture.

use crate::kit_host::prelude::{Vec, vec};
use crate::cqlp_capture_exchanges::filter::ExchangeFilter;
use crate::cqlp_capture_exchanges::form::ExchangeForm;
use crate::cqlp_capture_exchanges::pool::ExchangeLimits;
use crate::cqlp_capture_exchanges::prepared::Known;
use crate::cqlp_capture_exchanges::reporter::Reporter;
use crate::cqlp_capture_exchanges::sums::ExchangeSums;
use crate::cqlp_capture_exchanges::table::Table;
use crate::cqlp_capture_streams::{ConnectionEvent, Listener, StreamsFault};
use crate::cqlp_capture_summary::Summary;
use crate::cqlp_grammar::SinkFault;
use crate::cqlp_note::Target;
use crate::cqlp_observer::Missed;
use crate::cqlp_statement_file::StatementTexts;
use crate::cqlp_tcp_connections::{ConnectionTotals, Delivery};
use crate::kit_std::alloc::{AllocError};

/// How many bytes of a line wait at most.
const ROOM: usize = 4096;

/// Pairs the requests on the connections of a capture with their responses, and writes each that its filter shows, when the last byte of
/// the response is there. Memory for a connection is taken as it begins, for a message as it waits, and is given back.
pub struct Exchanges<O: Target> {
    table: Table,
    /// When the present packet was captured, in nanoseconds since 1970-01-01 00:00:00 UTC.
    present: Option<u64>,
    reporter: Reporter<O>,
}

impl<O: Target> Exchanges<O> {
    /// Nothing is watched, these texts of statements are known, and exchanges go to this output in this form. Takes memory for a line, for 256 statements
    /// and for a summary; where it is not granted, the output is given back.
    pub fn new(
        limits: ExchangeLimits,
        given: StatementTexts,
        filter: ExchangeFilter,
        form: ExchangeForm,
        out: O,
    ) -> Result<Self, O> {
        match take_memory(limits, given, form) {
            Ok(
                Room {
                    table,
                    buffer,
                    known,
                    summary,
                },
            ) => Ok(Exchanges {
                table,
                present: None,
                reporter: Reporter::new(filter, form, out, buffer, known, summary),
            }),
            Err(AllocError) => Err(out),
        }
    }

    /// Writes what is at the end: the lines of a summary.
    pub fn finish(&mut self) -> Result<(), SinkFault> {
        self.reporter.finish()
    }

    /// The output, and what was reported.
    pub fn into_parts(self) -> (O, ExchangeSums) {
        let Exchanges {
            table: _,
            present: _,
            reporter,
        } = self;
        reporter.into_parts()
    }

    /// What was missed of the connections that have left.
    pub fn missed(&self) -> Missed {
        self.table.missed()
    }

    /// Takes the next event of the connections.
    fn take(&mut self, event: &ConnectionEvent<'_>) -> Result<(), StreamsFault> {
        match event {
            ConnectionEvent::Packet { time } => {
                self.note_time(*time);
                Ok(())
            }
            ConnectionEvent::New { number } => self.begin(*number),
            ConnectionEvent::Of { delivered, bytes } => self.hear_delivery(delivered, bytes),
            ConnectionEvent::Left(totals) => self.let_leave(totals),
        }
    }

    fn note_time(&mut self, time: Option<u64>) {
        self.present = time;
        self.reporter.note_time(time);
    }

    /// Takes memory for the connection with this number, which begins.
    #[cold]
    #[inline(never)]
    fn begin(&mut self, number: u64) -> Result<(), StreamsFault> {
        match self.table.begin(number) {
            Ok(()) => Ok(()),
            Err(AllocError) => Err(StreamsFault::NoMemory),
        }
    }

    /// Takes what a direction delivers, out of line: of most packets the time alone is noted first.
    #[inline(never)]
    fn hear_delivery(&mut self, delivered: &Delivery, bytes: &[u8]) -> Result<(), StreamsFault> {
        (self.table).hear(self.present, delivered, bytes, &mut self.reporter)
    }

    /// Reports what waits of a connection that leaves, and gives its memory back.
    #[cold]
    #[inline(never)]
    fn let_leave(&mut self, totals: &ConnectionTotals) -> Result<(), StreamsFault> {
        self.table.leave(totals, &mut self.reporter)
    }
}

/// A table of no connections, the buffer of a line, room for statements that are prepared, and a summary of those that are asked for.
struct Room {
    table: Table,
    buffer: Vec<u8>,
    known: Known,
    summary: Summary,
}

fn take_memory(
    limits: ExchangeLimits,
    given: StatementTexts,
    form: ExchangeForm,
) -> Result<Room, AllocError> {
    let table = Table::new(limits)?;
    let buffer = vec![0; ROOM]?;
    let known = Known::new(given)?;
    let summary = Summary::new(form.statements())?;
    Ok(Room {
        table,
        buffer,
        known,
        summary,
    })
}

impl<O: Target> Listener for Exchanges<O> {
    fn hear(&mut self, event: &ConnectionEvent<'_>) -> Result<(), StreamsFault> {
        self.take(event)
    }
}
