// Written by dist/erase from crates/cqlp_capture_rows/src/responses.rt.
//! The text of the responses of a connection.

use crate::cqlp_capture_rows::limits::{EXECUTES, STATEMENTS};
use crate::cqlp_capture_rows::other_connections::OtherConnections;
use crate::cqlp_capture_rows::other_types::OtherTypes;
use crate::cqlp_capture_rows::page::Page;
use crate::cqlp_capture_rows::spot::{FrameSpot, Spot};
use crate::cqlp_capture_frames::{
    LinePlace, ReportFault, Transcript, put_compressed, put_gap, put_refused, put_unread,
};
use crate::cqlp_capture_prepared::{NewPreparedError, PreparedTypes, Requests, StatementId};
use crate::cqlp_grammar::{Event, SinkFault};
use crate::cqlp_note::{Header, NoMemory, Opcode, Reason};
use crate::cqlp_statement_types::StatementTypes;
use crate::cqlp_tcp_reassembly::{GapCause, StreamStep};
use crate::cqlp_text::{Pen, TextWriter};
use crate::cqlp_type::TypeTable;
use crate::kit_std::alloc::{AllocError};

/// The header before that of the first frame.
const NO_HEADER: Header = Header {
    response: true,
    flags: 0,
    stream: 0,
    opcode: Opcode::Ready,
    length: 0,
};

/// What is known of the responses of a connection: of its statements, and of the page of the frame that is read.
pub(crate) struct Responses {
    /// The number of the connection.
    number: u64,
    known: PreparedTypes,
    others: OtherTypes,
    /// Where the frame that began last begins, and its header.
    begun: FrameSpot,
    /// What it said of a page.
    page: Page,
}

impl Responses {
    /// Nothing came of the connection with this number, and these types of statements are given. All memory but that of types is taken here.
    pub(crate) fn new(number: u64, given: StatementTypes) -> Result<Self, AllocError> {
        let others = OtherTypes::new(given)?;
        match PreparedTypes::new(STATEMENTS, EXECUTES) {
            Ok(known) => Ok(Responses {
                number,
                known,
                others,
                begun: FrameSpot {
                    spot: Spot { number, at: 0 },
                    header: NO_HEADER,
                },
                page: Page::new(),
            }),
            Err(NewPreparedError::NoMemory | NewPreparedError::BadLimit) => Err(AllocError),
        }
    }
}

impl Responses {
    /// Takes what the direction of the requests delivers, with its bytes: what is known of statements changes by that.
    pub(crate) fn hear_requests(&mut self, step: StreamStep, bytes: &[u8], requests: &mut Requests) {
        requests.hear(step, bytes, &mut self.known);
    }

    /// A place in the responses.
    fn spot(&self, at: u64) -> Spot {
        Spot {
            number: self.number,
            at,
        }
    }

    /// The direction of its lines.
    fn place(&self) -> LinePlace {
        LinePlace {
            number: self.number,
            responses: true,
        }
    }

    /// No more is read of the frame. Takes the end of its page, if that has not ended.
    fn cut<P: Pen>(&mut self, writer: &mut TextWriter<P>) -> Result<(), SinkFault> {
        let cut = self.page.put_cut(writer);
        self.page = Page::new();
        cut
    }

    /// Takes what the responses of another connection deliver, with its bytes: what is known of statements changes by that.
    pub(crate) fn hear_others(
        &mut self,
        number: u64,
        step: StreamStep,
        bytes: &[u8],
        connections: &mut OtherConnections,
    ) -> Result<(), NoMemory> {
        connections.hear(number, step, bytes, &mut self.others)
    }

    /// Says that a response came under this stream id, and copies the types of the statement that the EXECUTE names which waits under it. Memory is
    /// asked for only where there are types.
    fn types_for(&mut self, stream: i16) -> Result<Option<TypeTable>, NoMemory> {
        match self.known.answered(stream) {
            Some(id) => {
                let types = self.copy_of(&id);
                self.others.note_use(&id);
                types
            }
            None => Ok(None),
        }
    }

    fn copy_of(&self, id: &StatementId) -> Result<Option<TypeTable>, NoMemory> {
        match self.types_of(id) {
            Some(types) => Ok(Some(types.clone_table()?)),
            None => Ok(None),
        }
    }

    /// The types of a statement, by its own connection first.
    fn types_of(&self, id: &StatementId) -> Option<&TypeTable> {
        match self.known.types_of(id) {
            Some(types) => Some(types),
            None => self.others.types_of(id),
        }
    }

    /// The frame came whole. A PREPARED says the types of its statement's result: it is the RESULT that names a statement. Memory is asked for
    /// only then.
    fn learn(&mut self, types: &TypeTable) -> Result<(), NoMemory> {
        if !is_result(&self.begun.header) {
            return Ok(());
        }
        match self.page.id() {
            Some(id) => self.known.prepared(id.as_slice(), types),
            None => Ok(()),
        }
    }
}

impl Transcript for Responses {
    type Fault = ReportFault;

    fn no_memory() -> ReportFault {
        ReportFault::NoMemory
    }

    fn begin<P: Pen>(
        &mut self,
        at: u64,
        header: &Header,
        _writer: &mut TextWriter<P>,
    ) -> Result<Option<TypeTable>, ReportFault> {
        let types = self.types_for(header.stream)?;
        self.begun = FrameSpot {
            spot: self.spot(at),
            header: *header,
        };
        self.page = Page::new();
        Ok(types)
    }

    fn event<P: Pen>(
        &mut self,
        _at: u64,
        event: &Event<'_>,
        writer: &mut TextWriter<P>,
    ) -> Result<(), ReportFault> {
        Ok(self.page.put_event(event, self.begun, writer)?)
    }

    fn refusal<P: Pen>(
        &mut self,
        at: u64,
        why: Reason,
        writer: &mut TextWriter<P>,
    ) -> Result<(), ReportFault> {
        self.cut(writer)?;
        Ok(put_refused(writer, self.place(), at, why)?)
    }

    fn compressed<P: Pen>(
        &mut self,
        at: u64,
        header: &Header,
        writer: &mut TextWriter<P>,
    ) -> Result<(), ReportFault> {
        self.known.forget(header.stream);
        Ok(put_compressed(writer, self.place(), at)?)
    }

    fn unread<P: Pen>(
        &mut self,
        at: u64,
        header: &Header,
        writer: &mut TextWriter<P>,
    ) -> Result<(), ReportFault> {
        self.known.forget(header.stream);
        Ok(put_unread(writer, self.place(), at)?)
    }

    fn gap<P: Pen>(
        &mut self,
        at: u64,
        length: u64,
        cause: GapCause,
        writer: &mut TextWriter<P>,
    ) -> Result<(), ReportFault> {
        Ok(put_gap(writer, self.place(), at, length, cause)?)
    }

    fn end<P: Pen>(
        &mut self,
        types: &TypeTable,
        writer: &mut TextWriter<P>,
    ) -> Result<(), ReportFault> {
        self.learn(types)?;
        Ok(self.cut(writer)?)
    }

    fn close<P: Pen>(&mut self, writer: &mut TextWriter<P>) -> Result<(), ReportFault> {
        Ok(self.cut(writer)?)
    }
}

/// Whether it is that of a RESULT.
fn is_result(header: &Header) -> bool {
    header.opcode == Opcode::Result
}
