// Written by dist/erase from crates/cqlp_capture_rows/src/other_types.rt.
//! What PREPAREDs on other connections say of statements.

use crate::cqlp_capture_rows::other_limits::{OTHER_LIMITS, OTHER_STATEMENTS};
use crate::cqlp_capture_rows::page::note_id;
use crate::cqlp_capture_rows::silent::Silent;
use crate::cqlp_capture_frames::{Direction, ReportFault, Transcript};
use crate::cqlp_capture_prepared::{NewPreparedError, PreparedTypes, StatementId};
use crate::cqlp_grammar::Event;
use crate::cqlp_note::{Header, NoMemory, Reason};
use crate::cqlp_statement_types::StatementTypes;
use crate::cqlp_tcp_reassembly::{GapCause, StreamStep};
use crate::cqlp_text::{Pen, TextWriter};
use crate::cqlp_type::TypeTable;
use crate::kit_std::alloc::{AllocError};

/// The types of statements that were prepared on other connections, the latest of each: at most [`OTHER_STATEMENTS`], of which those go first that were
/// prepared, or used by a page, longest ago. And those of statements that were prepared before the capture, as they were given.
pub(crate) struct OtherTypes {
    known: PreparedTypes,
    given: StatementTypes,
    /// The id that the frame named which is read.
    id: Option<StatementId>,
}

impl OtherTypes {
    /// The types that the last PREPARED said which named this id, if they are still known, or else those that were given.
    pub(crate) fn types_of(&self, id: &StatementId) -> Option<&TypeTable> {
        match self.known.types_of(id) {
            Some(types) => Some(types),
            None => self.types_given(id),
        }
    }

    /// The types that were given for this id.
    fn types_given(&self, id: &StatementId) -> Option<&TypeTable> {
        self.given.get(id.as_slice())
    }

    /// Says that a page has the types of this statement, if it is known.
    pub(crate) fn note_use(&mut self, id: &StatementId) {
        self.known.note_use(id);
    }
}

impl OtherTypes {
    /// Nothing is known but the types that are given. Memory for the list is taken here.
    pub(crate) fn new(given: StatementTypes) -> Result<Self, AllocError> {
        match PreparedTypes::new(OTHER_STATEMENTS, 1) {
            Ok(known) => Ok(OtherTypes {
                known,
                given,
                id: None,
            }),
            Err(NewPreparedError::NoMemory | NewPreparedError::BadLimit) => Err(AllocError),
        }
    }

    /// Reads a frame that came whole. If it is a PREPARED, the types of its statement's result are known.
    pub(crate) fn learn(&mut self, frame: &[u8]) -> Result<(), NoMemory> {
        let mut direction = Direction::new(OTHER_LIMITS, true);
        direction.restart(true);
        let step = StreamStep::Payload {
            from: 0,
            count: frame.len(),
        };
        let mut silent = TextWriter::new(Silent);
        match direction.hear(true, step, 0, frame, self, &mut silent) {
            Ok(()) => Ok(()),
            Err(ReportFault::NoMemory | ReportFault::Write) => Err(NoMemory),
        }
    }
}

impl Transcript for OtherTypes {
    type Fault = ReportFault;

    fn no_memory() -> ReportFault {
        ReportFault::NoMemory
    }

    fn begin<P: Pen>(
        &mut self,
        _at: u64,
        _header: &Header,
        _writer: &mut TextWriter<P>,
    ) -> Result<Option<TypeTable>, ReportFault> {
        self.id = None;
        Ok(None)
    }

    fn event<P: Pen>(
        &mut self,
        _at: u64,
        event: &Event<'_>,
        _writer: &mut TextWriter<P>,
    ) -> Result<(), ReportFault> {
        note_id(&mut self.id, event);
        Ok(())
    }

    fn refusal<P: Pen>(
        &mut self,
        _at: u64,
        _why: Reason,
        _writer: &mut TextWriter<P>,
    ) -> Result<(), ReportFault> {
        Ok(())
    }

    fn compressed<P: Pen>(
        &mut self,
        _at: u64,
        _header: &Header,
        _writer: &mut TextWriter<P>,
    ) -> Result<(), ReportFault> {
        Ok(())
    }

    fn unread<P: Pen>(
        &mut self,
        _at: u64,
        _header: &Header,
        _writer: &mut TextWriter<P>,
    ) -> Result<(), ReportFault> {
        Ok(())
    }

    fn gap<P: Pen>(
        &mut self,
        _at: u64,
        _length: u64,
        _cause: GapCause,
        _writer: &mut TextWriter<P>,
    ) -> Result<(), ReportFault> {
        Ok(())
    }

    fn end<P: Pen>(
        &mut self,
        types: &TypeTable,
        _writer: &mut TextWriter<P>,
    ) -> Result<(), ReportFault> {
        if let Some(id) = &self.id {
            self.known.prepared(id.as_slice(), types)?;
        }
        Ok(())
    }

    fn close<P: Pen>(&mut self, _writer: &mut TextWriter<P>) -> Result<(), ReportFault> {
        Ok(())
    }
}
