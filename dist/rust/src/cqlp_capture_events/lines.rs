// Written by dist/erase from crates/cqlp_capture_events/src/lines.rt.
//! Lines of events.

use crate::cqlp_capture_frames::{
    LinePlace, ReportFault, Transcript, put_compressed, put_gap, put_place, put_refused, put_unread,
};
use crate::cqlp_grammar::{Event, SinkFault};
use crate::cqlp_note::{Header, Reason};
use crate::cqlp_tcp_reassembly::GapCause;
use crate::cqlp_text::{Pen, TextWriter};
use crate::cqlp_type::TypeTable;

/// The lines of one direction of a connection.
#[derive(Clone, Copy)]
pub(crate) struct Lines {
    pub(crate) place: LinePlace,
    /// How many frames were not read, as there was no room for their decoders.
    pub(crate) unread: u64,
}

/// Takes the line of an event at an offset.
fn put_event<P: Pen>(
    writer: &mut TextWriter<P>,
    place: LinePlace,
    at: u64,
    event: &Event<'_>,
) -> Result<(), SinkFault> {
    put_place(writer, place)?;
    writer.put_event(at, event)
}

impl Transcript for Lines {
    type Fault = ReportFault;

    fn no_memory() -> ReportFault {
        ReportFault::NoMemory
    }

    fn begin<P: Pen>(
        &mut self,
        _at: u64,
        _header: &Header,
        _writer: &mut TextWriter<P>,
    ) -> Result<Option<TypeTable>, ReportFault> {
        Ok(None)
    }

    fn event<P: Pen>(
        &mut self,
        at: u64,
        event: &Event<'_>,
        writer: &mut TextWriter<P>,
    ) -> Result<(), ReportFault> {
        Ok(put_event(writer, self.place, at, event)?)
    }

    fn refusal<P: Pen>(
        &mut self,
        at: u64,
        why: Reason,
        writer: &mut TextWriter<P>,
    ) -> Result<(), ReportFault> {
        Ok(put_refused(writer, self.place, at, why)?)
    }

    fn compressed<P: Pen>(
        &mut self,
        at: u64,
        _header: &Header,
        writer: &mut TextWriter<P>,
    ) -> Result<(), ReportFault> {
        Ok(put_compressed(writer, self.place, at)?)
    }

    fn unread<P: Pen>(
        &mut self,
        at: u64,
        _header: &Header,
        writer: &mut TextWriter<P>,
    ) -> Result<(), ReportFault> {
        self.unread = self.unread.saturating_add(1);
        Ok(put_unread(writer, self.place, at)?)
    }

    fn gap<P: Pen>(
        &mut self,
        at: u64,
        length: u64,
        cause: GapCause,
        writer: &mut TextWriter<P>,
    ) -> Result<(), ReportFault> {
        Ok(put_gap(writer, self.place, at, length, cause)?)
    }

    fn end<P: Pen>(
        &mut self,
        _types: &TypeTable,
        _writer: &mut TextWriter<P>,
    ) -> Result<(), ReportFault> {
        Ok(())
    }

    fn close<P: Pen>(&mut self, _writer: &mut TextWriter<P>) -> Result<(), ReportFault> {
        Ok(())
    }
}
