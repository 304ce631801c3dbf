// Written by dist/erase from crates/cqlp_capture_frames/src/transcript.rt.
//! How what happens in a direction is written.

use crate::cqlp_grammar::Event;
use crate::cqlp_note::{Header, Reason};
use crate::cqlp_tcp_reassembly::GapCause;
use crate::cqlp_text::{Pen, TextWriter};
use crate::cqlp_type::TypeTable;

/// What writes down what happens in one direction of a connection, one thing after the other. Each call takes the text of what is reported to it, and
/// offsets count from the start of the direction. After a fault nothing more is reported.
pub trait Transcript {
    /// What ends the text early: a fault of the output, or that memory is refused.
    type Fault;

    /// That memory is refused.
    fn no_memory() -> Self::Fault;

    /// A frame with this header begins at an offset, and its bytes are read. Answers the types for its page, should that not describe its columns
    /// (flag No_metadata, section 4.2.5.2 of `native_protocol_v4.spec`).
    fn begin<P: Pen>(
        &mut self,
        at: u64,
        header: &Header,
        writer: &mut TextWriter<P>,
    ) -> Result<Option<TypeTable>, Self::Fault>;

    /// The frame that began last says an event at an offset.
    fn event<P: Pen>(
        &mut self,
        at: u64,
        event: &Event<'_>,
        writer: &mut TextWriter<P>,
    ) -> Result<(), Self::Fault>;

    /// The frame that began last is refused at an offset, and no more of it is read.
    fn refusal<P: Pen>(
        &mut self,
        at: u64,
        why: Reason,
        writer: &mut TextWriter<P>,
    ) -> Result<(), Self::Fault>;

    /// A frame with this header begins at an offset that is compressed, so that its bytes are passed over.
    fn compressed<P: Pen>(
        &mut self,
        at: u64,
        header: &Header,
        writer: &mut TextWriter<P>,
    ) -> Result<(), Self::Fault>;

    /// A frame with this header begins at an offset, and there is no room to read it, so that its bytes are passed over.
    fn unread<P: Pen>(
        &mut self,
        at: u64,
        header: &Header,
        writer: &mut TextWriter<P>,
    ) -> Result<(), Self::Fault>;

    /// So many bytes are missing at an offset, for this cause.
    fn gap<P: Pen>(
        &mut self,
        at: u64,
        length: u64,
        cause: GapCause,
        writer: &mut TextWriter<P>,
    ) -> Result<(), Self::Fault>;

    /// The frame that began last came whole. These are the types of the metadata that it described last: of a PREPARED those of its statement's
    /// result (section 4.2.5.4 of `native_protocol_v4.spec`).
    fn end<P: Pen>(
        &mut self,
        types: &TypeTable,
        writer: &mut TextWriter<P>,
    ) -> Result<(), Self::Fault>;

    /// No more is read of the frame that began last: its other bytes are missing or passed over.
    fn close<P: Pen>(&mut self, writer: &mut TextWriter<P>) -> Result<(), Self::Fault>;
}
