// Written by dist/erase from crates/cqlp_capture_frames/src/lines.rt.
//! Lines of a direction of a connection, which begin with its number, and `>` for requests, `<` for responses.

use crate::cqlp_grammar::SinkFault;
use crate::cqlp_note::Reason;
use crate::cqlp_tcp_reassembly::GapCause;
use crate::cqlp_text::{Pen, TextWriter, reason_name};

/// The direction of a connection that a line is of.
#[derive(Clone, Copy)]
pub struct LinePlace {
    /// The number of the connection.
    pub number: u64,
    pub responses: bool,
}

fn arrow(responses: bool) -> &'static str {
    if responses { " < " } else { " > " }
}

/// Takes the number of the connection, and the direction.
pub fn put_place<P: Pen>(writer: &mut TextWriter<P>, place: LinePlace) -> Result<(), SinkFault> {
    writer.put_number(place.number)?;
    writer.put_str(arrow(place.responses))
}

/// Takes the line of a frame that is refused at an offset.
pub fn put_refused<P: Pen>(
    writer: &mut TextWriter<P>,
    place: LinePlace,
    at: u64,
    why: Reason,
) -> Result<(), SinkFault> {
    put_place(writer, place)?;
    writer.put_number(at)?;
    writer.put(b" refused ")?;
    writer.put_str(reason_name(why))?;
    writer.put(b"\n")
}

/// Takes the line of a compressed frame that begins at an offset.
pub fn put_compressed<P: Pen>(
    writer: &mut TextWriter<P>,
    place: LinePlace,
    at: u64,
) -> Result<(), SinkFault> {
    put_place(writer, place)?;
    writer.put_number(at)?;
    writer.put(b" compressed\n")
}

/// Takes the line of a frame that begins at an offset and is not read, as there is no room for its decoder.
pub fn put_unread<P: Pen>(
    writer: &mut TextWriter<P>,
    place: LinePlace,
    at: u64,
) -> Result<(), SinkFault> {
    put_place(writer, place)?;
    writer.put_number(at)?;
    writer.put(b" unread\n")
}

/// Takes the line of a gap at an offset.
pub fn put_gap<P: Pen>(
    writer: &mut TextWriter<P>,
    place: LinePlace,
    at: u64,
    length: u64,
    cause: GapCause,
) -> Result<(), SinkFault> {
    put_place(writer, place)?;
    writer.put_number(at)?;
    writer.put(b" gap ")?;
    writer.put_number(length)?;
    writer.put_str(gap_end(cause))
}

/// How the line of a gap ends: their packet was cut by the snap length, or no packet has the bytes.
fn gap_end(cause: GapCause) -> &'static str {
    match cause {
        GapCause::Lost => "\n",
        GapCause::Snapped => " snapped\n",
    }
}
