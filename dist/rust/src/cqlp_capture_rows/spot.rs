// Written by dist/erase from crates/cqlp_capture_rows/src/spot.rt.
//! Lines of pages.

use crate::cqlp_grammar::SinkFault;
use crate::cqlp_note::Header;
use crate::cqlp_text::{Pen, TextWriter};

/// A place in the responses of a connection.
#[derive(Clone, Copy)]
pub(crate) struct Spot {
    /// The number of the connection.
    pub(crate) number: u64,
    /// How many bytes and bytes of gaps lie before it.
    pub(crate) at: u64,
}

/// Where a frame begins, and its header.
#[derive(Clone, Copy)]
pub(crate) struct FrameSpot {
    pub(crate) spot: Spot,
    pub(crate) header: Header,
}

/// Takes the line of the page of the frame that begins there.
pub(crate) fn put_page_line<P: Pen>(
    writer: &mut TextWriter<P>,
    begun: FrameSpot,
) -> Result<(), SinkFault> {
    writer.put_number(begun.spot.number)?;
    writer.put(b":")?;
    put_stream(writer, begun)?;
    writer.put(b" ")?;
    writer.put_number(begun.spot.at)?;
    writer.put(b"\n")
}

fn put_stream<P: Pen>(writer: &mut TextWriter<P>, begun: FrameSpot) -> Result<(), SinkFault> {
    writer.put_signed(i64::from(begun.header.stream))
}
