// Written by dist/erase from crates/cqlp_skip/src/shifting.rt.
//! A sink that gets offsets in the whole stream.

use crate::cqlp_skip::frame::{OpenFrame, frame_after, stream_offset};
use crate::cqlp_grammar::{Event, Sink, SinkFault};

/// Hands events on to a sink, at their offsets in the whole stream, and notes the frame under way.
pub(crate) struct Shifting<S: Sink> {
    pub sink: S,
    /// Where the stretch begins.
    pub base: u64,
    pub frame: Option<OpenFrame>,
}

impl<S: Sink> Sink for Shifting<S> {
    #[inline]
    fn take(&mut self, at: u64, event: &Event<'_>) -> Result<(), SinkFault> {
        self.frame = frame_after(self.frame, at, event);
        self.sink.take(stream_offset(self.base, at), event)
    }
}
