// Written by dist/erase from crates/cqlp_render/src/buffered_sink.rt.
//! Text in large pieces.

use crate::cqlp_render::form::Form;
use crate::cqlp_decode::{Event, Sink, SinkFault};
use crate::cqlp_note::Target;
use crate::cqlp_text::{Buffered, TextWriter};

/// Writes the text of each event straight into a buffer in front of a target.
pub(crate) struct BufferedSink<W: Target, F: Form> {
    writer: TextWriter<Buffered<W>>,
    form: F,
}

impl<W: Target, F: Form> BufferedSink<W, F> {
    /// Over a buffer, in a form.
    #[must_use]
    pub fn new(buffered: Buffered<W>, form: F) -> Self {
        BufferedSink {
            writer: TextWriter::new(buffered),
            form,
        }
    }

    /// The buffer.
    #[must_use]
    pub fn into_inner(self) -> Buffered<W> {
        let BufferedSink { writer, form: _ } = self;
        writer.into_inner()
    }
}

impl<W: Target, F: Form> BufferedSink<W, F> {
    /// Passes on all text that waits; after a fault nothing waits either.
    pub fn flush(&mut self) -> Result<(), SinkFault> {
        self.writer.pass_on()
    }
}

impl<W: Target, F: Form> Sink for BufferedSink<W, F> {
    #[inline(always)]
    fn take(&mut self, at: u64, event: &Event<'_>) -> Result<(), SinkFault> {
        self.form.write(at, event, &mut self.writer)
    }
}
