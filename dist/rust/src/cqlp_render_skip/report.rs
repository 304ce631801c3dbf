// Written by dist/erase from crates/cqlp_render_skip/src/report.rt.
//! What is written while a stream is read.

use crate::cqlp_render_skip::forming::{break_off, write_event};
use crate::cqlp_render_skip::skipped_line::skipped_line;
use crate::cqlp_decode::{Event, Sink, SinkFault};
use crate::cqlp_note::Target;
use crate::cqlp_render::TextForm;
use crate::cqlp_skip::Skipped;
use crate::cqlp_text::{Buffered, TextWriter};

/// Writes the text of each event straight into a buffer in front of the output, and the lines of frames that are passed over
/// to the error output.
pub(crate) struct Report<O: Target, E: Target> {
    writer: TextWriter<Buffered<O>>,
    form: TextForm,
    err: E,
    passed_over: bool,
}

impl<O: Target, E: Target> Report<O, E> {
    /// Over a buffer, in a form, and an error output.
    pub fn new(buffered: Buffered<O>, form: TextForm, err: E) -> Self {
        Report {
            writer: TextWriter::new(buffered),
            form,
            err,
            passed_over: false,
        }
    }

    /// Whether a frame was passed over, the output, which did not get what waits, and the error output.
    pub fn into_parts(self) -> (bool, O, E) {
        let Report {
            writer,
            form: _,
            err,
            passed_over,
        } = self;
        (passed_over, writer.into_inner().into_inner(), err)
    }

    /// Passes on all text that waits; after a fault nothing waits either.
    pub fn flush(&mut self) -> Result<(), SinkFault> {
        self.writer.pass_on()
    }

    /// Ends the text of a stretch at a frame that is passed over, passes on all text, and writes the frame's line.
    pub fn end_stretch(&mut self, skipped: &Skipped) -> Result<(), SinkFault> {
        self.passed_over = true;
        self.end_text()?;
        skipped_line(skipped, &mut self.err)
    }

    /// Ends the text of a stretch, and passes on all text; after a fault nothing waits either.
    fn end_text(&mut self) -> Result<(), SinkFault> {
        break_off(&mut self.form, &mut self.writer)?;
        self.flush()
    }
}

impl<O: Target, E: Target> Sink for Report<O, E> {
    #[inline]
    fn take(&mut self, at: u64, event: &Event<'_>) -> Result<(), SinkFault> {
        write_event(&mut self.form, at, event, &mut self.writer)
    }
}
