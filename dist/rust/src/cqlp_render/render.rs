// Written by dist/erase from crates/cqlp_render/src/render.rt.
//! Streams as text.

use crate::cqlp_render::buffered_sink::BufferedSink;
use crate::cqlp_render::form::{Form, Lines};
use crate::cqlp_decode::{Decoder, Event, Outcome, Sink, SinkFault, run};
use crate::cqlp_note::{Source, Target};
use crate::cqlp_text::PagePlace;

/// Writes the text of each event to a target. No part of a text waits between two events.
pub(crate) struct TextSink<W: Target, F: Form> {
    target: W,
    form: F,
}

impl<W: Target, F: Form> TextSink<W, F> {
    /// Over a target, in a form.
    pub fn new(target: W, form: F) -> Self {
        TextSink { target, form }
    }

    /// The target.
    pub fn into_inner(self) -> W {
        let TextSink { target, form: _ } = self;
        target
    }
}

impl<W: Target, F: Form> Sink for TextSink<W, F> {
    #[inline]
    fn take(&mut self, at: u64, event: &Event<'_>) -> Result<(), SinkFault> {
        self.form.put(at, event, &mut self.target)
    }
}

/// Writes the lines of all events of a reader's bytes, from at most `turns` reads. The events of bytes that the decoder
/// was given before come first. A fault of the writer is `Outcome::SinkFault`.
pub fn render_events<R: Source, W: Target>(
    decoder: &mut Decoder,
    reader: &mut R,
    w: W,
    turns: u64,
) -> (Outcome, W) {
    let mut sink = TextSink::new(w, Lines);
    let outcome = run(decoder, reader, &mut sink, turns);
    (outcome, sink.into_inner())
}

/// Writes the text of the pages of a reader's bytes, from at most `turns` reads, with a decoder that is new or has just
/// handed out the end of a frame. Of a page that is under way nothing is written. A fault of the writer is
/// `Outcome::SinkFault`.
pub fn render_rows<R: Source, W: Target>(
    decoder: &mut Decoder,
    reader: &mut R,
    w: W,
    turns: u64,
) -> (Outcome, W) {
    let mut sink = TextSink::new(w, PagePlace::new());
    let outcome = run(decoder, reader, &mut sink, turns);
    (outcome, sink.into_inner())
}

/// Hands all events of a reader's bytes to a sink over a buffer, from at most `turns` reads, as `run` does. Before each
/// read, the text of the events so far is passed on.
pub(crate) fn run_flushing<R: Source, W: Target, F: Form>(
    decoder: &mut Decoder,
    reader: &mut R,
    sink: &mut BufferedSink<W, F>,
    turns: u64,
) -> Outcome {
    let mut outcome = run(decoder, reader, sink, 0);
    for turn in 0..turns {
        let Outcome::Turns = outcome else {
            return outcome;
        };
        let Ok(()) = sink.flush() else {
            return Outcome::SinkFault;
        };
        outcome = run(decoder, reader, sink, 1);
    }
    outcome
}
