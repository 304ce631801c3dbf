// Written by dist/erase from crates/cqlp_render/src/form.rt.
//! How the text of events is written.

use crate::cqlp_decode::{Event, SinkFault};
use crate::cqlp_json::{json_line, put_json_line};
use crate::cqlp_note::Target;
use crate::cqlp_row_text::{TablePlace, csv_part, json_part, put_csv_part, put_json_part};
use crate::cqlp_text::{PagePlace, Pen, TextWriter, event_line, page_part};

/// A form of text. Each has a type of its own, so that no event asks for its form.
pub(crate) trait Form {
    /// Appends the text of the event at an offset. A fault is the target's own.
    fn put<W: Target>(
        &mut self,
        at: u64,
        event: &Event<'_>,
        target: &mut W,
    ) -> Result<(), SinkFault>;

    /// Has a writer take the text of the event at an offset.
    fn write<P: Pen>(
        &mut self,
        at: u64,
        event: &Event<'_>,
        writer: &mut TextWriter<P>,
    ) -> Result<(), SinkFault>;
}

/// A line for each event.
pub(crate) struct Lines;

impl Form for Lines {
    #[inline]
    fn put<W: Target>(
        &mut self,
        at: u64,
        event: &Event<'_>,
        target: &mut W,
    ) -> Result<(), SinkFault> {
        event_line(at, event, target)
    }

    #[inline]
    fn write<P: Pen>(
        &mut self,
        at: u64,
        event: &Event<'_>,
        writer: &mut TextWriter<P>,
    ) -> Result<(), SinkFault> {
        writer.put_event(at, event)
    }
}

/// A JSON object for each event, in a line.
pub(crate) struct JsonLines;

impl Form for JsonLines {
    #[inline]
    fn put<W: Target>(
        &mut self,
        at: u64,
        event: &Event<'_>,
        target: &mut W,
    ) -> Result<(), SinkFault> {
        json_line(at, event, target)
    }

    #[inline]
    fn write<P: Pen>(
        &mut self,
        at: u64,
        event: &Event<'_>,
        writer: &mut TextWriter<P>,
    ) -> Result<(), SinkFault> {
        put_json_line(at, event, writer)
    }
}

/// The text of pages, from a place in a page.
impl Form for PagePlace {
    #[inline]
    fn put<W: Target>(
        &mut self,
        _at: u64,
        event: &Event<'_>,
        target: &mut W,
    ) -> Result<(), SinkFault> {
        page_part(self, event, target)
    }

    #[inline(always)]
    fn write<P: Pen>(
        &mut self,
        _at: u64,
        event: &Event<'_>,
        writer: &mut TextWriter<P>,
    ) -> Result<(), SinkFault> {
        writer.put_page_part(self, event)
    }
}

/// The rows of pages as JSON, from a place in a page.
pub(crate) struct JsonRows(pub TablePlace);

impl Form for JsonRows {
    #[inline]
    fn put<W: Target>(
        &mut self,
        _at: u64,
        event: &Event<'_>,
        target: &mut W,
    ) -> Result<(), SinkFault> {
        json_part(&mut self.0, event, target)
    }

    #[inline]
    fn write<P: Pen>(
        &mut self,
        _at: u64,
        event: &Event<'_>,
        writer: &mut TextWriter<P>,
    ) -> Result<(), SinkFault> {
        put_json_part(&mut self.0, event, writer)
    }
}

/// The rows of pages as CSV, from a place in a page.
pub(crate) struct CsvRows(pub TablePlace);

impl Form for CsvRows {
    #[inline]
    fn put<W: Target>(
        &mut self,
        _at: u64,
        event: &Event<'_>,
        target: &mut W,
    ) -> Result<(), SinkFault> {
        csv_part(&mut self.0, event, target)
    }

    #[inline]
    fn write<P: Pen>(
        &mut self,
        _at: u64,
        event: &Event<'_>,
        writer: &mut TextWriter<P>,
    ) -> Result<(), SinkFault> {
        put_csv_part(&mut self.0, event, writer)
    }
}

/// No text.
pub(crate) struct Nothing;

impl Form for Nothing {
    #[inline]
    fn put<W: Target>(
        &mut self,
        _at: u64,
        _event: &Event<'_>,
        _target: &mut W,
    ) -> Result<(), SinkFault> {
        Ok(())
    }

    #[inline]
    fn write<P: Pen>(
        &mut self,
        _at: u64,
        _event: &Event<'_>,
        _writer: &mut TextWriter<P>,
    ) -> Result<(), SinkFault> {
        Ok(())
    }
}
