// Written by dist/erase from crates/cqlp_capture_rows/src/page.rt.
//! A page, as far as its events came.

use crate::cqlp_capture_rows::spot::{FrameSpot, put_page_line};
use crate::cqlp_capture_prepared::StatementId;
use crate::cqlp_grammar::{Event, SinkFault};
use crate::cqlp_note::Field;
use crate::cqlp_text::{PagePlace, Pen, TextWriter};

/// The kind of a result that is a page (section 4.2.5 of `native_protocol_v4.spec`).
const ROWS: i32 = 2;

/// What the text of a frame's next event depends on.
pub(crate) struct Page {
    place: PagePlace,
    /// Whether a page has begun that has not ended.
    is_begun: bool,
    /// The id of a statement that was named.
    id: Option<StatementId>,
}

impl Page {
    /// Before the first event of a frame.
    pub(crate) fn new() -> Self {
        Page {
            place: PagePlace::new(),
            is_begun: false,
            id: None,
        }
    }

    /// Takes what is written of an event of the frame that begins there, and goes to the place after it.
    pub(crate) fn put_event<P: Pen>(
        &mut self,
        event: &Event<'_>,
        begun: FrameSpot,
        writer: &mut TextWriter<P>,
    ) -> Result<(), SinkFault> {
        self.is_begun = is_begun_after(self.is_begun, event);
        note_id(&mut self.id, event);
        put_page_line_if(begins_page(event), writer, begun)?;
        writer.put_page_part(&mut self.place, event)
    }

    /// The id of a statement that was named, of a RESULT that of its PREPARED, if it has at most [`StatementId::MOST`] bytes.
    pub(crate) fn id(&self) -> Option<&StatementId> {
        self.id.as_ref()
    }

    /// Takes the end of a page that does not end, if one has begun.
    pub(crate) fn put_cut<P: Pen>(&self, writer: &mut TextWriter<P>) -> Result<(), SinkFault> {
        if self.is_begun {
            writer.put(b" cut\n")
        } else {
            Ok(())
        }
    }
}

/// Keeps the id of a statement, if an event says one.
pub(crate) fn note_id(id: &mut Option<StatementId>, event: &Event<'_>) {
    if let Event::Bytes {
        field: Field::StatementId,
        bytes: Some(bytes),
    } = *event
    {
        *id = StatementId::new(bytes);
    }
}

/// Takes the line of a page, where one begins.
fn put_page_line_if<P: Pen>(
    begins: bool,
    writer: &mut TextWriter<P>,
    begun: FrameSpot,
) -> Result<(), SinkFault> {
    if begins {
        put_page_line(writer, begun)
    } else {
        Ok(())
    }
}

/// Whether a page has begun that has not ended, after an event.
fn is_begun_after(is_begun: bool, event: &Event<'_>) -> bool {
    if ends_frame(event) {
        false
    } else if begins_page(event) {
        true
    } else {
        is_begun
    }
}

/// Whether a page begins with an event.
fn begins_page(event: &Event<'_>) -> bool {
    match *event {
        Event::Int { field, value } => is_page_kind(field, value),
        _ => false,
    }
}

fn is_page_kind(field: Field, value: i32) -> bool {
    match field {
        Field::ResultKind => value == ROWS,
        _ => false,
    }
}

fn ends_frame(event: &Event<'_>) -> bool {
    match *event {
        Event::End { .. } => true,
        _ => false,
    }
}
