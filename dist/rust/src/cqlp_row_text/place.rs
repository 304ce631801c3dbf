// Written by dist/erase from crates/cqlp_row_text/src/place.rt.
//! The place on a page, and whether a column's name has come.

use crate::cqlp_grammar::Event;
use crate::cqlp_note::Field;
use crate::cqlp_text::PagePlace;

/// What the rows of a page depend on of the events before.
pub struct TablePlace {
    pub(crate) page: PagePlace,
    /// Whether a column's name has come.
    pub(crate) is_named: bool,
}

impl TablePlace {
    /// Before any frame.
    #[must_use]
    pub fn new() -> Self {
        TablePlace {
            page: PagePlace::new(),
            is_named: false,
        }
    }

    /// Goes to the place after an event.
    #[inline]
    pub(crate) fn pass(&mut self, event: &Event<'_>) {
        self.page.pass(event);
        match *event {
            Event::Text {
                field: Field::ColumnName,
                ..
            } => self.is_named = true,
            Event::End { .. } => self.is_named = false,
            _ => {}
        }
    }
}
