// Written by dist/erase from crates/cqlp_render/src/text_form.rt.
//! Forms of text.

use crate::cqlp_row_text::TablePlace;
use crate::cqlp_text::PagePlace;

/// What is written of the events of a stream. The clauses of the calls of this crate speak of it.
pub enum TextForm {
    /// A line for each.
    Lines,
    /// A JSON object for each, in a line.
    JsonLines,
    /// The text of pages, from a place in a page.
    Pages(PagePlace),
    /// The rows of pages as JSON, from a place in a page.
    JsonRows(TablePlace),
    /// The rows of pages as CSV, from a place in a page.
    CsvRows(TablePlace),
    Nothing,
}
