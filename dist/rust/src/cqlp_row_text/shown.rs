// Written by dist/erase from crates/cqlp_row_text/src/shown.rt.
//! What is written of an event.

use crate::cqlp_row_text::quotes::{put_text_field, put_text_item};
use crate::cqlp_grammar::SinkFault;
use crate::cqlp_json::put_scalar;
use crate::cqlp_kind::Scalar;
use crate::cqlp_text::{Pen, TextWriter};

/// A value, or a part of one.
#[derive(Clone, Copy)]
pub(crate) enum Content<'a> {
    Nothing,
    Number(u64),
    /// A scalar as JSON.
    Json(Scalar<'a>),
    /// A scalar as a page's text has it.
    Cell(Scalar<'a>),
    /// A text that is a field of CSV.
    TextField(&'a str),
    /// A text among the items of a field of CSV.
    TextItem(&'a str),
    /// Bytes as two digits each.
    Hex(&'a [u8]),
}

/// What is written of an event: the parts in order.
#[derive(Clone, Copy)]
pub(crate) struct Shown<'a> {
    /// What comes between this value and those before it.
    pub before: &'static str,
    /// What belongs to the value, before its content.
    pub begin: &'static str,
    pub content: Content<'a>,
    /// What belongs to the value, after its content.
    pub end: &'static str,
    /// What comes after this value.
    pub after: &'static str,
}

impl Shown<'static> {
    /// Nothing is written.
    pub const NOTHING: Shown<'static> = Shown {
        before: "",
        begin: "",
        content: Content::Nothing,
        end: "",
        after: "",
    };
}

/// Takes what is written of an event.
#[inline]
pub(crate) fn put_shown<P: Pen>(
    shown: &Shown<'_>,
    writer: &mut TextWriter<P>,
) -> Result<(), SinkFault> {
    writer.put_str(shown.before)?;
    writer.put_str(shown.begin)?;
    put_content(&shown.content, writer)?;
    writer.put_str(shown.end)?;
    writer.put_str(shown.after)
}

#[inline]
fn put_content<P: Pen>(content: &Content<'_>, writer: &mut TextWriter<P>) -> Result<(), SinkFault> {
    match *content {
        Content::Nothing => Ok(()),
        Content::Number(number) => writer.put_number(number),
        Content::Json(ref scalar) => put_scalar(scalar, writer),
        Content::Cell(ref scalar) => writer.put_cell(scalar),
        Content::TextField(text) => put_text_field(text, writer),
        Content::TextItem(text) => put_text_item(text, writer),
        Content::Hex(bytes) => writer.put_hex(bytes),
    }
}
