// Written by dist/erase from crates/cqlp_capture_exchanges/src/warning_texts.rt.
//! The texts of the warnings of a response, in a line, an object or a record.

use crate::cqlp_capture_exchanges::warning::{Warning, Warnings};
use crate::cqlp_capture_summary::{put_shown_in_field, put_shown_text};
use crate::cqlp_grammar::SinkFault;
use crate::cqlp_json::put_string;
use crate::cqlp_text::{Pen, TextWriter};

/// What texts are written in.
#[derive(Clone, Copy)]
pub(crate) enum WarningForm {
    Line,
    Json,
    Csv,
}

/// Takes the texts of warnings, each behind another one.
pub(crate) fn put_other_texts<P: Pen>(
    writer: &mut TextWriter<P>,
    form: WarningForm,
    warnings: &Warnings<'_>,
) -> Result<(), SinkFault> {
    let mut rest = *warnings;
    while let Some((warning, others)) = rest.split_first() {
        put_other_text(writer, form, &warning)?;
        rest = others;
    }
    Ok(())
}

fn put_other_text<P: Pen>(
    writer: &mut TextWriter<P>,
    form: WarningForm,
    warning: &Warning<'_>,
) -> Result<(), SinkFault> {
    match form {
        WarningForm::Line => put_in_line(writer, warning),
        WarningForm::Json => put_in_array(writer, warning),
        WarningForm::Csv => put_in_field(writer, warning),
    }
}

fn put_in_line<P: Pen>(writer: &mut TextWriter<P>, warning: &Warning<'_>) -> Result<(), SinkFault> {
    writer.put(b" \"")?;
    put_shown_text(writer, warning.text)?;
    writer.put_str(closing(warning.is_whole))
}

/// The quote behind a text, and two points if that is not all of it.
fn closing(is_whole: bool) -> &'static str {
    if is_whole { "\"" } else { "\".." }
}

fn put_in_array<P: Pen>(writer: &mut TextWriter<P>, warning: &Warning<'_>) -> Result<(), SinkFault> {
    writer.put(b",")?;
    put_string(warning.text, writer)
}

fn put_in_field<P: Pen>(writer: &mut TextWriter<P>, warning: &Warning<'_>) -> Result<(), SinkFault> {
    writer.put(b"; ")?;
    put_shown_in_field(writer, warning.text)
}

/// Takes the members that have the texts of warnings, by the first one and the others.
pub(crate) fn put_texts_members<P: Pen>(
    writer: &mut TextWriter<P>,
    first: &Warning<'_>,
    others: &Warnings<'_>,
) -> Result<(), SinkFault> {
    writer.put(b",\"warning_texts\":[")?;
    put_string(first.text, writer)?;
    put_other_texts(writer, WarningForm::Json, others)?;
    writer.put(b"],\"warning_texts_are_whole\":")?;
    writer.put_str(whole_text(first, others))
}

/// Likewise the fields, one of which has all texts.
pub(crate) fn put_texts_fields<P: Pen>(
    writer: &mut TextWriter<P>,
    first: &Warning<'_>,
    others: &Warnings<'_>,
) -> Result<(), SinkFault> {
    writer.put(b",\"")?;
    put_shown_in_field(writer, first.text)?;
    put_other_texts(writer, WarningForm::Csv, others)?;
    writer.put(b"\",")?;
    writer.put_str(whole_text(first, others))
}

/// Whether all of the text of each warning is there.
fn whole_text(first: &Warning<'_>, others: &Warnings<'_>) -> &'static str {
    if first.is_whole && others.are_whole() {
        "true"
    } else {
        "false"
    }
}
