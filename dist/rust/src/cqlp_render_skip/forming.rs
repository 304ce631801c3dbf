// Written by dist/erase from crates/cqlp_render_skip/src/forming.rt.
//! Forms of text, written and begun anew.

use crate::cqlp_decode::{Event, SinkFault};
use crate::cqlp_json::put_json_line;
use crate::cqlp_render::TextForm;
use crate::cqlp_row_text::{TablePlace, csv_break, json_break, put_csv_part, put_json_part};
use crate::cqlp_text::{PagePlace, Pen, TextWriter};

/// Takes the text of the event at an offset.
#[inline]
pub(crate) fn write_event<P: Pen>(
    form: &mut TextForm,
    at: u64,
    event: &Event<'_>,
    writer: &mut TextWriter<P>,
) -> Result<(), SinkFault> {
    match form {
        TextForm::Lines => writer.put_event(at, event),
        TextForm::JsonLines => put_json_line(at, event, writer),
        TextForm::Pages(place) => writer.put_page_part(place, event),
        TextForm::JsonRows(place) => put_json_part(place, event, writer),
        TextForm::CsvRows(place) => put_csv_part(place, event, writer),
        TextForm::Nothing => Ok(()),
    }
}

/// Takes what ends the text of a stretch, and goes on with no page under way.
pub(crate) fn break_off<P: Pen>(
    form: &mut TextForm,
    writer: &mut TextWriter<P>,
) -> Result<(), SinkFault> {
    match form {
        TextForm::Lines | TextForm::JsonLines => Ok(()),
        TextForm::Pages(place) => {
            *place = PagePlace::new();
            writer.put(b"\n")
        }
        TextForm::JsonRows(place) => {
            let text = json_break(place);
            *place = TablePlace::new();
            writer.put(text.as_bytes())
        }
        TextForm::CsvRows(place) => {
            let text = csv_break(place);
            *place = TablePlace::new();
            writer.put(text.as_bytes())
        }
        TextForm::Nothing => Ok(()),
    }
}
