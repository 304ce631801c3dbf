// Written by dist/erase from crates/cqlp_capture_exchanges/src/csv_field.rt.
//! Fields of records of CSV.

use crate::cqlp_capture_exchanges::member::{Value, put_value};
use crate::cqlp_capture_summary::put_shown_in_field;
use crate::cqlp_grammar::SinkFault;
use crate::cqlp_text::{Pen, TextWriter};

/// Takes fields, each behind a comma.
pub(crate) fn put_fields<P: Pen>(
    writer: &mut TextWriter<P>,
    values: &[Value<'_>],
) -> Result<(), SinkFault> {
    for value in values {
        writer.put(b",")?;
        put_field(writer, value)?;
    }
    Ok(())
}

/// Takes a value as JSON has it, but for texts; and nothing where there is none.
fn put_field<P: Pen>(writer: &mut TextWriter<P>, value: &Value<'_>) -> Result<(), SinkFault> {
    match value {
        Value::Null => writer.put(b""),
        Value::Text(text) => put_text_field(writer, text),
        Value::Flag(_)
        | Value::Number(_)
        | Value::Signed(_)
        | Value::Seconds(_)
        | Value::Utc(_)
        | Value::End(_)
        | Value::Name(_)
        | Value::Hex(_)
        | Value::Uuid(_) => put_value(writer, value),
    }
}

fn put_text_field<P: Pen>(writer: &mut TextWriter<P>, text: &str) -> Result<(), SinkFault> {
    writer.put(b"\"")?;
    put_shown_in_field(writer, text)?;
    writer.put(b"\"")
}
