// Written by dist/erase from crates/cqlp_capture_exchanges/src/interval_objects.rt.
//! An interval as JSON: an object in a line, where something is counted in it.

use crate::cqlp_capture_exchanges::member::{Member, Value, put_members};
use crate::cqlp_capture_exchanges::summary_objects::put_times;
use crate::cqlp_capture_summary::{Figures, begin_of, width_of};
use crate::cqlp_grammar::SinkFault;
use crate::cqlp_text::{Pen, TextWriter};

/// Takes the object of an interval of so many seconds, if something is counted in it.
pub(crate) fn put_interval_object<P: Pen>(
    writer: &mut TextWriter<P>,
    seconds: u32,
    figures: &Figures,
) -> Result<(), SinkFault> {
    if figures.count == 0 {
        return writer.put(b"");
    }
    put_some(writer, seconds, figures)
}

fn put_some<P: Pen>(
    writer: &mut TextWriter<P>,
    seconds: u32,
    figures: &Figures,
) -> Result<(), SinkFault> {
    put_begin(writer, seconds, figures.last)?;
    put_rate(writer, seconds, figures.count)?;
    put_counts(writer, figures)?;
    put_times(writer, figures.times)?;
    writer.put(b"}\n")
}

/// Takes when the interval began that a time is in.
fn put_begin<P: Pen>(
    writer: &mut TextWriter<P>,
    seconds: u32,
    last: Option<u64>,
) -> Result<(), SinkFault> {
    put_members(
        writer,
        &[Member("{\"begin\":", begin_or_null(seconds, last))],
    )
}

fn begin_or_null(seconds: u32, last: Option<u64>) -> Value<'static> {
    match last {
        Some(time) => Value::Utc(begin_of(seconds, time) * 1_000_000_000),
        None => Value::Null,
    }
}

/// Takes how many there were in a second, of so many in an interval.
fn put_rate<P: Pen>(writer: &mut TextWriter<P>, seconds: u32, count: u64) -> Result<(), SinkFault> {
    let width = width_of(seconds);
    writer.put(b",\"per_s\":")?;
    writer.put_number(count / width)?;
    writer.put(b".")?;
    writer.put_digits(3, count % width * 1_000 / width)
}

fn put_counts<P: Pen>(writer: &mut TextWriter<P>, figures: &Figures) -> Result<(), SinkFault> {
    put_members(
        writer,
        &[
            Member(",\"count\":", Value::Number(figures.count)),
            Member(",\"errors\":", Value::Number(figures.errors)),
            Member(",\"unanswered\":", Value::Number(figures.unanswered)),
            Member(",\"rows\":", Value::Number(figures.rows)),
            Member(",\"bytes\":", Value::Number(figures.bytes)),
        ],
    )
}
