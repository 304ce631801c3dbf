// Written by dist/erase from crates/cqlp_capture_exchanges/src/summary_objects.rt.
//! A summary as JSON: an object a line for each name, with the buckets of its times.

use crate::cqlp_capture_exchanges::member::{Member, Value, put_members, utc_or_null};
use crate::cqlp_capture_exchanges::span::Span;
use crate::cqlp_capture_summary::{Figures, Summary, Times, greatest_in};
use crate::cqlp_grammar::SinkFault;
use crate::cqlp_text::{Pen, TextWriter};

/// Writes an object for each name that is distinguished, in the order of the table, and one for all others if there are any. `by` is what they are names of.
pub fn put_summary_objects<P: Pen>(
    writer: &mut TextWriter<P>,
    by: &str,
    summary: &Summary,
) -> Result<(), SinkFault> {
    put_known(writer, by, summary)?;
    put_others(writer, by, summary)
}

fn put_known<P: Pen>(
    writer: &mut TextWriter<P>,
    by: &str,
    summary: &Summary,
) -> Result<(), SinkFault> {
    for place in 0..summary.len() {
        put_at(writer, by, summary, place)?;
    }
    Ok(())
}

/// Writes the object of the name at a place.
fn put_at<P: Pen>(
    writer: &mut TextWriter<P>,
    by: &str,
    summary: &Summary,
    place: usize,
) -> Result<(), SinkFault> {
    let Some(row) = summary.row(place) else {
        unreachable!()
    };
    put_object(
        writer,
        by,
        Some(row.text()),
        row.is_whole_name,
        row.missing,
        &row.figures,
        row.buckets,
    )
}

fn put_others<P: Pen>(
    writer: &mut TextWriter<P>,
    by: &str,
    summary: &Summary,
) -> Result<(), SinkFault> {
    let figures = summary.others();
    if figures.count == 0 {
        return writer.put(b"");
    }
    put_object(
        writer,
        by,
        None,
        true,
        0,
        &figures,
        summary.others_buckets(),
    )
}

fn put_object<P: Pen>(
    writer: &mut TextWriter<P>,
    by: &str,
    text: Option<&str>,
    is_whole: bool,
    missing: u64,
    figures: &Figures,
    buckets: &[u64],
) -> Result<(), SinkFault> {
    put_counts(writer, by, text, is_whole, figures)?;
    put_time_sums(writer, missing, figures)?;
    put_times(writer, figures.times)?;
    writer.put(b",\"buckets\":[")?;
    put_buckets(writer, buckets)?;
    writer.put(b"]}\n")
}

fn put_counts<'a, P: Pen>(
    writer: &mut TextWriter<P>,
    by: &'a str,
    text: Option<&'a str>,
    is_whole: bool,
    figures: &Figures,
) -> Result<(), SinkFault> {
    put_members(
        writer,
        &[
            Member("{\"by\":", Value::Name(by)),
            Member(",\"name\":", text_or_null(text)),
            Member(",\"name_is_whole\":", Value::Flag(is_whole)),
            Member(",\"count\":", Value::Number(figures.count)),
            Member(",\"errors\":", Value::Number(figures.errors)),
            Member(",\"unanswered\":", Value::Number(figures.unanswered)),
            Member(",\"rows\":", Value::Number(figures.rows)),
            Member(",\"bytes\":", Value::Number(figures.bytes)),
        ],
    )
}

fn text_or_null(text: Option<&str>) -> Value<'_> {
    match text {
        Some(text) => Value::Text(text),
        None => Value::Null,
    }
}

fn put_time_sums<P: Pen>(
    writer: &mut TextWriter<P>,
    missing: u64,
    figures: &Figures,
) -> Result<(), SinkFault> {
    put_members(
        writer,
        &[
            Member(",\"first\":", utc_or_null(figures.first)),
            Member(",\"last\":", utc_or_null(figures.last)),
            Member(",\"time\":", seconds(figures.time)),
            Member(",\"missing\":", seconds(missing)),
        ],
    )
}

pub(crate) fn put_times<P: Pen>(
    writer: &mut TextWriter<P>,
    times: Option<Times>,
) -> Result<(), SinkFault> {
    match times {
        Some(times) => put_known_times(writer, times),
        None => put_members(
            writer,
            &[
                Member(",\"p50\":", Value::Null),
                Member(",\"p95\":", Value::Null),
                Member(",\"p99\":", Value::Null),
                Member(",\"max\":", Value::Null),
            ],
        ),
    }
}

fn put_known_times<P: Pen>(writer: &mut TextWriter<P>, times: Times) -> Result<(), SinkFault> {
    put_members(
        writer,
        &[
            Member(",\"p50\":", seconds(times.median)),
            Member(",\"p95\":", seconds(times.percentile_95)),
            Member(",\"p99\":", seconds(times.percentile_99)),
            Member(",\"max\":", seconds(times.greatest)),
        ],
    )
}

/// Nanoseconds as seconds.
fn seconds(nanoseconds: u64) -> Value<'static> {
    Value::Seconds(Span {
        is_before: false,
        nanoseconds,
    })
}

/// Writes an array for each bucket that has times: the greatest time that it may have, and how many it has.
fn put_buckets<P: Pen>(writer: &mut TextWriter<P>, buckets: &[u64]) -> Result<(), SinkFault> {
    let mut is_first = true;
    for bucket in 0..buckets.len() {
        put_bucket(writer, is_first, bucket, buckets[bucket])?;
        is_first = is_still_first(is_first, buckets[bucket]);
    }
    Ok(())
}

/// Whether no bucket is written yet, after one with this count.
fn is_still_first(is_first: bool, count: u64) -> bool {
    is_first && count == 0
}

fn put_bucket<P: Pen>(
    writer: &mut TextWriter<P>,
    is_first: bool,
    bucket: usize,
    count: u64,
) -> Result<(), SinkFault> {
    if count == 0 {
        return writer.put(b"");
    }
    put_some_bucket(writer, is_first, bucket, count)
}

fn put_some_bucket<P: Pen>(
    writer: &mut TextWriter<P>,
    is_first: bool,
    bucket: usize,
    count: u64,
) -> Result<(), SinkFault> {
    let greatest = greatest_in(bucket);
    writer.put_str(separator(is_first))?;
    put_pair(writer, greatest, count)?;
    writer.put(b"]")
}

/// What separates a bucket from those before.
fn separator(is_first: bool) -> &'static str {
    if is_first { "" } else { "," }
}

fn put_pair<P: Pen>(writer: &mut TextWriter<P>, greatest: u64, count: u64) -> Result<(), SinkFault> {
    put_members(
        writer,
        &[
            Member("[", seconds(greatest)),
            Member(",", Value::Number(count)),
        ],
    )
}
