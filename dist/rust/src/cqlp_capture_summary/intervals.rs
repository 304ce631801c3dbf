// Written by dist/erase from crates/cqlp_capture_summary/src/intervals.rt.
//! Requests, counted by the interval of time in which they were over.

use crate::cqlp_capture_summary::columns::put_number_column;
use crate::cqlp_capture_summary::lines::{put_request_counts, put_times};
use crate::cqlp_capture_summary::occurrence::Occurrence;
use crate::cqlp_capture_summary::tally::{Figures, Tally};
use crate::cqlp_grammar::SinkFault;
use crate::cqlp_text::{Pen, TextWriter};

/// What is above the columns.
const HEADER: &str =
    "               begin      per_s    count errors unanswered      rows       bytes   p50_ms   p95_ms   p99_ms    max_ms\n";

/// The number that `TextWriter::put_date` takes for the first of January 1970.
const EPOCH: u64 = 1 << 31;

/// How many seconds an interval has.
pub fn width_of(seconds: u32) -> u64 {
    u64::from(seconds.max(1))
}

/// The number of the interval in which a time is.
fn interval_of(seconds: u32, time: u64) -> u64 {
    time / 1_000_000_000 / width_of(seconds)
}

/// The second at which the interval begins in which a time is.
pub fn begin_of(seconds: u32, time: u64) -> u64 {
    interval_of(seconds, time) * width_of(seconds)
}

/// Whether a time is in a later interval than the last one was, or is the first.
fn is_later(seconds: u32, last: Option<u64>, at: Option<u64>) -> bool {
    match (last, at) {
        (_, None) => false,
        (None, Some(_)) => true,
        (Some(last), Some(at)) => interval_of(seconds, last) < interval_of(seconds, at),
    }
}

/// Whether the interval that is counted is over, before a request that was over at this time; it is where nothing is counted.
pub(crate) fn is_over(seconds: u32, at: Option<u64>, tally: &Tally) -> bool {
    tally.count() == 0 || is_later(seconds, tally.last(), at)
}

/// Counts nothing any more where the interval that is counted is over.
fn open(tally: &mut Tally, seconds: u32, at: Option<u64>) {
    if is_over(seconds, at, tally) {
        tally.clear();
    }
}

/// Counts a request that was over at this time in its interval.
pub(crate) fn add_in_interval(
    tally: &mut Tally,
    seconds: u32,
    occurrence: &Occurrence<'_>,
    is_answered: bool,
    at: Option<u64>,
)
{
    open(tally, seconds, at);
    tally.add_request(occurrence, is_answered, at);
}

/// Takes the line of the interval that is counted, or the line above all of them where nothing is.
pub(crate) fn put_interval<P: Pen>(
    writer: &mut TextWriter<P>,
    seconds: u32,
    tally: &Tally,
) -> Result<(), SinkFault> {
    if tally.count() == 0 {
        put_header(writer)
    } else {
        put_line(writer, seconds, &tally.figures())
    }
}

/// Takes the line above all lines.
fn put_header<P: Pen>(writer: &mut TextWriter<P>) -> Result<(), SinkFault> {
    writer.put_str(HEADER)
}

fn put_line<P: Pen>(
    writer: &mut TextWriter<P>,
    seconds: u32,
    figures: &Figures,
) -> Result<(), SinkFault> {
    put_begin(writer, seconds, figures.last)?;
    put_rate(writer, seconds, figures.count)?;
    put_request_counts(writer, figures)?;
    put_times(writer, figures.times)?;
    writer.put(b"\n")
}

/// Takes when the interval began that a time is in, or a dash.
fn put_begin<P: Pen>(
    writer: &mut TextWriter<P>,
    seconds: u32,
    last: Option<u64>,
) -> Result<(), SinkFault> {
    match last {
        Some(time) => put_second(writer, begin_of(seconds, time)),
        None => writer.put(b"                   -"),
    }
}

/// Takes a second since 1970-01-01 00:00:00 UTC as a date and a time of day.
fn put_second<P: Pen>(writer: &mut TextWriter<P>, second: u64) -> Result<(), SinkFault> {
    let day = EPOCH + second / 86_400;
    writer.put_date(day as u32)?;
    writer.put(b"T")?;
    writer.put_digits(2, second / 3_600 % 24)?;
    writer.put(b":")?;
    writer.put_digits(2, second / 60 % 60)?;
    writer.put(b":")?;
    writer.put_digits(2, second % 60)?;
    writer.put(b"Z")
}

/// Takes how many there were in a second, of so many in an interval.
fn put_rate<P: Pen>(writer: &mut TextWriter<P>, seconds: u32, count: u64) -> Result<(), SinkFault> {
    let width = width_of(seconds);
    put_number_column(writer, 6, count / width)?;
    writer.put(b".")?;
    writer.put_digits(3, count % width * 1_000 / width)
}
