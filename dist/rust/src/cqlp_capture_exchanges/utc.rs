// Written by dist/erase from crates/cqlp_capture_exchanges/src/utc.rt.
//! Dates and times of day of UTC.

use crate::cqlp_capture_exchanges::span::put_fraction;
use crate::cqlp_grammar::SinkFault;
use crate::cqlp_text::{Pen, TextWriter};

/// How many nanoseconds a day has.
const DAY: u64 = 86_400_000_000_000;

/// The number that `TextWriter::put_date` takes for the first of January 1970.
const EPOCH: u64 = 1 << 31;

/// Takes nanoseconds since 1970-01-01 00:00:00 UTC as a date and a time of day, to the microsecond, or where that is not exact, to the nanosecond.
/// `-` where they are not known.
pub(crate) fn put_utc<P: Pen>(
    writer: &mut TextWriter<P>,
    time: Option<u64>,
) -> Result<(), SinkFault> {
    match time {
        Some(time) => put_date_and_time(writer, time),
        None => writer.put(b"-"),
    }
}

fn put_date_and_time<P: Pen>(writer: &mut TextWriter<P>, time: u64) -> Result<(), SinkFault> {
    let day = EPOCH + time / DAY;
    writer.put_date(day as u32)?;
    writer.put(b"T")?;
    put_clock(writer, time / 1_000_000_000)?;
    writer.put(b".")?;
    put_fraction(writer, 6, time % 1_000_000_000)?;
    writer.put(b"Z")
}

/// Takes the time of day in a second.
fn put_clock<P: Pen>(writer: &mut TextWriter<P>, second: u64) -> Result<(), SinkFault> {
    writer.put_digits(2, second / 3_600 % 24)?;
    writer.put(b":")?;
    writer.put_digits(2, second / 60 % 60)?;
    writer.put(b":")?;
    writer.put_digits(2, second % 60)
}
