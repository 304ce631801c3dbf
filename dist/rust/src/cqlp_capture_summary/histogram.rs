// Written by dist/erase from crates/cqlp_capture_summary/src/histogram.rt.
//! How many requests took how long, in ranges of time that double.

use crate::cqlp_capture_summary::buckets::{bucket_of, greatest_in};
use crate::cqlp_capture_summary::columns::{put_number_column, put_share, share_of};
use crate::cqlp_capture_summary::tally::{Tally, bucket_at};
use crate::cqlp_grammar::SinkFault;
use crate::cqlp_text::{Pen, TextWriter};

/// What is above the columns.
const HEADER: &str = "      up_to_ms    count     %\n";

/// How many ranges there are.
const RANGES: usize = 60;

/// How many buckets a range has.
const WIDTH: usize = 32;

/// How many signs the range with most requests has.
const LONGEST: usize = 50;

static SIGNS: [u8; LONGEST] = [b'#'; LONGEST];

/// Takes how many requests took how long, and how many were not answered.
pub(crate) fn put_histogram<P: Pen>(
    writer: &mut TextWriter<P>,
    tally: &Tally,
) -> Result<(), SinkFault> {
    put_header(writer)?;
    put_ranges(writer, tally)?;
    put_unanswered(writer, tally.unanswered())
}

fn put_header<P: Pen>(writer: &mut TextWriter<P>) -> Result<(), SinkFault> {
    writer.put_str(HEADER)
}

/// Takes a row for each range from the first to the last in which a time is.
fn put_ranges<P: Pen>(writer: &mut TextWriter<P>, tally: &Tally) -> Result<(), SinkFault> {
    match bucket_at(tally.buckets(), 1) {
        Some(bucket) => put_rows(
            writer,
            tally.buckets(),
            tally.timed(),
            bucket / WIDTH,
            end_of(tally.greatest()),
        ),
        None => writer.put(b""),
    }
}

/// The range behind the one in which a time is.
fn end_of(time: u64) -> usize {
    bucket_of(time) / WIDTH + 1
}

/// Takes the rows of these ranges.
fn put_rows<P: Pen>(
    writer: &mut TextWriter<P>,
    buckets: &[u64],
    timed: u64,
    first: usize,
    end: usize,
) -> Result<(), SinkFault> {
    let most = most_in(buckets, RANGES);
    for range in first..end {
        put_row(writer, buckets, timed, most, range)?;
    }
    Ok(())
}

fn put_row<P: Pen>(
    writer: &mut TextWriter<P>,
    buckets: &[u64],
    timed: u64,
    most: u64,
    range: usize,
) -> Result<(), SinkFault> {
    let count = count_in(buckets, range);
    put_bound(writer, range)?;
    put_number_column(writer, 8, count)?;
    put_share(writer, share_of(count, timed))?;
    put_bar(writer, bar_of(count, most))?;
    writer.put(b"\n")
}

/// Takes the greatest time of a range in milliseconds.
fn put_bound<P: Pen>(writer: &mut TextWriter<P>, range: usize) -> Result<(), SinkFault> {
    let greatest = greatest_in(WIDTH * range + (WIDTH - 1));
    put_number_column(writer, 6, greatest / 1_000_000)?;
    writer.put(b".")?;
    writer.put_digits(6, greatest)
}

/// Takes so many signs after a space, if there are some.
fn put_bar<P: Pen>(writer: &mut TextWriter<P>, signs: usize) -> Result<(), SinkFault> {
    if signs == 0 {
        return writer.put(b"");
    }
    put_signs(writer, signs)
}

fn put_signs<P: Pen>(writer: &mut TextWriter<P>, signs: usize) -> Result<(), SinkFault> {
    writer.put(b" ")?;
    writer.put(&SIGNS[..signs])
}

/// Takes how many were not answered, if there are some.
fn put_unanswered<P: Pen>(writer: &mut TextWriter<P>, count: u64) -> Result<(), SinkFault> {
    if count == 0 {
        return writer.put(b"");
    }
    put_some_unanswered(writer, count)
}

fn put_some_unanswered<P: Pen>(writer: &mut TextWriter<P>, count: u64) -> Result<(), SinkFault> {
    writer.put(b"unanswered ")?;
    writer.put_number(count)?;
    writer.put(b"\n")
}

/// How many signs a range with so many times has, where the one with most has so many: one at least, if it has some.
fn bar_of(count: u64, most: u64) -> usize {
    let most = u128::from(most.max(1));
    let signs = (u128::from(count) * 50 + (most - 1)) / most;
    signs.min(50) as usize
}

/// How many times the one with most of them has of so many ranges.
fn most_in(buckets: &[u64], ranges: usize) -> u64 {
    let mut most = 0u64;
    for range in 0..ranges {
        most = most.max(count_in(buckets, range));
    }
    most
}

/// How many times are in a range.
fn count_in(buckets: &[u64], range: usize) -> u64 {
    sum_of(&buckets[WIDTH * range..WIDTH * range + WIDTH])
}

fn sum_of(counts: &[u64]) -> u64 {
    let mut sum = 0u64;
    for count in counts {
        sum = sum.saturating_add(*count);
    }
    sum
}
