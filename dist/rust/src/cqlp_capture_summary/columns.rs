// Written by dist/erase from crates/cqlp_capture_summary/src/columns.rt.
//! Columns of a line.

use crate::cqlp_grammar::SinkFault;
use crate::cqlp_text::{Pen, TextWriter};

/// The greatest width of a column.
const WIDEST: usize = 16;

static SPACES: [u8; WIDEST] = [b' '; WIDEST];

/// Takes a text behind so many spaces that both have this width.
fn put_padded<P: Pen>(
    writer: &mut TextWriter<P>,
    width: usize,
    text: &[u8],
) -> Result<(), SinkFault> {
    writer.put(&SPACES[..width.saturating_sub(text.len())])?;
    writer.put(text)
}

pub(crate) fn put_text_column<P: Pen>(
    writer: &mut TextWriter<P>,
    width: usize,
    text: &[u8],
) -> Result<(), SinkFault> {
    writer.put(b" ")?;
    put_padded(writer, width, text)
}

pub(crate) fn put_number_column<P: Pen>(
    writer: &mut TextWriter<P>,
    width: usize,
    number: u64,
) -> Result<(), SinkFault> {
    let mut digits = crate::itoa::Buffer::new();
    put_text_column(writer, width, digits.format(number).as_bytes())
}

/// Takes nanoseconds as milliseconds, cut to the microsecond; the width is that of the whole ones.
pub(crate) fn put_time_column<P: Pen>(
    writer: &mut TextWriter<P>,
    width: usize,
    nanoseconds: u64,
) -> Result<(), SinkFault> {
    put_number_column(writer, width, nanoseconds / 1_000_000)?;
    writer.put(b".")?;
    writer.put_digits(3, nanoseconds / 1_000)
}

/// The share of a time in a sum, in thousandths.
pub(crate) fn share_of(time: u64, total: u64) -> u64 {
    let share = u128::from(time) * 1_000 / u128::from(total.max(1));
    share.min(1_000) as u64
}

/// Writes a share in thousandths, in hundredths.
pub(crate) fn put_share<P: Pen>(writer: &mut TextWriter<P>, share: u64) -> Result<(), SinkFault> {
    put_number_column(writer, 3, share / 10)?;
    writer.put(b".")?;
    writer.put_digits(1, share)
}
