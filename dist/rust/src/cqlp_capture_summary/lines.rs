// Written by dist/erase from crates/cqlp_capture_summary/src/lines.rt.
//! The lines of a summary.

use crate::cqlp_capture_summary::columns::{put_number_column, put_share, put_text_column, put_time_column, share_of};
use crate::cqlp_capture_summary::name::Name;
use crate::cqlp_capture_summary::order::{rank_at, ranks_of};
use crate::cqlp_capture_summary::shown::put_shown_text;
use crate::cqlp_capture_summary::tally::{Figures, Tally, Times};
use crate::cqlp_grammar::SinkFault;
use crate::cqlp_text::{Pen, TextWriter};

/// What is above the columns but for the last.
const HEADER: &str =
    "     %    time_ms    count errors unanswered      rows       bytes   p50_ms   p95_ms   p99_ms    max_ms ";

/// Takes the line above the columns, whose last has this heading, a line for each of the names that are distinguished, and one for all others if
/// there are any.
pub(crate) fn put_summary<P: Pen>(
    writer: &mut TextWriter<P>,
    heading: &str,
    names: &[Name],
    weights: &[u64],
    tallies: &[Tally],
    others: &Tally,
) -> Result<(), SinkFault> {
    let total = time_with(others.time(), tallies);
    put_header(writer, heading)?;
    put_lines(writer, total, names, weights, tallies)?;
    put_others(writer, total, others)
}

/// Takes the line above the columns, whose last has this heading.
fn put_header<P: Pen>(writer: &mut TextWriter<P>, heading: &str) -> Result<(), SinkFault> {
    writer.put_str(HEADER)?;
    writer.put_str(heading)?;
    writer.put(b"\n")
}

/// A time and those of all statements, in nanoseconds.
fn time_with(time: u64, tallies: &[Tally]) -> u64 {
    let mut sum = time;
    for tally in tallies {
        sum = sum.saturating_add(tally.time());
    }
    sum
}

/// Takes the lines of the statements, in their order.
fn put_lines<P: Pen>(
    writer: &mut TextWriter<P>,
    total: u64,
    names: &[Name],
    weights: &[u64],
    tallies: &[Tally],
) -> Result<(), SinkFault> {
    let ranks = ranks_of(tallies);
    for rank in 0..tallies.len() {
        put_rank(writer, total, names, weights, tallies, &ranks, rank)?;
    }
    Ok(())
}

/// Takes the line of the statement of a rank.
fn put_rank<P: Pen>(
    writer: &mut TextWriter<P>,
    total: u64,
    names: &[Name],
    weights: &[u64],
    tallies: &[Tally],
    ranks: &[usize],
    rank: usize,
) -> Result<(), SinkFault> {
    for place in 0..tallies.len() {
        put_if(writer, total, names, weights, tallies, ranks, rank, place)?;
    }
    Ok(())
}

/// Takes the line of a statement that has a rank.
fn put_if<P: Pen>(
    writer: &mut TextWriter<P>,
    total: u64,
    names: &[Name],
    weights: &[u64],
    tallies: &[Tally],
    ranks: &[usize],
    rank: usize,
    place: usize,
) -> Result<(), SinkFault> {
    if rank_at(ranks, tallies, place) == rank {
        put_at(writer, total, names, weights, tallies, place)
    } else {
        writer.put(b"")
    }
}

/// Takes the line of the statement at a place.
fn put_at<P: Pen>(
    writer: &mut TextWriter<P>,
    total: u64,
    names: &[Name],
    weights: &[u64],
    tallies: &[Tally],
    place: usize,
) -> Result<(), SinkFault> {
    let name = &names[place];
    let tally = &tallies[place];
    let missing = weights[place].saturating_sub(tally.time());
    put_line(
        writer,
        total,
        name.as_slice(),
        name.is_whole(),
        missing,
        &tally.figures(),
    )
}

/// Takes the line of the statements that are not distinguished, if there are any.
fn put_others<P: Pen>(
    writer: &mut TextWriter<P>,
    total: u64,
    others: &Tally,
) -> Result<(), SinkFault> {
    if others.count() == 0 {
        return writer.put(b"");
    }
    put_line(writer, total, b"others", true, 0, &others.figures())
}

fn put_line<P: Pen>(
    writer: &mut TextWriter<P>,
    total: u64,
    bytes: &[u8],
    is_whole: bool,
    missing: u64,
    figures: &Figures,
) -> Result<(), SinkFault> {
    put_share(writer, share_of(figures.time, total))?;
    put_counts(writer, figures)?;
    put_times(writer, figures.times)?;
    put_missing(writer, missing)?;
    put_name(writer, bytes, is_whole)
}

fn put_counts<P: Pen>(writer: &mut TextWriter<P>, figures: &Figures) -> Result<(), SinkFault> {
    put_time_column(writer, 6, figures.time)?;
    put_request_counts(writer, figures)
}

/// Takes how many requests there were, and what came of them.
pub(crate) fn put_request_counts<P: Pen>(
    writer: &mut TextWriter<P>,
    figures: &Figures,
) -> Result<(), SinkFault> {
    put_number_column(writer, 8, figures.count)?;
    put_number_column(writer, 6, figures.errors)?;
    put_number_column(writer, 10, figures.unanswered)?;
    put_number_column(writer, 9, figures.rows)?;
    put_number_column(writer, 11, figures.bytes)
}

pub(crate) fn put_times<P: Pen>(
    writer: &mut TextWriter<P>,
    times: Option<Times>,
) -> Result<(), SinkFault> {
    match times {
        Some(times) => put_known_times(writer, times),
        None => put_no_times(writer),
    }
}

fn put_known_times<P: Pen>(writer: &mut TextWriter<P>, times: Times) -> Result<(), SinkFault> {
    put_time_column(writer, 4, times.median)?;
    put_time_column(writer, 4, times.percentile_95)?;
    put_time_column(writer, 4, times.percentile_99)?;
    put_time_column(writer, 5, times.greatest)
}

fn put_no_times<P: Pen>(writer: &mut TextWriter<P>) -> Result<(), SinkFault> {
    put_text_column(writer, 8, b"-")?;
    put_text_column(writer, 8, b"-")?;
    put_text_column(writer, 8, b"-")?;
    put_text_column(writer, 9, b"-")
}

/// Writes what may be missing, if there is any.
fn put_missing<P: Pen>(writer: &mut TextWriter<P>, missing: u64) -> Result<(), SinkFault> {
    if missing == 0 {
        return writer.put(b"");
    }
    put_some_missing(writer, missing)
}

fn put_some_missing<P: Pen>(writer: &mut TextWriter<P>, missing: u64) -> Result<(), SinkFault> {
    writer.put(b" (up to")?;
    put_time_column(writer, 1, missing)?;
    writer.put(b" ms more)")
}

/// Takes a name and the end of its line.
fn put_name<P: Pen>(
    writer: &mut TextWriter<P>,
    bytes: &[u8],
    is_whole: bool,
) -> Result<(), SinkFault> {
    writer.put(b" ")?;
    put_shown_text(writer, text_front(bytes))?;
    writer.put_str(more(is_whole))?;
    writer.put(b"\n")
}

/// The longest front of bytes that is UTF-8.
pub(crate) fn text_front(bytes: &[u8]) -> &str {
    match core::str::from_utf8(bytes) {
        Ok(text) => text,
        // SAFETY: the bytes up to there are UTF-8.
        Err(error) => unsafe { core::str::from_utf8_unchecked(&bytes[..error.valid_up_to()]) },
    }
}

/// What comes behind a name that is not whole.
fn more(is_whole: bool) -> &'static str {
    if is_whole { "" } else { ".." }
}
