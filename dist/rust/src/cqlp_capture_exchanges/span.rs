// Written by dist/erase from crates/cqlp_capture_exchanges/src/span.rt.
//! Times that lie apart.

use crate::cqlp_grammar::SinkFault;
use crate::cqlp_observer::{Extent, SeenFrame};
use crate::cqlp_text::{Pen, TextWriter};

/// How far a time lies behind another one, or before it.
#[derive(Clone, Copy)]
pub(crate) struct Span {
    pub(crate) is_before: bool,
    pub(crate) nanoseconds: u64,
}

/// What times are written in.
#[derive(Clone, Copy)]
pub(crate) enum Unit {
    Second,
    Millisecond,
}

impl Unit {
    /// How many nanoseconds it has.
    fn nanoseconds(self) -> u64 {
        match self {
            Unit::Second => 1_000_000_000,
            Unit::Millisecond => 1_000_000,
        }
    }

    /// How many digits after the point microseconds are.
    fn places(self) -> usize {
        match self {
            Unit::Second => 6,
            Unit::Millisecond => 3,
        }
    }
}

/// How far the second time lies behind the first, where both are known.
pub(crate) fn time_between(from: Option<u64>, to: Option<u64>) -> Option<Span> {
    match (from, to) {
        (Some(from), Some(to)) if to < from => Some(Span {
            is_before: true,
            nanoseconds: from - to,
        }),
        (Some(from), Some(to)) => Some(Span {
            is_before: false,
            nanoseconds: to - from,
        }),
        _ => None,
    }
}

/// Whether all of a frame was captured.
pub(crate) fn is_whole(extent: Extent) -> bool {
    extent == Extent::Whole
}

/// Whether a frame's direction ended before its last byte.
pub(crate) fn is_short(extent: Extent) -> bool {
    extent == Extent::Short
}

/// How long a response took: from the request's first byte to its own last one, if that came.
pub(crate) fn took(request: &SeenFrame, response: &SeenFrame) -> Option<Span> {
    if is_short(response.extent) {
        None
    } else {
        time_between(request.begun, response.ended)
    }
}

/// Takes a time in a unit, to the microsecond, or where that is not exact, to the nanosecond. `-` where it is not known.
pub(crate) fn put_time<P: Pen>(
    writer: &mut TextWriter<P>,
    unit: Unit,
    time: Option<Span>,
) -> Result<(), SinkFault> {
    match time {
        Some(span) => put_span(writer, unit, span),
        None => writer.put(b"-"),
    }
}

fn put_span<P: Pen>(writer: &mut TextWriter<P>, unit: Unit, span: Span) -> Result<(), SinkFault> {
    let whole = span.nanoseconds / unit.nanoseconds();
    let rest = span.nanoseconds % unit.nanoseconds();
    writer.put_str(sign(span.is_before))?;
    writer.put_number(whole)?;
    writer.put(b".")?;
    put_fraction(writer, unit.places(), rest)
}

pub(crate) fn sign(is_before: bool) -> &'static str {
    if is_before { "-" } else { "" }
}

/// Takes nanoseconds below a unit of time, whose microseconds are so many digits.
pub(crate) fn put_fraction<P: Pen>(
    writer: &mut TextWriter<P>,
    places: usize,
    nanoseconds: u64,
) -> Result<(), SinkFault> {
    if nanoseconds % 1_000 == 0 {
        writer.put_digits(places, nanoseconds / 1_000)
    } else {
        writer.put_digits(places + 3, nanoseconds)
    }
}
