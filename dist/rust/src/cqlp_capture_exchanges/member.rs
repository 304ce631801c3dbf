// Written by dist/erase from crates/cqlp_capture_exchanges/src/member.rt.
//! Members of JSON objects, and their values.

use crate::cqlp_capture_exchanges::end::put_end;
use crate::cqlp_capture_exchanges::reply::consistency_name;
use crate::cqlp_capture_exchanges::span::{Span, sign};
use crate::cqlp_grammar::SinkFault;
use crate::cqlp_json::{put_bytes, put_string, put_word};
use crate::cqlp_tcp_segment::Endpoint;
use crate::cqlp_text::{Pen, TextWriter};

/// How many nanoseconds a day has.
const DAY: u64 = 86_400_000_000_000;

/// The number that `TextWriter::put_date` takes for the first of January 1970.
const EPOCH: u64 = 1 << 31;

/// The value of a member.
#[derive(Clone, Copy)]
pub(crate) enum Value<'a> {
    Null,
    Flag(bool),
    /// Between quotes where it is above 2^53.
    Number(u64),
    Signed(i32),
    /// With nine digits after the point; between quotes where it is more than 2^53 nanoseconds.
    Seconds(Span),
    /// Nanoseconds since 1970-01-01 00:00:00 UTC as a date and a time of day.
    Utc(u64),
    /// As a socket's address is written.
    End(Endpoint),
    /// A text that needs no escape.
    Name(&'a str),
    Text(&'a str),
    Hex(&'a [u8]),
    /// With hyphens.
    Uuid([u8; 16]),
}

/// A value, and the text before it: a comma or a bracket, the member's key in quotes and a colon.
#[derive(Clone, Copy)]
pub(crate) struct Member<'a>(pub &'a str, pub Value<'a>);

/// A time, where it is known.
pub(crate) fn seconds_or_null(time: Option<Span>) -> Value<'static> {
    match time {
        Some(span) => Value::Seconds(span),
        None => Value::Null,
    }
}

/// A date and a time of day, where they are known.
pub(crate) fn utc_or_null(time: Option<u64>) -> Value<'static> {
    match time {
        Some(time) => Value::Utc(time),
        None => Value::Null,
    }
}

/// A number, where it is known.
pub(crate) fn signed_or_null(number: Option<i32>) -> Value<'static> {
    match number {
        Some(number) => Value::Signed(number),
        None => Value::Null,
    }
}

/// A number, where it is known.
pub(crate) fn number_or_null(number: Option<u16>) -> Value<'static> {
    match number {
        Some(number) => Value::Number(u64::from(number)),
        None => Value::Null,
    }
}

/// An id, where it is known.
pub(crate) fn uuid_or_null(id: Option<[u8; 16]>) -> Value<'static> {
    match id {
        Some(id) => Value::Uuid(id),
        None => Value::Null,
    }
}

/// Whether something is so, where that is known.
pub(crate) fn flag_or_null(flag: Option<bool>) -> Value<'static> {
    match flag {
        Some(flag) => Value::Flag(flag),
        None => Value::Null,
    }
}

/// A text, where it is known.
pub(crate) fn text_or_null<'a>(text: Option<&'a str>) -> Value<'a> {
    match text {
        Some(text) => Value::Text(text),
        None => Value::Null,
    }
}

/// Bytes, where they are known.
pub(crate) fn hex_or_null<'a>(bytes: Option<&'a [u8]>) -> Value<'a> {
    match bytes {
        Some(bytes) => Value::Hex(bytes),
        None => Value::Null,
    }
}

/// A consistency level, where it is known.
pub(crate) fn consistency_or_null(level: Option<u16>) -> Value<'static> {
    match level {
        Some(level) => name_or_code(consistency_name(level), u32::from(level)),
        None => Value::Null,
    }
}

/// A name, or where there is none the number.
pub(crate) fn name_or_code(name: Option<&'static str>, code: u32) -> Value<'static> {
    match name {
        Some(name) => Value::Name(name),
        None => Value::Number(u64::from(code)),
    }
}

/// Takes members, one after the other.
pub(crate) fn put_members<P: Pen>(
    writer: &mut TextWriter<P>,
    members: &[Member<'_>],
) -> Result<(), SinkFault> {
    for member in members {
        writer.put_str(member.0)?;
        put_value(writer, &member.1)?;
    }
    Ok(())
}

/// Takes a value. It is large, and stays where it is, here and below.
#[inline(always)]
pub(crate) fn put_value<P: Pen>(
    writer: &mut TextWriter<P>,
    value: &Value<'_>,
) -> Result<(), SinkFault> {
    match value {
        Value::Null => writer.put(b"null"),
        Value::Flag(true) => writer.put(b"true"),
        Value::Flag(false) => writer.put(b"false"),
        _ => put_any_value(writer, value),
    }
}

/// The same, out of line: most values are null or a flag.
#[inline(never)]
fn put_any_value<P: Pen>(writer: &mut TextWriter<P>, value: &Value<'_>) -> Result<(), SinkFault> {
    match value {
        Value::Null => writer.put(b"null"),
        Value::Flag(flag) => writer.put_str(boolean_text(*flag)),
        Value::Number(number) => put_big(writer, *number),
        Value::Signed(number) => writer.put_signed(i64::from(*number)),
        Value::Seconds(span) => put_seconds(writer, *span),
        Value::Utc(time) => put_utc(writer, *time),
        Value::End(end) => put_end_value(writer, *end),
        Value::Name(name) => put_word(name, writer),
        Value::Text(text) => put_string(text, writer),
        Value::Hex(bytes) => put_bytes(bytes, writer),
        Value::Uuid(id) => put_id(writer, *id),
    }
}

fn boolean_text(flag: bool) -> &'static str {
    if flag { "true" } else { "false" }
}

fn put_id<P: Pen>(writer: &mut TextWriter<P>, id: [u8; 16]) -> Result<(), SinkFault> {
    writer.put(b"\"")?;
    writer.put_uuid(id)?;
    writer.put(b"\"")
}

/// What comes before and behind a number: quotes, where many readers of JSON do not keep it exactly.
fn quote(number: u64) -> &'static str {
    if number > 9_007_199_254_740_992 {
        "\""
    } else {
        ""
    }
}

fn put_big<P: Pen>(writer: &mut TextWriter<P>, number: u64) -> Result<(), SinkFault> {
    writer.put_str(quote(number))?;
    writer.put_number(number)?;
    writer.put_str(quote(number))
}

fn put_seconds<P: Pen>(writer: &mut TextWriter<P>, span: Span) -> Result<(), SinkFault> {
    let nanoseconds = span.nanoseconds;
    writer.put_str(quote(nanoseconds))?;
    writer.put_str(sign(span.is_before))?;
    writer.put_number(nanoseconds / 1_000_000_000)?;
    writer.put(b".")?;
    writer.put_digits(9, nanoseconds % 1_000_000_000)?;
    writer.put_str(quote(nanoseconds))
}

fn put_utc<P: Pen>(writer: &mut TextWriter<P>, time: u64) -> Result<(), SinkFault> {
    let day = EPOCH + time / DAY;
    writer.put(b"\"")?;
    writer.put_date(day as u32)?;
    writer.put(b"T")?;
    writer.put_time((time % DAY) as i64)?;
    writer.put(b"Z\"")
}

fn put_end_value<P: Pen>(writer: &mut TextWriter<P>, end: Endpoint) -> Result<(), SinkFault> {
    writer.put(b"\"")?;
    put_end(writer, end)?;
    writer.put(b"\"")
}
