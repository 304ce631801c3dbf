// Written by dist/erase from crates/cqlp_json/src/member.rt.
//! Members of objects, and their values.

use crate::cqlp_json::string::put_string;
use crate::cqlp_grammar::SinkFault;
use crate::cqlp_kind::Scalar;
use crate::cqlp_text::{Pen, TextWriter};

/// The value of a member.
#[derive(Clone, Copy)]
pub(crate) enum Value<'a> {
    Null,
    Number(u64),
    /// A text that needs no escape.
    Name(&'a str),
    Scalar(Scalar<'a>),
}

/// A value, and the text before it: a comma, the member's name in quotes and a colon.
#[derive(Clone, Copy)]
pub(crate) struct Member<'a>(pub &'a str, pub Value<'a>);

/// A number without a sign.
pub(crate) fn number(number: u32) -> Value<'static> {
    Value::Number(u64::from(number))
}

/// A number of 16 bits.
pub(crate) fn smallint(number: i16) -> Value<'static> {
    Value::Scalar(Scalar::Smallint(number))
}

/// A number of 32 bits.
pub(crate) fn int(number: i32) -> Value<'static> {
    Value::Scalar(Scalar::Int(number))
}

/// A number of 64 bits, between quotes.
pub(crate) fn bigint(number: i64) -> Value<'static> {
    Value::Scalar(Scalar::Bigint(number))
}

/// Takes members, one after the other.
pub(crate) fn put_members<P: Pen>(
    members: &[Member<'_>],
    writer: &mut TextWriter<P>,
) -> Result<(), SinkFault> {
    for member in members {
        writer.put_str(member.0)?;
        put_value(member.1, writer)?;
    }
    Ok(())
}

/// Takes a value.
#[inline]
fn put_value<P: Pen>(value: Value<'_>, writer: &mut TextWriter<P>) -> Result<(), SinkFault> {
    match value {
        Value::Null => writer.put(b"null"),
        Value::Number(number) => writer.put_number(number),
        Value::Name(name) => put_word(name, writer),
        Value::Scalar(scalar) => put_scalar(&scalar, writer),
    }
}

/// Has a writer take a scalar as a JSON value. Those of at most 32 bits are numbers, booleans are such, and all others texts.
pub fn put_scalar<P: Pen>(scalar: &Scalar<'_>, writer: &mut TextWriter<P>) -> Result<(), SinkFault> {
    match *scalar {
        Scalar::Int(_) | Scalar::Smallint(_) | Scalar::Tinyint(_) | Scalar::Boolean(_) => {
            writer.put_cell(scalar)
        }
        Scalar::Custom(bytes) | Scalar::Blob(bytes) | Scalar::Raw(bytes) => {
            put_bytes(bytes, writer)
        }
        Scalar::Double(bytes) => put_float(bytes, writer),
        Scalar::Float(bytes) => put_float(bytes, writer),
        Scalar::Ascii(text) | Scalar::Varchar(text) => put_string(text, writer),
        Scalar::Bigint(_)
        | Scalar::Counter(_)
        | Scalar::Decimal { .. }
        | Scalar::Timestamp(_)
        | Scalar::Uuid(_)
        | Scalar::Varint(_)
        | Scalar::Timeuuid(_)
        | Scalar::Inet(_)
        | Scalar::Date(_)
        | Scalar::Time(_) => put_cell_word(scalar, writer),
    }
}

/// Takes a text that needs no escape, between quotes.
pub fn put_word<P: Pen>(text: &str, writer: &mut TextWriter<P>) -> Result<(), SinkFault> {
    writer.put(b"\"")?;
    writer.put_str(text)?;
    writer.put(b"\"")
}

/// Takes the text of a cell as a line has it, between quotes.
fn put_cell_word<P: Pen>(scalar: &Scalar<'_>, writer: &mut TextWriter<P>) -> Result<(), SinkFault> {
    writer.put(b"\"")?;
    writer.put_cell(scalar)?;
    writer.put(b"\"")
}

/// Takes bytes as two lower case hexadecimal digits each, between quotes.
pub fn put_bytes<P: Pen>(bytes: &[u8], writer: &mut TextWriter<P>) -> Result<(), SinkFault> {
    writer.put(b"\"")?;
    writer.put_hex(bytes)?;
    writer.put(b"\"")
}

/// Takes the bytes of a floating-point number, as such.
fn put_float<P: Pen, const N: usize>(
    bytes: [u8; N],
    writer: &mut TextWriter<P>,
) -> Result<(), SinkFault> {
    put_bytes(&bytes, writer)
}
