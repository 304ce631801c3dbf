// Written by dist/erase from crates/cqlp_bound_values/src/line_scalar.rt.
//! Scalars in a line.

use crate::cqlp_capture_summary::put_shown_text;
use crate::cqlp_grammar::SinkFault;
use crate::cqlp_kind::Scalar;
use crate::cqlp_text::{Pen, TextWriter};

/// Takes a scalar as a cell of `cqlp rows`, but a text as a terminal may show it.
///
/// # Errors
///
/// The fault of the pen.
pub(crate) fn put_line_scalar<P: Pen>(
    writer: &mut TextWriter<P>,
    scalar: &Scalar<'_>,
) -> Result<(), SinkFault> {
    match *scalar {
        Scalar::Ascii(text) => put_quoted(writer, text),
        Scalar::Varchar(text) => put_quoted(writer, text),
        Scalar::Custom(_)
        | Scalar::Bigint(_)
        | Scalar::Blob(_)
        | Scalar::Boolean(_)
        | Scalar::Counter(_)
        | Scalar::Decimal { .. }
        | Scalar::Double(_)
        | Scalar::Float(_)
        | Scalar::Int(_)
        | Scalar::Timestamp(_)
        | Scalar::Uuid(_)
        | Scalar::Varint(_)
        | Scalar::Timeuuid(_)
        | Scalar::Inet(_)
        | Scalar::Date(_)
        | Scalar::Time(_)
        | Scalar::Smallint(_)
        | Scalar::Tinyint(_)
        | Scalar::Raw(_) => writer.put_cell(scalar),
    }
}

fn put_quoted<P: Pen>(writer: &mut TextWriter<P>, text: &str) -> Result<(), SinkFault> {
    writer.put(b"\"")?;
    put_shown_text(writer, text)?;
    writer.put(b"\"")
}
