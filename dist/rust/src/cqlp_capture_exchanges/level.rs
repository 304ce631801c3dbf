// Written by dist/erase from crates/cqlp_capture_exchanges/src/level.rt.
//! A consistency level in a line.

use crate::cqlp_capture_exchanges::reply::consistency_name;
use crate::cqlp_grammar::SinkFault;
use crate::cqlp_text::{Pen, TextWriter};

/// Takes a consistency level, after a space.
pub(crate) fn put_consistency<P: Pen>(
    writer: &mut TextWriter<P>,
    level: Option<u16>,
) -> Result<(), SinkFault> {
    match level {
        Some(level) => put_level(writer, level),
        None => writer.put(b""),
    }
}

pub(crate) fn put_level<P: Pen>(writer: &mut TextWriter<P>, level: u16) -> Result<(), SinkFault> {
    writer.put(b" ")?;
    put_short_name(writer, consistency_name(level), level)
}

/// Takes a name, or where there is none the number's two bytes.
fn put_short_name<P: Pen>(
    writer: &mut TextWriter<P>,
    name: Option<&'static str>,
    number: u16,
) -> Result<(), SinkFault> {
    match name {
        Some(name) => writer.put_str(name),
        None => writer.put_hex_text(&number.to_be_bytes()),
    }
}
