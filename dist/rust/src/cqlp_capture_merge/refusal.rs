// Written by dist/erase from crates/cqlp_capture_merge/src/refusal.rt.
//! Lines that are refused.

use crate::cqlp_capture_merge::files::{FileNames, Place};
use crate::cqlp_capture_merge::lines::LONGEST;
use crate::cqlp_capture_summary::put_shown_text;
use crate::cqlp_grammar::SinkFault;
use crate::cqlp_note::Target;
use crate::cqlp_text::{Pen, TextWriter};

/// Why a line is refused.
#[derive(Clone, Copy)]
pub(crate) enum Refusal {
    /// It is no object of a summary.
    NoObject,
    /// It has more bytes than are read.
    TooLong,
    /// What it counts by is another than in the line before, in a file with this number.
    Heading {
        by: &'static str,
        before: &'static str,
        file: usize,
    },
}

/// Writes the line that says where a line is refused, and why.
pub(crate) fn put_refusal<E: Target>(
    names: FileNames<'_>,
    place: Place,
    refusal: Refusal,
    err: &mut E,
) -> Result<(), SinkFault> {
    let mut writer = TextWriter::over(err);
    let written = put_line(&mut writer, names, place, refusal);
    let answer = match written {
        Ok(()) => writer.flush(),
        Err(fault) => Err(fault),
    };
    let _ = writer.into_target();
    answer
}

fn put_line<P: Pen>(
    writer: &mut TextWriter<P>,
    names: FileNames<'_>,
    place: Place,
    refusal: Refusal,
) -> Result<(), SinkFault> {
    writer.put(b"cqlp: ")?;
    put_shown_text(writer, names.name(place.file))?;
    writer.put(b":")?;
    writer.put_number(place.line)?;
    writer.put(b": ")?;
    put_reason(writer, names, refusal)?;
    writer.put(b"\n")
}

fn put_reason<P: Pen>(
    writer: &mut TextWriter<P>,
    names: FileNames<'_>,
    refusal: Refusal,
) -> Result<(), SinkFault> {
    match refusal {
        Refusal::NoObject => writer.put(b"no object of cqlp capture --summary --json"),
        Refusal::TooLong => put_too_long(writer),
        Refusal::Heading { by, before, file } => {
            writer.put(b"by ")?;
            writer.put_str(by)?;
            writer.put(b", and ")?;
            put_shown_text(writer, names.name(file))?;
            writer.put(b" by ")?;
            writer.put_str(before)
        }
    }
}

fn put_too_long<P: Pen>(writer: &mut TextWriter<P>) -> Result<(), SinkFault> {
    writer.put(b"no object of cqlp capture --summary --json, whose lines have less than ")?;
    writer.put_number(LONGEST as u64)?;
    writer.put(b" bytes")
}
