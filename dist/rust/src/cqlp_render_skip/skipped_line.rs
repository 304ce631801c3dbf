// Written by dist/erase from crates/cqlp_render_skip/src/skipped_line.rt.
//! The line of a frame that was passed over.

use crate::cqlp_decode::SinkFault;
use crate::cqlp_note::Target;
use crate::cqlp_skip::Skipped;
use crate::cqlp_text::{Pen, TextWriter, reason_name};

/// Appends the line of a frame that was passed over. A fault is the target's own.
pub(crate) fn skipped_line<W: Target>(skipped: &Skipped, w: &mut W) -> Result<(), SinkFault> {
    let mut writer = TextWriter::over(w);
    let Ok(()) = put_skipped(&mut writer, skipped) else {
        let _ = writer.into_target();
        return Err(SinkFault);
    };
    let passed_on = writer.flush();
    let _ = writer.into_target();
    passed_on
}

/// Takes the line of a frame that was passed over.
fn put_skipped<P: Pen>(writer: &mut TextWriter<P>, skipped: &Skipped) -> Result<(), SinkFault> {
    writer.put(b"skipped ")?;
    writer.put_number(skipped.at)?;
    writer.put(b" ")?;
    writer.put(reason_name(skipped.refusal.why).as_bytes())?;
    writer.put(b" at ")?;
    writer.put_number(skipped.refusal.at)?;
    writer.put(b"\n")
}
