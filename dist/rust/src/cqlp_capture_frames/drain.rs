// Written by dist/erase from crates/cqlp_capture_frames/src/drain.rt.
//! The decoder of a frame.

use crate::cqlp_capture_frames::transcript::Transcript;
use crate::cqlp_decode::{Decoder, Step};
use crate::cqlp_note::Refusal;
use crate::cqlp_text::{Pen, TextWriter};
use crate::cqlp_type::TypeTable;

/// The offset after this many bytes; the greatest number, if more.
pub(crate) fn behind(at: u64, used: u64) -> u64 {
    at.saturating_add(used)
}

/// Begins a frame, and gives these types, if there are some.
pub(crate) fn begin_frame(decoder: &mut Decoder, types: Option<TypeTable>) {
    let _ = decoder.restart();
    if let Some(table) = types {
        let _ = decoder.give(table);
    }
}

/// Reports the events that more bytes say of the frame that begins there. Answers why it is refused, if it is.
pub(crate) fn drain<T: Transcript, P: Pen>(
    decoder: &mut Decoder,
    input: &[u8],
    at: u64,
    transcript: &mut T,
    writer: &mut TextWriter<P>,
) -> Result<Option<Refusal>, T::Fault> {
    let mut used = 0;
    loop {
        match decoder.next(&input[used..]) {
            Step::More { .. } => return Ok(None),
            Step::Refused(refusal) => return Ok(Some(refusal)),
            Step::Event {
                at: behind_frame,
                used: taken,
                event,
            } => {
                transcript.event(behind(at, behind_frame), &event, writer)?;
                used += taken;
            }
        }
    }
}
