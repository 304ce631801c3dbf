// Written by dist/erase from crates/cqlp_capture_streams/src/writing.rt.
//! A capture whose streams are written.

use crate::cqlp_capture_streams::capturing::read_capture;
use crate::cqlp_capture_streams::ending::conclude_capture;
use crate::cqlp_capture_streams::files::StreamFiles;
use crate::cqlp_capture_streams::input::CaptureInput;
use crate::cqlp_capture_streams::limits::StreamsLimits;
use crate::cqlp_capture_streams::recorder::Recorder;
use crate::cqlp_note::Target;

/// Splits a capture into the streams of its connections with nodes that listen on these ports. Writes a line for each gap and for each
/// connection to `out`, and what the capture was, or the fault line, to `err`. Answers the exit status, the files and the two outputs.
///
/// After a fault nothing more is asked of what failed.
pub(crate) fn write_streams<R: CaptureInput, F: StreamFiles, O: Target, E: Target>(
    limits: StreamsLimits,
    ports: &[u16],
    input: &mut R,
    files: F,
    out: O,
    err: E,
) -> (u8, F, O, E) {
    let mut recorder = Recorder::new(files, out);
    let answer = read_capture(limits, ports, input, &mut recorder);
    let (files, out, sums) = recorder.into_parts();
    let (status, err) = conclude_capture(&answer, ports, &sums, err);
    (status, files, out, err)
}
