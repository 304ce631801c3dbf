// Written by dist/erase from crates/cqlp_render_skip/src/reading.rt.
//! A stream that is read to its end, with frames passed over.

use crate::kit_host::prelude::{vec};
use crate::cqlp_render_skip::feeding::{Handed, hand_piece};
use crate::cqlp_render_skip::report::Report;
use crate::cqlp_decode::{Finish, NewError, SinkFault};
use crate::cqlp_note::{IoFault, Limits, Source, Target};
use crate::cqlp_render::{TURNS, TextForm};
use crate::cqlp_skip::SkippingDecoder;
use crate::cqlp_text::{Buffered, Ending};

/// How many bytes of text go to the output at once.
pub const ROOM: usize = 65_536;

/// How reading a stream ended, whether a frame was passed over, and the two outputs.
pub(crate) struct Shown<O: Target, E: Target> {
    pub ending: Ending,
    pub passed_over: bool,
    pub out: O,
    pub err: E,
}

/// Writes the text of the events of a stream within these limits, read leniently or not, in a form, and a line for each frame that
/// is passed over. Takes all memory before the first read.
pub(crate) fn show_stream<R: Source, O: Target, E: Target>(
    limits: Limits,
    lenient: bool,
    form: TextForm,
    input: &mut R,
    out: O,
    err: E,
) -> Shown<O, E> {
    let Some(mut decoder) = decoder_within(limits, lenient) else {
        return nothing_shown(out, err);
    };
    let Ok(buffer) = vec![0; ROOM] else {
        return nothing_shown(out, err);
    };
    let report = Report::new(Buffered::new(out, buffer), form, err);
    let (ending, report) = read_stream(&mut decoder, input, report);
    let (passed_over, out, err) = report.into_parts();
    Shown {
        ending,
        passed_over,
        out,
        err,
    }
}

/// Where memory was wanting.
fn nothing_shown<O: Target, E: Target>(out: O, err: E) -> Shown<O, E> {
    Shown {
        ending: Ending::NoMemory,
        passed_over: false,
        out,
        err,
    }
}

/// A decoder at the start of a stream, within these limits, lenient or not; none where memory was wanting.
fn decoder_within<'a>(
    limits: Limits,
    lenient: bool,
) -> Option<SkippingDecoder> {
    match new_decoder(limits, lenient) {
        Ok(decoder) => Some(decoder),
        Err(NewError::NoMemory) => None,
        Err(NewError::BadLimits(_)) => unreachable!(),
    }
}

/// A decoder, which is lenient or not.
fn new_decoder(
    limits: Limits,
    lenient: bool,
) -> Result<SkippingDecoder, NewError> {
    if lenient {
        SkippingDecoder::lenient(limits)
    } else {
        SkippingDecoder::new(limits)
    }
}

/// Reads a stream from at most `TURNS` reads, each with room for 4,096 bytes and none tried again, and has the report write
/// what is to be written of it. Before each read all text of the bytes read so far is passed on.
fn read_stream<R: Source, O: Target, E: Target>(
    decoder: &mut SkippingDecoder,
    input: &mut R,
    report: Report<O, E>,
) -> (Ending, Report<O, E>) {
    let mut reporter = report;
    let mut buffer = [0; 4096];
    for turn in 0..TURNS {
        let count = match input.read(&mut buffer) {
            Ok(count) => count,
            Err(IoFault) => return (Ending::ReadFault, reporter),
        };
        if count == 0 {
            return (Ending::Finished(decoder.finish()), reporter);
        }
        let (handed, next) = hand_piece(decoder, &buffer[..count], reporter);
        reporter = next;
        if let Handed::Fault = handed {
            return (Ending::WriteFault, reporter);
        }
        if let Err(SinkFault) = reporter.flush() {
            return (Ending::WriteFault, reporter);
        }
        if let Handed::Refused(refusal) = handed {
            return (Ending::Finished(Finish::Refused(refusal)), reporter);
        }
    }
    (Ending::TooManyTurns, reporter)
}
