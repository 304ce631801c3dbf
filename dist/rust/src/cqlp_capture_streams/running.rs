// Written by dist/erase from crates/cqlp_capture_streams/src/running.rt.
//! A reader's capture, split into the streams of its connections.

use crate::cqlp_capture_streams::fault::StreamsFault;
use crate::cqlp_capture_streams::input::CaptureInput;
use crate::cqlp_capture_streams::listener::Listener;
use crate::cqlp_capture_streams::splitter::Splitter;
use crate::cqlp_capture::{CaptureEnd, CaptureReader, CaptureStep};
use crate::cqlp_note::IoFault;

/// How the events of a piece end.
#[derive(Clone, Copy)]
enum Drained {
    More,
    Refused,
}

/// Reports all events of a reader's capture, of one file or of several, from at most `turns` reads into the buffer, none of which is tried again.
/// No read is made before the listener has got all events of the bytes read so far. At the end of the file, or where it is refused, all
/// connections leave.
pub(crate) fn split<R: CaptureInput, L: Listener>(
    reader: &mut CaptureReader,
    splitter: &mut Splitter,
    input: &mut R,
    buffer: &mut [u8],
    listener: &mut L,
    turns: u64,
) -> Result<CaptureEnd, StreamsFault> {
    for turn in 0..turns {
        let count = match input.read(buffer) {
            Ok(count) => count,
            Err(IoFault) => return Err(StreamsFault::Read),
        };
        let drained = drain(reader, splitter, &buffer[..count], listener)?;
        match drained {
            Drained::Refused => return end_all(reader, splitter, listener),
            Drained::More => {
                if count == 0 {
                    if begin_next(reader, splitter, input)? {
                        continue;
                    }
                    return end_all(reader, splitter, listener);
                }
            }
        }
    }
    Err(StreamsFault::TooManyTurns)
}

/// Begins the next file, if there is one; a file that ends within a packet or a block is counted as cut.
fn begin_next<R: CaptureInput>(
    reader: &mut CaptureReader,
    splitter: &mut Splitter,
    input: &mut R,
) -> Result<bool, StreamsFault> {
    match input.next_file() {
        Ok(false) => Ok(false),
        Ok(true) => {
            splitter.count_file(is_cut(&reader.finish()));
            reader.restart();
            Ok(true)
        }
        Err(IoFault) => Err(StreamsFault::Read),
    }
}

/// Whether a file ends within what began last.
fn is_cut(end: &CaptureEnd) -> bool {
    matches!(end, CaptureEnd::Cut { .. })
}

/// Reports what the events of a piece hold.
fn drain<L: Listener>(
    reader: &mut CaptureReader,
    splitter: &mut Splitter,
    piece: &[u8],
    listener: &mut L,
) -> Result<Drained, StreamsFault> {
    let mut used = 0;
    for turn in 0..u64::MAX {
        match reader.next(&piece[used..]) {
            CaptureStep::More { .. } => return Ok(Drained::More),
            CaptureStep::Refused(_) => return Ok(Drained::Refused),
            CaptureStep::Event {
                used: taken,
                event,
                ..
            } => {
                used += taken;
                splitter.take(&event, listener)?;
            }
        }
    }
    Err(StreamsFault::TooManyTurns)
}

/// At the end of the file, or where it is refused: has all connections leave. Says how the file ends.
fn end_all<L: Listener>(
    reader: &CaptureReader,
    splitter: &mut Splitter,
    listener: &mut L,
) -> Result<CaptureEnd, StreamsFault> {
    let end = reader.finish();
    splitter.finish(listener)?;
    Ok(end)
}
