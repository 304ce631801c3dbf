// Written by dist/erase from crates/cqlp_decode/src/running.rt.
//! A reader's stream, drained into a sink.

use crate::cqlp_decode::decoder::Decoder;
use crate::cqlp_decode::feeding::Fed;
use crate::cqlp_grammar::{Finish, Sink};
use crate::cqlp_note::{IoFault, Source};

/// How a run ends.
#[derive(Clone, Copy, Debug, PartialEq, Eq)]
pub enum Outcome {
    /// At the end of the input, or at a refusal.
    Finished(Finish),
    /// The reader failed. The run may be called again.
    ReadFault,
    /// The sink failed. The rest of the piece is lost.
    SinkFault,
    /// As many reads were made as the run may make. The run may be called again.
    Turns,
}

/// Hands all events of a reader's bytes to the sink, from at most `turns` reads, each with room for 4,096 bytes and none
/// tried again. The events of bytes that the decoder was given before come first. No read is made before the sink has got
/// all events of the bytes read so far.
pub fn run<R: Source, S: Sink>(
    decoder: &mut Decoder,
    reader: &mut R,
    sink: &mut S,
    turns: u64,
) -> Outcome {
    let mut buffer = [0; 4096];
    match decoder.feed(&[], sink) {
        Fed::More => {}
        Fed::Refused { .. } => return Outcome::Finished(decoder.finish()),
        Fed::Fault { .. } => return Outcome::SinkFault,
    }
    for turn in 0..turns {
        if decoder.gathers() {
            let Ok(gathered) = decoder.read_content(reader) else {
                return Outcome::ReadFault;
            };
            if gathered == 0 {
                return Outcome::Finished(decoder.finish());
            }
            continue;
        }
        let count = match reader.read(&mut buffer) {
            Ok(count) => count,
            Err(IoFault) => return Outcome::ReadFault,
        };
        if count == 0 {
            return Outcome::Finished(decoder.finish());
        }
        match decoder.feed(&buffer[..count], sink) {
            Fed::More => {}
            Fed::Refused { .. } => return Outcome::Finished(decoder.finish()),
            Fed::Fault { .. } => return Outcome::SinkFault,
        }
    }
    Outcome::Turns
}
