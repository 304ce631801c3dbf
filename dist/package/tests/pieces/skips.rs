//! What a decoder says that passes over frames.

use super::gifts;
use super::memory::{amply, without_memory};
use super::script::Script;
use cqlp::{Event, Fed, Finish, NotSkippable, Sink, SinkFault, SkippingDecoder};
use std::fmt::Write;

/// A line for each event.
struct Lines<'a>(&'a mut String);

impl Sink for Lines<'_> {
    fn take(&mut self, at: u64, event: &Event<'_>) -> Result<(), SinkFault> {
        amply(|| writeln!(self.0, "{at} {event:?}")).map_err(|_| SinkFault)
    }
}

/// What is said of a stream that comes whole, and where it is something else when it comes in pieces of one size, or in two.
pub fn said(script: &Script, stream: &[u8]) -> String {
    let mut said = in_pieces(script, stream, 0, stream.len());
    let whole = said.clone();
    for part in 1..stream.len() {
        for (first, size) in [(0, part), (part, stream.len())] {
            if in_pieces(script, stream, first, size) != whole {
                writeln!(said, "differs in pieces of {first} and {size}").unwrap();
            }
        }
    }
    said
}

/// What is said of a stream in a first piece of one size and others of another, and how the stream ends.
fn in_pieces(script: &Script, stream: &[u8], first: usize, size: usize) -> String {
    let (mut decoder, mut said) = (SkippingDecoder::new(script.limits).unwrap(), String::new());
    if let Some(digits) = script.given {
        let table = gifts::table(digits);
        let _ = without_memory(|| decoder.give(table));
    }
    let (front, back) = stream.split_at(first);
    take(&mut decoder, front, &mut said);
    for piece in back.chunks(size) {
        if !matches!(decoder.finish(), Finish::Refused(_)) {
            take(&mut decoder, piece, &mut said);
        }
    }
    writeln!(said, "{:?}", decoder.finish()).unwrap();
    said
}

/// Takes one more piece, up to a frame that cannot be passed over.
fn take(decoder: &mut SkippingDecoder, piece: &[u8], said: &mut String) {
    let mut rest = piece;
    while let Fed::Refused { used, .. } = without_memory(|| decoder.feed(rest, Lines(said)).0) {
        rest = &rest[used..];
        if let Err(error) = pass_over(decoder, said) {
            writeln!(said, "{error:?}").unwrap();
            break;
        }
    }
}

/// Passes over the frame that is refused, if it can be. A table of types that is held is tried again before, which is refused, and given again
/// after the frame.
fn pass_over(decoder: &mut SkippingDecoder, said: &mut String) -> Result<(), NotSkippable> {
    let held = without_memory(|| decoder.take_given().and_then(|table| decoder.give(table).err()));
    if let Some(error) = &held {
        writeln!(said, "{:?}", error.why).unwrap();
    }
    let skipped = without_memory(|| decoder.skip())?;
    let (refusal, stream) = (skipped.refusal, skipped.header.stream);
    writeln!(said, "skipped {} {:?} at {}, stream {stream}", skipped.at, refusal.why, refusal.at).unwrap();
    if let Some(error) = held {
        let is_first = without_memory(|| decoder.give(error.table)).is_ok_and(|before| before.is_none());
        writeln!(said, "given again {is_first}").unwrap();
    }
    Ok(())
}
