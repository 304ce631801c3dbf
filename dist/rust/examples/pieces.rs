//! A decoder that is fed the pieces of a stream, as they come from a socket: `cargo run --example page | cargo run --example pieces`. It reads
//! pieces of 16 bytes, which cut frames and fields anywhere, and counts frames and cells.
#![forbid(unsafe_code)]

use cqlp::{Decoder, Event, Fed, Limits, Sink, SinkFault};
use std::error::Error;
use std::io::{Read, Write, stdin, stdout};

/// What was seen of a stream.
#[derive(Debug, Default)]
struct Seen {
    frames: u64,
    cells: u64,
}

impl Sink for Seen {
    fn take(&mut self, _at: u64, event: &Event<'_>) -> Result<(), SinkFault> {
        match event {
            Event::Frame(_) => self.frames += 1,
            Event::Leaf { level: 0, .. } | Event::Enter { level: 0, .. } | Event::Null { level: 0, .. } | Event::Empty { level: 0, .. } => {
                self.cells += 1;
            }
            _ => {}
        }
        Ok(())
    }
}

/// Takes all pieces of a stream, to its end or to where it is refused, and reports what was seen and how it ended.
pub(crate) fn report(input: &mut dyn Read, out: &mut dyn Write) -> Result<(), Box<dyn Error>> {
    let (mut decoder, mut seen) = (Decoder::new(Limits::DEFAULT)?, Seen::default());
    let mut piece = [0; 16];
    loop {
        let count = input.read(&mut piece)?;
        // All events that the piece decides, the end of a frame too. The rest of an item that it cuts is in the next.
        if count == 0 || decoder.feed(&piece[..count], &mut seen) != Fed::More {
            break;
        }
    }
    Ok(writeln!(out, "{seen:?} {:?}", decoder.finish())?)
}

#[allow(dead_code)]
fn main() -> Result<(), Box<dyn Error>> {
    report(&mut stdin().lock(), &mut stdout().lock())
}
