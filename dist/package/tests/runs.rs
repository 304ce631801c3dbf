//! Runs that do not finish: how each ends, what is held then, and what a second run takes; and that a sink has all events of a read before the next.
#![forbid(unsafe_code)]

use cqlp::{Decoder, Event, Finish, Held, IoFault, Limits, Outcome, Sink, SinkFault, Source, run};
use std::cell::Cell;

const LIMITS: Limits = Limits { text: 64, cell: 64, entries: 8, depth: 3, types: true, parts: false };

/// A SUPPORTED frame with one option, of six events.
const SUPPORTED: &[u8; 33] = b"\x84\0\0\x07\x06\0\0\0\x18\0\x01\0\x0BCQL_VERSION\0\x01\0\x053.0.0";

/// Gives all bytes in one read, and then fails once, or ends.
struct Front<'a> {
    rest: &'a [u8],
    reads_to_fault: Option<u32>,
}

impl Source for Front<'_> {
    fn read(&mut self, buffer: &mut [u8]) -> Result<usize, IoFault> {
        if self.reads_to_fault == Some(0) {
            self.reads_to_fault = None;
            return Err(IoFault);
        }
        self.reads_to_fault = self.reads_to_fault.map(|reads| reads - 1);
        let count = self.rest.len();
        buffer[..count].copy_from_slice(self.rest);
        self.rest = &[];
        Ok(count)
    }
}

/// Takes some events, and then fails.
struct Takes {
    room: usize,
    taken: usize,
}

impl Sink for Takes {
    fn take(&mut self, _: u64, _: &Event<'_>) -> Result<(), SinkFault> {
        if self.taken == self.room {
            return Err(SinkFault);
        }
        self.taken += 1;
        Ok(())
    }
}

/// How a run ends and what is held then, how many events its sink took that has room for so many, and how many bytes were not read.
fn ended(decoder: &mut Decoder, mut source: Front<'_>, room: usize, turns: u64) -> (Outcome, Held, usize, usize) {
    let mut sink = Takes { room, taken: 0 };
    let outcome = run(decoder, &mut source, &mut sink, turns);
    (outcome, decoder.held(), sink.taken, source.rest.len())
}

/// A front of the frame comes in one read, and then a read fails. A second run over all bytes that were not read takes the other events, where none was lost.
#[test]
fn runs_that_do_not_finish() {
    let held = |bytes| Held { bytes, entries: 0, levels: 0 };
    // How many bytes come, the room of the sink, the turns, and how the run ends; how many events a second run takes.
    let rows = [
        (8, 9, 9, (Outcome::ReadFault, held(0), 0, 0), Some(6)),
        (20, 9, 9, (Outcome::ReadFault, held(7), 2, 0), Some(4)),
        (33, 9, 9, (Outcome::ReadFault, held(0), 6, 0), Some(0)),
        (20, 1, 9, (Outcome::SinkFault, held(0), 1, 0), None),
        (20, 9, 0, (Outcome::Turns, held(0), 0, 20), Some(6)),
        (20, 9, 1, (Outcome::Turns, held(7), 2, 0), Some(4)),
    ];
    for (front, room, turns, wanted, later) in rows {
        let mut decoder = Decoder::new(LIMITS).unwrap();
        let source = Front { rest: &SUPPORTED[..front], reads_to_fault: Some(1) };
        assert_eq!(ended(&mut decoder, source, room, turns), wanted, "{front} bytes");
        if let Some(later) = later {
            let source = Front { rest: &SUPPORTED[front - wanted.3..], reads_to_fault: None };
            let (outcome, _, taken, _) = ended(&mut decoder, source, 9, 9);
            assert_eq!((outcome, taken), (Outcome::Finished(Finish::Whole { bytes: 33 }), later), "after {front} bytes");
        }
    }
}

/// Adds up the events.
struct Adds<'a>(&'a Cell<usize>);

impl Sink for Adds<'_> {
    fn take(&mut self, _: u64, _: &Event<'_>) -> Result<(), SinkFault> {
        self.0.set(self.0.get() + 1);
        Ok(())
    }
}

/// Gives a READY frame a read, and notes how many events were taken before each read.
struct Looks<'a> {
    frames: u8,
    taken: &'a Cell<usize>,
    before: Vec<usize>,
}

impl Source for Looks<'_> {
    fn read(&mut self, buffer: &mut [u8]) -> Result<usize, IoFault> {
        self.before.push(self.taken.get());
        if self.frames == 0 {
            return Ok(0);
        }
        buffer[..9].copy_from_slice(&[0x84, 0, 0, self.frames, 2, 0, 0, 0, 0]);
        self.frames -= 1;
        Ok(9)
    }
}

#[test]
fn events_are_taken_before_the_next_read() {
    let taken = Cell::new(0);
    let mut source = Looks { frames: 3, taken: &taken, before: Vec::new() };
    let outcome = run(&mut Decoder::new(LIMITS).unwrap(), &mut source, &mut Adds(&taken), 9);
    assert_eq!((outcome, source.before), (Outcome::Finished(Finish::Whole { bytes: 27 }), vec![0, 2, 4, 6]));
}
