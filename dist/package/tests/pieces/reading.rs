//! What a decoder says of pieces, and in other pieces.

use super::gifts;
use super::memory::without_memory;
use super::script::{Script, Shows};
use cqlp::{Decoder, Event, Step};
use std::fmt::Write;

/// A decoder, and what it has said: a line for each event, with the offsets where it begins and where the bytes used end.
pub struct Reading {
    pub decoder: Decoder,
    shows: Shows,
    lines: String,
    events: u64,
    bytes: u64,
}

impl Reading {
    /// Of a decoder that was made, and was given the types that the script names.
    pub fn new(script: &Script) -> Reading {
        let make = if script.lenient { Decoder::lenient } else { Decoder::new };
        let mut decoder = make(script.limits).unwrap();
        if let Some(digits) = script.given {
            let table = gifts::table(digits);
            let _ = without_memory(|| decoder.give(table));
        }
        Reading { decoder, shows: script.shows, lines: String::new(), events: 0, bytes: 0 }
    }

    /// Takes one more piece; whether the decoder goes on.
    pub fn take(&mut self, piece: &[u8]) -> bool {
        let mut rest = piece;
        loop {
            match without_memory(|| self.decoder.next(rest)) {
                Step::Event { at, used, event } => {
                    self.events += 1;
                    self.bytes += used as u64;
                    rest = &rest[used..];
                    if self.shows != Shows::Counts || matches!(event, Event::End { .. }) {
                        writeln!(self.lines, "{at}..{} {event:?}", self.bytes).unwrap();
                    }
                }
                Step::More { used } => {
                    self.bytes += used as u64;
                    return true;
                }
                Step::Refused(refusal) => {
                    self.bytes = refusal.at;
                    writeln!(self.lines, "{} {:?}", refusal.at, refusal.why).unwrap();
                    return false;
                }
            }
            if self.shows == Shows::Calls {
                let (finish, held) = without_memory(|| (self.decoder.finish(), self.decoder.held()));
                writeln!(self.lines, "{finish:?} {held:?}").unwrap();
            }
        }
    }

    /// What was said since the last time, and how the stream would end here.
    pub fn said_so_far(&mut self) -> String {
        let mut said = std::mem::take(&mut self.lines);
        let (finish, held) = without_memory(|| (self.decoder.finish(), self.decoder.held()));
        match self.shows {
            Shows::Calls => writeln!(said, "{finish:?} {held:?}").unwrap(),
            Shows::Counts => writeln!(said, "{} events\n{finish:?}", self.events).unwrap(),
            Shows::Events | Shows::Memory | Shows::Skips => writeln!(said, "{finish:?}").unwrap(),
        }
        said
    }

    /// What was said in all.
    fn said(self) -> (String, u64, u64) {
        (self.lines, self.events, self.bytes)
    }
}

/// What is said of a stream in a first piece of one size, and all others of another.
fn in_pieces(script: &Script, stream: &[u8], first: usize, others: usize) -> (String, u64, u64) {
    let mut reading = Reading::new(script);
    let (front, back) = stream.split_at(first.min(stream.len()));
    if reading.take(front) {
        let _ = back.chunks(others).all(|piece| reading.take(piece));
    }
    reading.said()
}

/// What is said of a stream by a decoder that begins anew after this many bytes of it. It is given again what it was given.
fn anew(script: &Script, stream: &[u8], front: usize) -> (String, u64, u64) {
    let mut reading = Reading::new(script);
    reading.take(&stream[..front]);
    let mut decoder = reading.decoder;
    if let Some(table) = without_memory(|| decoder.restart()) {
        let _ = without_memory(|| decoder.give(table));
    }
    let mut again = Reading { decoder, shows: script.shows, lines: String::new(), events: 0, bytes: 0 };
    again.take(stream);
    again.said()
}

/// Where something else is said of a stream in pieces than whole, and anew.
pub fn differences(script: &Script, stream: &[u8]) -> String {
    let (len, mut said) = (stream.len(), String::new());
    if len < 2 {
        return said;
    }
    let whole = in_pieces(script, stream, len, 1);
    let mut compare = |first, others| {
        if in_pieces(script, stream, first, others) != whole {
            writeln!(said, "differs in pieces of {first} and {others} bytes").unwrap();
        }
    };
    match script.shows {
        Shows::Events => (1..=len).for_each(|size| {
            compare(size, size);
            compare(size, len);
        }),
        Shows::Counts => [(1, 1), (11, 3)].into_iter().for_each(|(first, others)| compare(first, others)),
        Shows::Calls | Shows::Memory | Shows::Skips => {}
    }
    if script.shows == Shows::Events {
        let fronts = (1..=len).filter(|front| anew(script, stream, *front) != whole);
        said.extend(fronts.map(|front| format!("differs anew after {front} bytes\n")));
    }
    said
}
