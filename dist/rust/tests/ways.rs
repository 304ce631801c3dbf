//! Each worked stream says its events in every way of reading it: in three pieces cut at each pair of places, by reads too, up to each of its bytes,
//! with a read that fails and a second run after it, in a run of each number of turns and a second one, and with a writer and a sink that have
//! room for each number of bytes and events, and fed in pieces, to a sink that fails at each event too; the text of its pages too.
#![forbid(unsafe_code)]

use crate::common::{Stream, said, streams};
use cqlp::text::{Ending, ending_line, event_line, render_events, render_rows};
use cqlp::{Decoder, Event, Fed, Finish, IoFault, OfStd, Outcome, Sink, SinkFault, Source, Target, run};

/// How many bytes a read gives where a run stops between two reads.
const PIECE: usize = 7;

/// Gives pieces of these sizes, and then of the last size, and fails once after so many reads.
struct Pieces<'a> {
    rest: &'a [u8],
    sizes: [usize; 3],
    before: usize,
    has_failed: bool,
}

impl<'a> Pieces<'a> {
    fn failing(bytes: &'a [u8], size: usize, before: usize) -> Self {
        Pieces { before, ..Pieces::new(bytes, size) }
    }

    fn new(bytes: &'a [u8], size: usize) -> Self {
        Pieces::of_sizes(bytes, [size; 3])
    }

    fn of_sizes(bytes: &'a [u8], sizes: [usize; 3]) -> Self {
        Pieces { rest: bytes, sizes, before: usize::MAX, has_failed: false }
    }
}

impl Source for Pieces<'_> {
    fn read(&mut self, buffer: &mut [u8]) -> Result<usize, IoFault> {
        if self.before == 0 && !self.has_failed {
            self.has_failed = true;
            return Err(IoFault);
        }
        self.before = self.before.saturating_sub(1);
        let [first, second, last] = self.sizes;
        let (piece, rest) = self.rest.split_at(first.min(self.rest.len()).min(buffer.len()));
        buffer[..piece.len()].copy_from_slice(piece);
        (self.rest, self.sizes) = (rest, [second, last, last]);
        Ok(piece.len())
    }
}

/// Keeps as many bytes as there is room for, and fails then.
struct Narrow {
    text: Vec<u8>,
    room: usize,
}

impl Narrow {
    fn new(room: usize) -> Narrow {
        Narrow { text: Vec::new(), room }
    }
}

impl Target for Narrow {
    fn write(&mut self, bytes: &[u8]) -> Result<usize, IoFault> {
        let count = bytes.len().min(PIECE).min(self.room - self.text.len());
        if count == 0 && !bytes.is_empty() {
            return Err(IoFault);
        }
        self.text.extend_from_slice(&bytes[..count]);
        Ok(count)
    }
}

/// Takes as many events as there is room for, and fails then.
struct Takes {
    taken: usize,
    room: usize,
}

impl Sink for Takes {
    fn take(&mut self, _: u64, _: &Event<'_>) -> Result<(), SinkFault> {
        if self.taken == self.room {
            return Err(SinkFault);
        }
        self.taken += 1;
        Ok(())
    }
}

fn decoder(stream: &Stream) -> Decoder {
    Decoder::new(stream.limits).unwrap()
}

/// The lines of the events of these bytes, and how their reading ends.
fn lines(stream: &Stream, bytes: &[u8], room: usize) -> (Vec<u8>, Outcome) {
    let (outcome, out) = render_events(&mut decoder(stream), &mut Pieces::new(bytes, usize::MAX), Narrow::new(room), u64::MAX);
    (out.text, outcome)
}

/// The text of its pages.
fn rows(stream: &Stream, size: usize, room: usize) -> (Vec<u8>, Outcome) {
    let (outcome, out) = render_rows(&mut decoder(stream), &mut Pieces::new(&stream.bytes, size), Narrow::new(room), u64::MAX);
    (out.text, outcome)
}

/// What two runs of one decoder say, the first of this many turns; and how the first ends.
fn in_two_runs(stream: &Stream, source: &mut Pieces<'_>, turns: u64) -> (Outcome, (Vec<u8>, Outcome)) {
    let mut decoder = decoder(stream);
    let (first, out) = render_events(&mut decoder, source, Narrow::new(usize::MAX), turns);
    let (outcome, out) = render_events(&mut decoder, source, out, u64::MAX);
    (first, (out.text, outcome))
}

/// The streams, but the longest, and what is said of each whole.
fn all() -> Vec<(Stream, (Vec<u8>, Outcome))> {
    let streams = streams().into_iter().filter(|stream| stream.bytes.len() < 2_000);
    streams.map(|stream| (lines(&stream, &stream.bytes, usize::MAX), stream)).map(|(whole, stream)| (stream, whole)).collect()
}

#[test]
fn in_three_pieces() {
    for (stream, _) in all().iter().filter(|(stream, _)| stream.bytes.len() < 100) {
        for second in 2..stream.bytes.len() {
            let (front, third) = stream.bytes.split_at(second);
            for first in 1..second {
                let (one, two) = front.split_at(first);
                assert_eq!(said(stream.limits, [one, two, third]), stream.said, "{} cut at {first} and {second}", stream.name);
            }
        }
    }
}

#[test]
fn read_whole() {
    for (stream, (text, outcome)) in all() {
        let Outcome::Finished(finish) = outcome else { panic!("{} ends otherwise", stream.name) };
        let mut said = OfStd::new(text);
        ending_line(Ending::Finished(finish), &mut said).unwrap();
        assert_eq!(String::from_utf8(said.into_inner()).unwrap(), stream.said, "{}", stream.name);
    }
}

/// Those with a name of their own.
#[test]
fn read_in_three_pieces() {
    for (stream, whole) in all().iter().filter(|(stream, _)| !stream.name.starts_with("shown_")) {
        for first in 1..stream.bytes.len() {
            for second in 1..=stream.bytes.len() - first {
                let mut source = Pieces::of_sizes(&stream.bytes, [first, second, usize::MAX]);
                let (outcome, out) = render_events(&mut decoder(stream), &mut source, Narrow::new(usize::MAX), u64::MAX);
                assert!((out.text, outcome) == *whole, "{} in {first} and {second} bytes", stream.name);
            }
        }
    }
}

/// Writes a line for each event but one, at which it fails once.
struct Writes {
    lines: OfStd<Vec<u8>>,
    before: usize,
}

impl Sink for Writes {
    fn take(&mut self, at: u64, event: &Event<'_>) -> Result<(), SinkFault> {
        let fails = self.before == 0;
        self.before = self.before.wrapping_sub(1);
        event_line(at, event, &mut self.lines).map_err(|_| SinkFault)?;
        if fails { Err(SinkFault) } else { Ok(()) }
    }
}

/// What is said of a stream that is fed in pieces of this size, to a sink that fails after so many events, from where it goes on; and how often it
/// failed.
fn fed(stream: &Stream, size: usize, before: usize) -> (String, usize) {
    let (mut decoder, mut sink) = (decoder(stream), Writes { lines: OfStd::new(Vec::new()), before });
    let mut faults = 0;
    'pieces: for piece in stream.bytes.chunks(size) {
        let mut rest = piece;
        loop {
            match decoder.feed(rest, &mut sink) {
                Fed::More => break,
                Fed::Refused { used, refusal } => {
                    assert!(used <= rest.len());
                    assert_eq!(decoder.feed(&rest[used..], &mut sink), Fed::Refused { used: 0, refusal });
                    break 'pieces;
                }
                Fed::Fault { used } => rest = &rest[used..],
            }
            faults += 1;
        }
    }
    ending_line(Ending::Finished(decoder.finish()), &mut sink.lines).unwrap();
    (String::from_utf8(sink.lines.into_inner()).unwrap(), faults)
}

#[test]
fn fed_in_pieces() {
    for (stream, _) in all() {
        for size in [1, 2, 7, 4_096] {
            assert_eq!(fed(&stream, size, usize::MAX), (stream.said.clone(), 0), "{} by {size}", stream.name);
        }
    }
}

/// A sink that fails at an event got it, and none is lost or comes twice.
#[test]
fn fed_to_a_sink_that_fails() {
    for (stream, _) in all().iter().filter(|(stream, _)| stream.bytes.len() < 300) {
        let events = stream.said.lines().count() - 1;
        for before in 0..events {
            for size in [7, 4_096] {
                assert_eq!(fed(stream, size, before), (stream.said.clone(), 1), "{} after {before}", stream.name);
            }
        }
    }
}

/// Where its frames end.
fn ends(stream: &Stream) -> Vec<u64> {
    let words = stream.said.lines().map(|line| line.split_once(' ').unwrap_or((line, "")));
    words.filter(|(_, event)| event.starts_with("End ")).map(|(at, _)| at.parse().unwrap()).collect()
}

/// A front that is refused says all that the stream does; any other says a front of its lines, and is whole at the end of a frame, and cut elsewhere.
#[test]
fn fronts() {
    for (stream, whole) in all() {
        let ends = ends(&stream);
        for count in 0..stream.bytes.len() {
            let front = lines(&stream, &stream.bytes[..count], usize::MAX);
            let bytes = count as u64;
            let frame_at = ends.iter().copied().filter(|end| *end <= bytes).max().unwrap_or(0);
            let finish = if frame_at == bytes { Finish::Whole { bytes } } else { Finish::Cut { frame_at, bytes } };
            if let Outcome::Finished(Finish::Refused(_)) = front.1 {
                assert_eq!(front, whole, "{} up to {count}", stream.name);
            } else {
                assert_eq!(front.1, Outcome::Finished(finish), "{} up to {count}", stream.name);
                assert!(whole.0.starts_with(&front.0), "{} up to {count}", stream.name);
            }
        }
    }
}

#[test]
fn after_reads_that_fail() {
    for (stream, whole) in all() {
        for before in 0..=stream.bytes.len().div_ceil(PIECE) {
            let mut source = Pieces::failing(&stream.bytes, PIECE, before);
            let (first, both) = in_two_runs(&stream, &mut source, u64::MAX);
            assert_eq!(first == Outcome::ReadFault, source.has_failed, "{} after {before}", stream.name);
            assert_eq!(both, whole, "{} after {before}", stream.name);
        }
    }
}

#[test]
fn after_turns() {
    for (stream, whole) in all() {
        for turns in 0..=stream.bytes.len().div_ceil(PIECE) {
            let (_, both) = in_two_runs(&stream, &mut Pieces::new(&stream.bytes, PIECE), turns as u64);
            assert_eq!(both, whole, "{} after {turns}", stream.name);
        }
    }
}

/// How a run ends where there is room for a part of what is said, or for all.
fn with_room(room: usize, all: usize, outcome: Outcome) -> Outcome {
    if room < all { Outcome::SinkFault } else { outcome }
}

#[test]
fn with_room_for_text() {
    for (stream, (text, outcome)) in all() {
        for room in 0..=text.len() {
            let wanted = (text[..room].to_vec(), with_room(room, text.len(), outcome));
            assert_eq!(lines(&stream, &stream.bytes, room), wanted, "{} with room for {room}", stream.name);
        }
    }
}

#[test]
fn pages() {
    for (stream, _) in all() {
        let (text, outcome) = rows(&stream, usize::MAX, usize::MAX);
        assert_eq!(rows(&stream, 1, usize::MAX), (text.clone(), outcome), "{} byte by byte", stream.name);
        for room in 0..=text.len() {
            let wanted = (text[..room].to_vec(), with_room(room, text.len(), outcome));
            assert_eq!(rows(&stream, usize::MAX, room), wanted, "{} with room for {room}", stream.name);
        }
    }
}

#[test]
fn with_room_for_events() {
    for (stream, (text, outcome)) in all() {
        let events = text.iter().filter(|byte| **byte == b'\n').count();
        for room in 0..=events {
            let mut sink = Takes { taken: 0, room };
            let ended = run(&mut decoder(&stream), &mut Pieces::new(&stream.bytes, 5), &mut sink, u64::MAX);
            assert_eq!((sink.taken, ended), (room, with_room(room, events, outcome)), "{} with room for {room}", stream.name);
        }
    }
}
