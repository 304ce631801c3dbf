//! What is said of captures, of the segments in their packets, and of what streams tell of these: packets/said.txt, which is by a reading in
//! Python (captures/expected.py of the repository). A line of packets/lines.txt is the name of a capture, or a name and its bytes in hexadecimal
//! digits. A capture is read in one piece, in pieces of 1, 7 and 4,096 bytes, and one of at most 256 bytes in pieces of each size; after the word
//! `small` with room for 64 bytes of a packet and two interfaces. After `streams` the streams of its segments are asked, of one piece, and after
//! `small` with little room for bytes that come early.
#![forbid(unsafe_code)]

use cqlp::capture::{
    CaptureEnd, CaptureEvent, CaptureLimits, CaptureReader, CaptureStep, Control, Endpoint, GapCause, LinkType, NoSegment, PacketHead,
    SectionForm, Segment, Stream, StreamSegment, StreamStep, read_segment,
};
use std::fmt::{self, Write};

/// The least limit on a packet, and two interfaces.
const SMALL: CaptureLimits = CaptureLimits { packet: 64, interfaces: 2 };

/// A capture of no more bytes is read in pieces of each size.
const SHORT: usize = 256;

/// How much a stream can hold that comes early, and the same after `small`: a few bytes of one segment.
const ROOM: usize = 65_536;
const SMALL_ROOM: usize = 256;

/// A line, and what is said of its capture.
struct Case {
    name: String,
    is_of_streams: bool,
    limits: CaptureLimits,
    file: Vec<u8>,
    said: String,
}

fn cases() -> Vec<Case> {
    let mut said = include_str!("packets/said.txt").split_inclusive('\n').peekable();
    let of_line = |line: &str| {
        let (is_of_streams, rest) = line.strip_prefix("streams ").map_or((false, line), |rest| (true, rest));
        let (limits, rest) = rest.strip_prefix("small ").map_or((CaptureLimits::DEFAULT, rest), |rest| (SMALL, rest));
        let (name, file) = rest.split_once('|').map_or_else(|| (rest, capture(rest)), |(name, digits)| (name.trim_end(), bytes_of(digits)));
        let heading = if is_of_streams { format!("== streams {name}\n") } else { format!("== {name}\n") };
        assert_eq!(said.next(), Some(&heading[..]));
        let said = std::iter::from_fn(|| said.next_if(|line| !line.starts_with("== "))).collect();
        Case { name: name.to_string(), is_of_streams, limits, file, said }
    };
    include_str!("packets/lines.txt").lines().map(of_line).collect()
}

fn capture(name: &str) -> Vec<u8> {
    std::fs::read(format!("{}/tests/captures/{name}", env!("CARGO_MANIFEST_DIR"))).unwrap()
}

fn bytes_of(digits: &str) -> Vec<u8> {
    digits.as_bytes().chunks(2).map(|pair| u8::from_str_radix(std::str::from_utf8(pair).unwrap(), 16).unwrap()).collect()
}

#[test]
fn captures_and_their_segments() {
    let mut count = 0;
    for case in cases().iter().filter(|case| !case.is_of_streams) {
        let most = if case.file.len() <= SHORT { case.file.len() } else { 1 };
        for size in (1..=most).chain([7, 4_096, case.file.len()]) {
            let said = said_in_pieces(case.limits, &case.file, size).unwrap();
            assert_eq!(said, case.said, "{} in pieces of {size} bytes", case.name);
        }
        count += 1;
    }
    assert_eq!(count, 214);
}

#[test]
fn streams_of_segments() {
    let mut count = 0;
    for case in cases().iter().filter(|case| case.is_of_streams) {
        let room = if case.limits == SMALL { SMALL_ROOM } else { ROOM };
        assert_eq!(said_of_streams(&case.file, room).unwrap(), case.said, "{}", case.name);
        count += 1;
    }
    assert_eq!(count, 13);
}

// ---- captures

/// A line for each event, with its offset, and how the file ends, where it comes in pieces of this size.
fn said_in_pieces(limits: CaptureLimits, file: &[u8], size: usize) -> Result<String, fmt::Error> {
    let mut reader = CaptureReader::new(limits).unwrap();
    let mut said = String::new();
    let mut under_way = None;
    for piece in file.chunks(size.max(1)) {
        let mut rest = piece;
        while let CaptureStep::Event { at, used, event } = reader.next(rest) {
            put_event(at, &event, &mut under_way, &mut said)?;
            rest = &rest[used..];
        }
    }
    match reader.finish() {
        CaptureEnd::Whole { bytes } => writeln!(said, "whole {bytes}")?,
        CaptureEnd::Cut { at, bytes } => writeln!(said, "cut at {at} after {bytes}")?,
        CaptureEnd::Refused(refusal) => writeln!(said, "{} {:?}", refusal.at, refusal.why)?,
    }
    Ok(said)
}

fn put_event(at: u64, event: &CaptureEvent<'_>, under_way: &mut Option<PacketHead>, said: &mut String) -> fmt::Result {
    match event {
        CaptureEvent::Section(SectionForm::Pcap(form)) => writeln!(said, "{at} section {:?} {:?}", form.order, form.fraction),
        CaptureEvent::Section(SectionForm::Pcapng(order)) => writeln!(said, "{at} section {order:?} pcapng"),
        CaptureEvent::Interface(head) => writeln!(said, "{at} interface {} link {} snap {}", head.number, head.link, head.snap_length),
        CaptureEvent::Packet(head) => {
            *under_way = Some(*head);
            let time = head.time.map_or_else(|| "no time".to_string(), |time| format!("{time} ns"));
            writeln!(said, "{at} packet of {} at {time} captured {} of {}", head.interface, head.captured, head.original)
        }
        CaptureEvent::Data(bytes) => {
            writeln!(said, "{at} data {} sum {}", bytes.len(), fold(0, bytes))?;
            put_segment(segment_of(under_way.as_ref().unwrap(), bytes), said)
        }
        CaptureEvent::Skipped(why) => writeln!(said, "{at} skipped {why:?}"),
    }
}

/// Writes down the segment in a packet, or why there is none.
fn put_segment(segment: Result<Segment<'_>, NoSegment>, said: &mut String) -> fmt::Result {
    let segment = match segment {
        Ok(segment) => segment,
        Err(why) => return writeln!(said, "no segment {why:?}"),
    };
    let head = segment.head;
    write!(said, "segment {:?} {} ", head.source.address, head.source.port)?;
    write!(said, "{:?} {} ", head.destination.address, head.destination.port)?;
    write!(said, "{} {} ", head.sequence, head.acknowledgement)?;
    let flags = head.flags;
    for (is_set, letter) in [(flags.syn, 'S'), (flags.fin, 'F'), (flags.rst, 'R'), (flags.ack, 'A')] {
        said.push(if is_set { letter } else { '-' });
    }
    let (payload, sum) = (segment.payload.len(), fold(0, segment.payload));
    writeln!(said, " payload {payload} at {} sum {sum} missing {}", segment.offset, segment.missing)
}

fn segment_of<'a>(head: &PacketHead, packet: &'a [u8]) -> Result<Segment<'a>, NoSegment> {
    read_segment(LinkType::from_number(head.link)?, packet, head.original)
}

/// A number that tells bytes apart: each time 31 times the number before, and the next byte.
fn fold(before: u32, bytes: &[u8]) -> u32 {
    bytes.iter().fold(before, |sum, byte| sum.wrapping_mul(31).wrapping_add(u32::from(*byte)))
}

// ---- streams

/// One direction of a connection, and what was told of it.
struct Direction {
    source: Endpoint,
    destination: Endpoint,
    stream: Stream,
    room: usize,
    /// How many bytes and positions it is past its beginning.
    position: u64,
    /// How many positions of gaps with one cause lie behind those.
    gap: Option<(GapCause, u64)>,
    bytes: u64,
    sum: u32,
    said: String,
}

/// A line for each direction of a connection in a capture, in the order in which their first segments come.
fn said_of_streams(file: &[u8], room: usize) -> Result<String, fmt::Error> {
    let mut directions: Vec<Direction> = Vec::new();
    for (head, packet) in packets_of(file) {
        let Ok(segment) = segment_of(&head, &packet) else { continue };
        let time = head.time;
        let head = segment.head;
        if !directions.iter().any(|direction| direction.is_from(&head.source, &head.destination)) {
            directions.push(Direction::new(head.source, head.destination, room));
        }
        for direction in &mut directions {
            if direction.is_from(&head.source, &head.destination) {
                direction.take(&segment, time)?;
            } else if direction.is_from(&head.destination, &head.source) && head.flags.ack {
                direction.pull(&[], |stream| stream.acknowledge(head.acknowledgement))?;
            }
        }
    }
    let mut said = String::new();
    for direction in &mut directions {
        direction.pull(&[], Stream::close)?;
        direction.end_gap()?;
        assert_eq!(direction.stream.size(), 0);
        let Direction { source, destination, bytes, sum, said: told, .. } = direction;
        writeln!(said, "{} {} {told}bytes {bytes} sum {sum}", source.port, destination.port)?;
    }
    Ok(said)
}

/// The packets of a capture up to its end, or to where it is refused.
fn packets_of(file: &[u8]) -> Vec<(PacketHead, Vec<u8>)> {
    let mut reader = CaptureReader::new(CaptureLimits::DEFAULT).unwrap();
    let mut packets: Vec<(PacketHead, Vec<u8>)> = Vec::new();
    let mut rest = file;
    while let CaptureStep::Event { used, event, .. } = reader.next(rest) {
        match event {
            CaptureEvent::Section(_) | CaptureEvent::Interface(_) | CaptureEvent::Skipped(_) => {}
            CaptureEvent::Packet(head) => packets.push((head, Vec::new())),
            CaptureEvent::Data(bytes) => packets.last_mut().unwrap().1.extend_from_slice(bytes),
        }
        rest = &rest[used..];
    }
    packets
}

impl Direction {
    fn new(source: Endpoint, destination: Endpoint, room: usize) -> Direction {
        let stream = Stream::new();
        Direction { source, destination, stream, room, position: 0, gap: None, bytes: 0, sum: 0, said: String::new() }
    }

    fn is_from(&self, source: &Endpoint, destination: &Endpoint) -> bool {
        self.source == *source && self.destination == *destination
    }

    fn take(&mut self, segment: &Segment<'_>, time: Option<u64>) -> fmt::Result {
        let head = segment.head;
        let missing = u32::try_from(segment.missing).unwrap();
        let control = Control { sequence: head.sequence, syn: head.flags.syn, fin: head.flags.fin, rst: head.flags.rst, missing };
        let (payload, room) = (segment.payload, self.room);
        self.pull(payload, |stream| stream.take(&StreamSegment { control, payload, time }, room).unwrap())?;
        assert!(self.stream.size() <= room);
        Ok(())
    }

    /// Writes down all that a segment or an acknowledgement tells.
    fn pull(&mut self, payload: &[u8], mut next: impl FnMut(&mut Stream) -> StreamStep) -> fmt::Result {
        loop {
            match next(&mut self.stream) {
                StreamStep::Began { syn } => write!(self.said, "began {syn} ")?,
                StreamStep::Payload { from, count } => self.add(&payload[from..from + count])?,
                StreamStep::Held { .. } => {
                    let bytes = self.stream.held().to_vec();
                    self.add(&bytes)?;
                    self.stream.pass_held();
                }
                StreamStep::Gap { length, cause, .. } => self.add_gap(cause, length)?,
                StreamStep::Kept => {}
                StreamStep::Ended => {
                    self.end_gap()?;
                    self.said.push_str("ended ");
                }
                StreamStep::Reset => {
                    self.end_gap()?;
                    self.said.push_str("reset ");
                }
                StreamStep::Done => return Ok(()),
            }
        }
    }

    fn add(&mut self, bytes: &[u8]) -> fmt::Result {
        self.end_gap()?;
        self.sum = fold(self.sum, bytes);
        self.bytes += bytes.len() as u64;
        self.position += bytes.len() as u64;
        Ok(())
    }

    fn add_gap(&mut self, cause: GapCause, length: u64) -> fmt::Result {
        let before = match self.gap {
            Some((last, before)) if last == cause => before,
            _ => {
                self.end_gap()?;
                0
            }
        };
        self.gap = Some((cause, before + length));
        Ok(())
    }

    /// Writes down the gap behind the bytes so far, if there is one.
    fn end_gap(&mut self) -> fmt::Result {
        if let Some((cause, length)) = self.gap.take() {
            let word = if cause == GapCause::Lost { "gap" } else { "cut" };
            write!(self.said, "{word} {length} at {} ", self.position)?;
            self.position += length;
        }
        Ok(())
    }
}
