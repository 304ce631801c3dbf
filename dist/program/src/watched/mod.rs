//! What a table of connections reports of the segments of captures, what is reported of the requests and responses on them, what single frames say,
//! and summaries of statements. The folder captures, which CQLP_CAPTURES names, has the lines that ask, lines.txt, and what is to be said of them,
//! said.txt, which is by a reading in Python (expected.py); and the same of summaries.
//!
//! A line says what is asked, and then the name of a file in data, or a name and, after `|`, the hexadecimal digits of a file.
mod connections;
mod exchanges;
mod facts;
mod statements;
mod summaries;
mod tables;
mod values;

use crate::cqlp_capture::{CaptureEvent, CaptureLimits, CaptureReader, CaptureStep};
use crate::cqlp_tcp_connections::ConnectionLimits;
use crate::cqlp_tcp_segment::{LinkType, NoSegment, Segment, read_segment};
use crate::digits::bytes_of;
use std::fs::read;

/// Which connections a line asks for.
#[derive(Clone, Copy)]
struct Asked {
    port: u16,
    limits: ConnectionLimits,
}

fn folder() -> String {
    std::env::var("CQLP_CAPTURES").unwrap()
}

fn text(name: &str) -> String {
    String::from_utf8(read(format!("{}/{name}", folder())).unwrap()).unwrap()
}

#[test]
fn what_is_reported_of_captures() {
    let (wanted, mut count) = (text("said.txt"), 0);
    let mut wanted = wanted.split_inclusive('\n').peekable();
    for line in text("lines.txt").lines() {
        let heading = wanted.next().unwrap();
        let said: String = std::iter::from_fn(|| wanted.next_if(|line| !line.starts_with("== "))).collect();
        assert_eq!(said_of(line), format!("{heading}{said}"), "{line}");
        count += 1;
    }
    assert_eq!((wanted.next(), count), (None, 76));
}

/// A line that says what was asked, and what is said: after `connections` come a port and two limits, after `exchanges` a limit on messages that
/// wait and the same, after `facts` nothing.
fn said_of(line: &str) -> String {
    let (question, rest) = line.split_once(' ').unwrap();
    match question {
        "connections" => {
            let (asked, rest) = asked_of(rest);
            let (name, file) = file_of(rest);
            let said = connections::said(asked, &packets_of(&file));
            format!("== connections {} of {} {name}\n{said}", asked.limits.connections, asked.port)
        }
        "exchanges" => {
            let (limit, rest) = rest.split_once(' ').unwrap();
            let (asked, rest) = asked_of(rest);
            let (name, file) = file_of(rest);
            let said = exchanges::said(asked, limit.parse().unwrap(), &packets_of(&file));
            format!("== exchanges {limit} of {} {name}\n{said}", asked.port)
        }
        _ => {
            assert_eq!(question, "facts");
            let (name, frame) = file_of(rest);
            format!("== facts {name}\n{}", facts::said(&frame))
        }
    }
}

fn asked_of(words: &str) -> (Asked, &str) {
    let words: Vec<&str> = words.splitn(4, ' ').collect();
    let early = words[2].parse().unwrap();
    let limits = ConnectionLimits { connections: words[1].parse().unwrap(), early, early_each: early };
    (Asked { port: words[0].parse().unwrap(), limits }, words[3])
}

/// The name of a file, and its bytes.
fn file_of(words: &str) -> (&str, Vec<u8>) {
    match words.split_once('|') {
        None => (words, read(format!("{}/data/{words}", folder())).unwrap()),
        Some((name, digits)) => (name.trim_end(), bytes_of(digits)),
    }
}

/// A packet of a capture.
struct Packet {
    link: u16,
    original: u32,
    /// When it was captured, in nanoseconds.
    time: Option<u64>,
    bytes: Vec<u8>,
}

impl Packet {
    /// The segment in it.
    fn segment(&self) -> Result<Segment<'_>, NoSegment> {
        read_segment(LinkType::from_number(self.link)?, &self.bytes, self.original)
    }
}

/// The packets of a capture up to its end, or to where it is refused.
fn packets_of(file: &[u8]) -> Vec<Packet> {
    let mut reader = CaptureReader::new(CaptureLimits::DEFAULT).unwrap();
    let (mut packets, mut rest): (Vec<Packet>, _) = (Vec::new(), file);
    while let CaptureStep::Event { used, event, .. } = reader.next(rest) {
        match event {
            CaptureEvent::Section(_) | CaptureEvent::Interface(_) | CaptureEvent::Skipped(_) => {}
            CaptureEvent::Packet(head) => {
                packets.push(Packet { link: head.link, original: head.original, time: head.time, bytes: Vec::new() });
            }
            CaptureEvent::Data(bytes) => packets.last_mut().unwrap().bytes.extend(bytes),
        }
        rest = &rest[used..];
    }
    packets
}

/// A number that distinguishes bytes: each time 31 times the number before, and the next byte; `before` is 0 at the first.
fn fold(before: u32, bytes: &[u8]) -> u32 {
    bytes.iter().fold(before, |sum, byte| sum.wrapping_mul(31).wrapping_add(u32::from(*byte)))
}
