//! Writes what each end of each TCP connection of a pcap or a pcapng file sent, in order, into a file of its own in a folder, and a line about each; as
//! tcpflow does. Without a folder it counts only.
//!
//! `cargo run --release --example streams CAPTURE [FOLDER]`
#![forbid(unsafe_code)]

use cqlp::capture::{
    CaptureEvent, CaptureLimits, CaptureReader, CaptureStep, Control, Endpoint, LinkType, Segment, Stream, StreamSegment, StreamStep,
    read_segment,
};
use cqlp::memory::AllocError;
use std::collections::{HashMap, VecDeque};
use std::fs::File;
use std::io::{self, BufWriter, ErrorKind, Read, Write};
use std::net::IpAddr;
use std::path::PathBuf;

/// How many bytes of a direction are held at most that came early, with 128 for each segment.
const EARLY: usize = 20_480;

/// How many directions are known at most: the oldest is given up for the next.
const MOST: usize = 2_200;

/// The ends of a direction: its source and its destination.
type Ends = (Endpoint, Endpoint);

/// What is told of a direction.
#[derive(Clone, Copy, Debug, PartialEq, Eq)]
pub enum Told<'a> {
    Began(Ends),
    /// Its next bytes.
    Bytes(&'a [u8]),
    /// So many bytes are missing.
    Gap(u64),
    /// Nothing more is told of it.
    Over,
}

/// A direction, with no stream once that is over.
struct Direction {
    number: u64,
    stream: Option<Stream>,
}

/// The directions that are known, and who is told of them, each by its number.
struct Directions<F> {
    known: HashMap<Ends, Direction>,
    /// In the order in which they came.
    order: VecDeque<Ends>,
    count: u64,
    tell: F,
}

impl<F: FnMut(u64, Told<'_>) -> io::Result<()>> Directions<F> {
    /// Takes a segment: its acknowledgement first, which is of the other direction.
    fn take(&mut self, segment: &Segment<'_>) -> io::Result<()> {
        let head = segment.head;
        if head.flags.ack {
            if let Some(other) = self.known.get_mut(&(head.destination, head.source)) {
                other.pull(&mut self.tell, &[], |stream| Ok(stream.acknowledge(head.acknowledgement)))?;
            }
        }
        let control = Control {
            sequence: head.sequence,
            syn: head.flags.syn,
            fin: head.flags.fin,
            rst: head.flags.rst,
            missing: segment.missing as u32,
        };
        let ends = (head.source, head.destination);
        self.open(ends, head.flags.syn)?;
        match self.known.get_mut(&ends) {
            Some(direction) => {
                let segment = StreamSegment { control, payload: segment.payload, time: None };
                direction.pull(&mut self.tell, segment.payload, |stream| stream.take(&segment, EARLY))
            }
            None => Ok(()),
        }
    }

    /// Has the direction known. One that is over begins again with SYN alone.
    fn open(&mut self, ends: Ends, syn: bool) -> io::Result<()> {
        match self.known.get_mut(&ends) {
            Some(Direction { stream: Some(_), .. }) => return Ok(()),
            Some(_) if !syn => return Ok(()),
            Some(direction) => *direction = Direction { number: self.count, stream: Some(Stream::new()) },
            None => {
                self.give_up_down_to(MOST - 1)?;
                self.order.push_back(ends);
                self.known.insert(ends, Direction { number: self.count, stream: Some(Stream::new()) });
            }
        }
        (self.tell)(self.count, Told::Began(ends))?;
        self.count += 1;
        Ok(())
    }

    /// Forgets the oldest directions, until there are no more than so many.
    fn give_up_down_to(&mut self, most: usize) -> io::Result<()> {
        while self.known.len() > most {
            let oldest = self.order.pop_front().and_then(|ends| self.known.remove(&ends));
            if let Some(Direction { number, stream: Some(_) }) = oldest {
                (self.tell)(number, Told::Over)?;
            }
        }
        Ok(())
    }
}

impl Direction {
    /// Hands on all that a segment or an acknowledgement tells.
    fn pull(
        &mut self,
        tell: &mut impl FnMut(u64, Told<'_>) -> io::Result<()>,
        payload: &[u8],
        mut next: impl FnMut(&mut Stream) -> Result<StreamStep, AllocError>,
    ) -> io::Result<()> {
        while let Some(stream) = &mut self.stream {
            match next(stream).map_err(|_| ErrorKind::OutOfMemory)? {
                StreamStep::Began { .. } | StreamStep::Kept => {}
                StreamStep::Payload { from, count } => tell(self.number, Told::Bytes(&payload[from..from + count]))?,
                StreamStep::Held { .. } => {
                    tell(self.number, Told::Bytes(stream.held()))?;
                    stream.pass_held();
                }
                StreamStep::Gap { length, .. } => tell(self.number, Told::Gap(length))?,
                StreamStep::Ended | StreamStep::Reset => {
                    self.stream = None;
                    tell(self.number, Told::Over)?;
                }
                StreamStep::Done => break,
            }
        }
        Ok(())
    }
}

/// Tells of each direction of each connection in a capture what it sent, by its number.
///
/// # Errors
///
/// Those of the capture, of its files, and of `tell`.
pub fn follow(mut capture: impl Read, tell: impl FnMut(u64, Told<'_>) -> io::Result<()>) -> io::Result<()> {
    let mut reader = CaptureReader::new(CaptureLimits::DEFAULT).map_err(io::Error::other)?;
    let mut directions = Directions { known: HashMap::new(), order: VecDeque::new(), count: 0, tell };
    let (mut link, mut original) = (0, 0);
    let mut piece = vec![0; 1 << 18];
    loop {
        let count = capture.read(&mut piece)?;
        if count == 0 {
            return directions.give_up_down_to(0);
        }
        let mut rest = &piece[..count];
        loop {
            match reader.next(rest) {
                CaptureStep::Event { used, event, .. } => {
                    match event {
                        CaptureEvent::Section(_) | CaptureEvent::Interface(_) | CaptureEvent::Skipped(_) => {}
                        CaptureEvent::Packet(head) => (link, original) = (head.link, head.original),
                        CaptureEvent::Data(packet) => {
                            if let Ok(segment) = LinkType::from_number(link).and_then(|link| read_segment(link, packet, original)) {
                                directions.take(&segment)?;
                            }
                        }
                    }
                    rest = &rest[used..];
                }
                CaptureStep::More { .. } => break,
                CaptureStep::Refused(refusal) => return Err(io::Error::other(format!("{:?} at {}", refusal.why, refusal.at))),
            }
        }
    }
}

/// What was counted of a direction, and the file of its bytes.
struct Account {
    ends: Ends,
    bytes: u64,
    missing: u64,
    file: Option<BufWriter<File>>,
}

fn name(end: &Endpoint) -> String {
    format!("{}.{}", IpAddr::from(end.address), end.port)
}

impl Account {
    fn open(number: u64, ends: Ends, folder: Option<&PathBuf>) -> io::Result<Account> {
        let file = match folder {
            Some(folder) => Some(BufWriter::new(File::create(folder.join(format!("{number}-{}-{}", name(&ends.0), name(&ends.1))))?)),
            None => None,
        };
        Ok(Account { ends, bytes: 0, missing: 0, file })
    }

    fn add(&mut self, bytes: &[u8]) -> io::Result<()> {
        self.bytes += bytes.len() as u64;
        self.file.as_mut().map_or(Ok(()), |file| file.write_all(bytes))
    }

    fn close(self, number: u64, out: &mut impl Write) -> io::Result<()> {
        if let Some(mut file) = self.file {
            file.flush()?;
        }
        let Account { ends: (source, destination), bytes, missing, .. } = self;
        writeln!(out, "{number} {} {} bytes {bytes} missing {missing}", name(&source), name(&destination))
    }
}

fn main() -> io::Result<()> {
    let mut words = std::env::args_os().skip(1);
    let capture = words.next().ok_or_else(|| io::Error::other("streams CAPTURE [FOLDER]"))?;
    let folder = words.next().map(PathBuf::from);
    let mut accounts = HashMap::new();
    let mut out = BufWriter::new(io::stdout().lock());
    follow(File::open(capture)?, |number, told| {
        if let Told::Began(ends) = told {
            accounts.insert(number, Account::open(number, ends, folder.as_ref())?);
        } else if let Some(account) = accounts.get_mut(&number) {
            match told {
                Told::Bytes(bytes) => account.add(bytes)?,
                Told::Gap(length) => account.missing += length,
                Told::Began(_) | Told::Over => {}
            }
        }
        match told {
            Told::Over => accounts.remove(&number).map_or(Ok(()), |account| account.close(number, &mut out)),
            _ => Ok(()),
        }
    })?;
    out.flush()
}
