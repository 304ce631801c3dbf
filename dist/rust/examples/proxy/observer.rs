//! What the two sides of a connection say, as their bytes pass.

use super::line::Line;
use cqlp::memory::AllocError;
use cqlp::watch::{Facts, FactsReader, Heads, Heard, Paired, Pairing, SeenFrame, SeenMessage};
use cqlp::{Header, Opcode};
use std::fmt;
use std::io::Write;

/// How many messages of a connection wait at most for the other of their exchange. Where more are open, the next is told as unanswered.
pub const WAITING: usize = 1_024;

/// How many bytes of a statement are kept.
pub const WORDS: usize = 80;

/// The flag of a header: the body is compressed.
const COMPRESSED: u8 = 0x01;

/// Which way bytes go.
#[derive(Clone, Copy, Debug, PartialEq, Eq)]
pub enum Way {
    /// From the client to the node.
    Requests,
    /// From the node to the client.
    Responses,
}

impl fmt::Display for Way {
    fn fmt(&self, f: &mut fmt::Formatter<'_>) -> fmt::Result {
        f.write_str(match self {
            Way::Requests => "requests",
            Way::Responses => "responses",
        })
    }
}

/// What is kept of a message while it waits, and told of it then.
pub struct Seen {
    pub facts: Facts,
    pub words: Words,
}

/// The first bytes of the body of a QUERY or a PREPARE: the length of its statement, and the statement's first [`WORDS`] bytes.
#[derive(Clone, Copy)]
pub struct Words {
    bytes: [u8; 4 + WORDS],
    len: usize,
}

impl Words {
    fn new() -> Words {
        Words { bytes: [0; 4 + WORDS], len: 0 }
    }

    /// Keeps as many of these bytes as there is room for.
    fn add(&mut self, bytes: &[u8]) {
        let room = &mut self.bytes[self.len..];
        let count = bytes.len().min(room.len());
        room[..count].copy_from_slice(&bytes[..count]);
        self.len += count;
    }

    /// The first bytes of the statement, and whether they are all of it. None where its length has not come, or is negative.
    pub fn statement(&self) -> Option<(&[u8], bool)> {
        let (len, there) = self.bytes[..self.len].split_first_chunk::<4>()?;
        let len = usize::try_from(i32::from_be_bytes(*len)).ok()?;
        let there = &there[..len.min(there.len())];
        Some((there, there.len() == len))
    }
}

/// One direction.
struct Side {
    heads: Heads,
    facts: FactsReader,
    words: Words,
    /// Whether the frame under way is one with a statement at its front.
    has_words: bool,
    /// Where the frame begins that comes next.
    next: u64,
    is_lost: bool,
    is_compressed: bool,
}

impl Side {
    fn new(way: Way) -> Side {
        Side {
            heads: Heads::new(way == Way::Responses, true),
            facts: FactsReader::idle(),
            words: Words::new(),
            has_words: false,
            next: 0,
            is_lost: false,
            is_compressed: false,
        }
    }

    /// A frame begins.
    fn begin(&mut self, header: &Header) {
        let is_plain = header.flags & COMPRESSED == 0;
        self.facts = FactsReader::new(header);
        self.words = Words::new();
        self.has_words = is_plain && matches!(header.opcode, Opcode::Query | Opcode::Prepare);
    }

    /// Bytes of its body pass. What its header announces comes before the statement.
    fn pass(&mut self, bytes: &[u8]) {
        let before = self.facts.read(bytes);
        if self.has_words {
            self.words.add(&bytes[before..]);
        }
    }

    /// It ends.
    fn close(&mut self, frame: SeenFrame) -> SeenMessage<Seen> {
        self.next = frame.at + 9 + u64::from(frame.header.length);
        SeenMessage { frame, kept: Seen { facts: self.facts.facts(), words: self.words } }
    }
}

/// Sees the bytes of both directions of a connection, and writes a line for each request with its reply, when the reply's last byte has come.
/// Memory is taken for each message that waits. Lines that cannot be written are lost, and so are messages that are refused memory.
pub struct Observer<W> {
    /// The connection's number, with which each line begins.
    number: u64,
    requests: Side,
    responses: Side,
    pairing: Pairing<Seen>,
    out: W,
}

impl<W: Write> Observer<W> {
    /// Nothing was seen of the connection with this number. Lines go to `out`.
    pub fn new(number: u64, out: W) -> Result<Self, AllocError> {
        Ok(Observer { number, requests: Side::new(Way::Requests), responses: Side::new(Way::Responses), pairing: Pairing::new()?, out })
    }

    /// Sees the next bytes of a direction, which came at this time: nanoseconds of any clock that does not go back.
    pub fn hear(&mut self, way: Way, piece: &[u8], time: u64) {
        let mut rest = piece;
        loop {
            // The bytes of a connection are all here, so that no place is sought where frames begin again.
            let step = self.side(way).heads.take(rest, Some(time), false);
            let (bytes, later) = rest.split_at(step.used);
            match step.heard {
                Heard::Begins(header) => self.begin(way, &header),
                Heard::Body => self.side(way).pass(bytes),
                Heard::Ends(frame) => self.close(way, frame),
                Heard::Stray => self.lose(way),
                Heard::More => return,
            }
            rest = later;
        }
    }

    /// No more bytes of a direction come.
    pub fn end(&mut self, way: Way) {
        if let Some(frame) = self.side(way).heads.end() {
            self.close(way, frame);
        }
    }

    /// The connection is over. Requests that have no reply are told.
    pub fn finish(&mut self) {
        while let Some(told) = self.pairing.end() {
            self.tell(&told);
        }
    }

    fn side(&mut self, way: Way) -> &mut Side {
        match way {
            Way::Requests => &mut self.requests,
            Way::Responses => &mut self.responses,
        }
    }

    /// A frame begins. The first one that is compressed is told of.
    fn begin(&mut self, way: Way, header: &Header) {
        let side = self.side(way);
        side.begin(header);
        let at = side.next;
        if header.flags & COMPRESSED != 0 && !side.is_compressed {
            side.is_compressed = true;
            self.say(format!("{}: {way} are compressed from byte {at} on: told by their headers", self.number));
        }
    }

    /// A frame has ended, and is paired.
    fn close(&mut self, way: Way, frame: SeenFrame) {
        let message = self.side(way).close(frame);
        let has_room = self.pairing.len() < WAITING;
        if let Ok(Some(told)) = self.pairing.take(message, has_room) {
            self.tell(&told);
        }
    }

    /// What comes is no frame of version 4. The first time, that is told.
    fn lose(&mut self, way: Way) {
        let side = self.side(way);
        let at = side.next;
        if !side.is_lost {
            side.is_lost = true;
            self.say(format!("{}: {way} are not of version 4 from byte {at} on: passed on unread", self.number));
        }
    }

    fn tell(&mut self, told: &Paired<Seen>) {
        self.say(Line { number: self.number, told }.to_string());
    }

    /// Writes a line by one call, so that lines of several connections do not mix.
    fn say(&mut self, mut line: String) {
        line.push('\n');
        let _ = self.out.write_all(line.as_bytes());
    }
}
