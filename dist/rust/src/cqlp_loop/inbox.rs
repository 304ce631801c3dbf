// Written by dist/erase from crates/cqlp_loop/src/inbox.rt.
//! The messages that come over a socket.

use crate::cqlp_loop::fault::LoopFault;
use crate::cqlp_decode::{Decoder, Event, NewError, Step};
use crate::cqlp_note::{Header, IoFault, Limits, Source};

/// How many bytes a read may give.
const PIECE: usize = 4_096;

/// How many reads a message may take.
pub const READS: u32 = 8_192;

/// Takes messages from a source: of each first its header, and then the rest. What a read gives after a message waits
/// for the next.
pub struct Inbox {
    decoder: Decoder,
    /// What the last read gave; of that, the bytes from `next` to `end` wait for the decoder.
    piece: [u8; PIECE],
    next: usize,
    end: usize,
    /// How many reads the message may still take.
    reads: u32,
}

impl Inbox {
    /// At the start of a stream.
    ///
    /// # Errors
    ///
    /// [`LoopFault::NoMemory`] alone.
    pub fn new() -> Result<Inbox, LoopFault> {
        match Decoder::new(Limits::DEFAULT) {
            Ok(decoder) => Ok(Inbox {
                decoder,
                piece: [0; PIECE],
                next: 0,
                end: 0,
                reads: 0,
            }),
            Err(NewError::NoMemory) => Err(LoopFault::NoMemory),
            Err(NewError::BadLimits(_)) => unreachable!(),
        }
    }

    /// The header of the next message. The message may take [`READS`] reads.
    ///
    /// # Errors
    ///
    /// [`LoopFault::BadReply`] where the decoder refuses, [`LoopFault::SocketFault`] where a read fails or gives nothing,
    /// and [`LoopFault::TooManyTurns`].
    pub fn header<R: Source>(&mut self, source: &mut R) -> Result<Header, LoopFault> {
        self.reads = READS;
        match self.pull(source, Edge::Begin) {
            Ok(Mark::Head(header)) => Ok(header),
            Ok(Mark::Tail) => unreachable!(),
            Err(fault) => Err(fault),
        }
    }

    /// The rest of the message whose header came last. Errors as those of [`Inbox::header`].
    pub fn rest<R: Source>(&mut self, source: &mut R) -> Result<(), LoopFault> {
        match self.pull(source, Edge::Finish) {
            Ok(Mark::Head(_)) => unreachable!(),
            Ok(Mark::Tail) => Ok(()),
            Err(fault) => Err(fault),
        }
    }

    /// Reads to the edge.
    fn pull<R: Source>(&mut self, source: &mut R, edge: Edge) -> Result<Mark, LoopFault> {
        loop {
            match self.find(edge) {
                Found::Mark(mark) => return Ok(mark),
                Found::Refused => return Err(LoopFault::BadReply),
                Found::More => self.fill(source)?,
            }
        }
    }

    /// Hands what waits to the decoder, up to the edge.
    fn find(&mut self, edge: Edge) -> Found {
        let piece: &[u8] = &self.piece;
        match seek(&mut self.decoder, &piece[self.next..self.end], edge) {
            Sought::Found { used, mark } => {
                self.next += used;
                Found::Mark(mark)
            }
            Sought::More => {
                self.next = self.end;
                Found::More
            }
            Sought::Refused => Found::Refused,
        }
    }

    /// Makes a read, where nothing waits.
    fn fill<R: Source>(&mut self, source: &mut R) -> Result<(), LoopFault> {
        if self.reads == 0 {
            return Err(LoopFault::TooManyTurns);
        }
        self.reads -= 1;
        self.next = 0;
        self.end = 0;
        match source.read(&mut self.piece) {
            Ok(0) => Err(LoopFault::SocketFault),
            Ok(count) => {
                self.end = count;
                Ok(())
            }
            Err(IoFault) => Err(LoopFault::SocketFault),
        }
    }
}

/// An edge of a message, for which an inbox waits.
#[derive(Clone, Copy)]
enum Edge {
    Begin,
    Finish,
}

/// An edge of a message that came.
#[derive(Clone, Copy)]
enum Mark {
    Head(Header),
    Tail,
}

/// What the bytes of a piece lead to.
#[derive(Clone, Copy)]
enum Sought {
    /// The edge that is waited for, after this many bytes.
    Found { used: usize, mark: Mark },
    /// All of them were used, and the edge did not come.
    More,
    Refused,
}

/// What the bytes that wait lead to.
#[derive(Clone, Copy)]
enum Found {
    /// The edge came.
    Mark(Mark),
    /// All of them were used, and the edge did not come.
    More,
    Refused,
}

/// Hands the bytes of a piece to the decoder, up to the edge.
fn seek(decoder: &mut Decoder, piece: &[u8], edge: Edge) -> Sought {
    let mut used = 0;
    loop {
        match decoder.next(&piece[used..]) {
            Step::More { .. } => return Sought::More,
            Step::Refused(_) => return Sought::Refused,
            Step::Event {
                at: _,
                used: taken,
                event,
            } => {
                used += taken;
                match mark_in(edge, &event) {
                    Some(mark) => return Sought::Found { used, mark },
                    None => {}
                }
            }
        }
    }
}

/// The mark that an event is, if it is the edge that is waited for.
fn mark_in(edge: Edge, event: &Event<'_>) -> Option<Mark> {
    match edge {
        Edge::Begin => match *event {
            Event::Frame(header) => Some(Mark::Head(header)),
            _ => None,
        },
        Edge::Finish => match *event {
            Event::End { .. } => Some(Mark::Tail),
            _ => None,
        },
    }
}
